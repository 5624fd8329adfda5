#include "record.h"

#include <errno.h>
#include <stdio.h>
#include <string.h>
#include <unistd.h>

/* Records of earlier versions, which only their length tells. */
static const struct old_record {
    int length;
    const char *made_by, *lacks;
} old_records[] = {
    {21, "0.5.0 and 0.6.0", "the count of startable slots"},
    {17, "0.4.0 and before", "the flag corrupted and the count of startable slots"},
};

ssize_t read_record(const char *path, int file, uint8_t record[TARPAULARK_RECORD])
{
    uint8_t bytes[TARPAULARK_RECORD + 1] = {0};
    ssize_t length = pread(file, bytes, sizeof bytes, 0);

    if (length < 0)
        failed(path, "cannot be read; see to the disk", errno);
    memcpy(record, bytes, TARPAULARK_RECORD);
    return length;
}

ssize_t hold_record(const char *path, struct place *place, uint8_t record[TARPAULARK_RECORD])
{
    *place = hold_place(path);
    if (place->held < 0)
        failed(path, "cannot be opened; see that it is there and that you may use it", ENOENT);
    return read_record(path, place->held, record);
}

const char *words_on_old(off_t length, const char *before, const char *after)
{
    static char text[320];

    for (size_t i = 0; i < sizeof old_records / sizeof old_records[0]; i++)
        if (old_records[i].length == length) {
            snprintf(text, sizeof text, "%s is a slot record of %d bytes, as tarpaulark %s made it, without %s; to make"
                     " a new one of it, see NOTES in the man page%s", before, old_records[i].length,
                     old_records[i].made_by, old_records[i].lacks, after);
            return text;
        }
    return NULL;
}

enum status refuse_record(ssize_t length)
{
    enum status status = refuse(TARPAULARK_BAD_RECORD, 0);
    const char *old = words_on_old(length, "by its length this", "");

    if (old != NULL)
        advise("record", old);
    return status;
}

const uint8_t *slot_in(const uint8_t *record, char letter)
{
    return record + TARPAULARK_RECORD_SLOT * (letter - 'a');
}

char current_of(const uint8_t *record)
{
    return (char)('a' + record[TARPAULARK_RECORD_CURRENT]);
}

enum status start_stands(const struct place *place, int error)
{
    if (error == 0)
        return DONE;
    return troubled(place->path, "is replaced, and what this start takes is spent; only its folder may not be"
                                 " on the disk. Go by the answer; see to the disk", error);
}
