/* The file of a slot record. */
#ifndef RECORD_H
#define RECORD_H

#include "replace.h"
#include "tarpaulark.h"

#include <sys/types.h>

/* Reads a record; how many bytes there were, up to one more than a record has. */
ssize_t read_record(const char *path, int file, uint8_t record[TARPAULARK_RECORD]);

/* The same of one that may be replaced: it is held in its place. Fails where there is no file. */
ssize_t hold_record(const char *path, struct place *place, uint8_t record[TARPAULARK_RECORD]);

/* What a file is that has the length of an old record, with words before and after; null for any other length. */
const char *words_on_old(off_t length, const char *before, const char *after);

/* Refuses a file of so many bytes; of one that has the length of an old record it is said what it is. */
enum status refuse_record(ssize_t length);

/* The bytes of a slot, and the letter of the current one. */
const uint8_t *slot_in(const uint8_t *record, char letter);
char current_of(const uint8_t *record);

/* Says, after the answer to a start, where the folder of its record is perhaps not on the disk, what that means; the
   status to leave with. */
enum status start_stands(const struct place *place, int error);

#endif
