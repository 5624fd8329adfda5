/* Writing a sparse image from flat bytes. */
#include "chunks.h"
#include "commands.h"
#include "replace.h"

enum status write_image(const struct request *request)
{
    uint64_t answer[TARPAULARK_WRITE_ANSWER], block, room = 0;
    struct mapped flat, out;
    struct place place;
    uint32_t number;
    int error;

    if (!as_number(request->words[1], UINT32_MAX, &block))
        misused(NULL, "BLOCK-SIZE is a number of bytes up to 4294967295");
    flat = open_file(request->words[0], READ_IMAGE);
    place = hold_place(request->words[2]);
    expect_other(&place, &flat, "FLAT and OUT are one file: name two");
    hold_file(&flat);
    if (block >= 4 && flat.length <= TARPAULARK_MOST_FLAT)
        room = TARPAULARK_WRITE_BOUND(flat.length, block);
    out = make_new(&place, room);
    number = tarpaulark_write(flat.at, flat.length, (uint32_t)block, out.at, out.length, answer);
    expect_read(&flat);
    if (number != 0)
        return refuse(number, answer[TARPAULARK_PLACE]);
    error = put_in_place(&place, &out, answer[TARPAULARK_LENGTH]);
    say_word("ok");
    say_number("bytes", answer[TARPAULARK_LENGTH]);
    end_line();
    return stands(&place, error);
}
