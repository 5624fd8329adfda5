/* Making one sparse image of two. */
#include "chunks.h"
#include "commands.h"
#include "pair.h"
#include "refusals.h"

static bool is_too_large(const struct geometry *geometry)
{
    return geometry->total * geometry->block > TARPAULARK_MOST_FLAT;
}

/* Of both refusals that have the number 17, the one that it is here. */
static const char *meaning_of(const struct pair *pair, uint32_t number)
{
    if (number == TARPAULARK_BAD_GEOMETRY && is_geometry_equal(pair) && is_too_large(pair->both))
        return "total blocks x block size above 2,147,483,648: too large to be joined";
    return refusal_meaning(number);
}

/* The lesser of two lengths that are both enough. Images that get 17 in any case need no room. */
static uint64_t room_for(const struct pair *pair)
{
    uint64_t by_length = TARPAULARK_JOIN_LENGTH_BOUND(pair->images[0].length, pair->images[1].length);
    uint64_t by_blocks = TARPAULARK_JOIN_BOUND(pair->both->total, pair->both->block);

    if (!is_geometry_equal(pair) || is_too_large(pair->both))
        return 0;
    return by_length < by_blocks ? by_length : by_blocks;
}

static void say_joined(uint64_t length, const uint64_t header[TARPAULARK_HEADER_ANSWER])
{
    say_word("ok");
    say_number("bytes", length);
    say_number("block", header[TARPAULARK_HEADER_BLOCK]);
    say_number("total", header[TARPAULARK_HEADER_TOTAL]);
    say_number("chunks", header[TARPAULARK_HEADER_CHUNKS]);
    end_line();
}

/* Puts the joined image in its place, and says the answer and what there is to remark on the two. */
static enum status put_joined(
    const struct pair *pair, const struct place *place, const struct mapped *out, uint64_t length)
{
    uint64_t header[TARPAULARK_HEADER_ANSWER];
    struct remarks remarks[2];
    int error;

    for (size_t i = 0; i < 2; i++)
        remarks[i] = remarks_on(pair->images + i);
    tarpaulark_header(out->at, length, UINT64_MAX, header);
    error = put_in_place(place, out, length);
    say_joined(length, header);
    for (size_t i = 0; i < 2; i++)
        say_remarks_of(sides[i], remarks + i);
    return stands(place, error);
}

enum status join(const struct request *request)
{
    uint64_t answer[TARPAULARK_JOIN_ANSWER];
    struct mapped out;
    struct place place;
    struct pair pair;
    uint32_t number;

    open_pair(&pair, request->words);
    place = hold_place(request->words[2]);
    expect_neither(&pair, &place, "an image and OUT are one file: name another");
    hold_pair(&pair);
    out = make_new(&place, room_for(&pair));
    number = tarpaulark_join(pair.images[0].at, pair.images[0].length, pair.images[1].at, pair.images[1].length,
                             out.at, out.length, answer);
    expect_pair_read(&pair);
    if (number != 0)
        return refuse_pair(&pair, number, meaning_of(&pair, number), answer);
    return put_joined(&pair, &place, &out, answer[TARPAULARK_JOINED]);
}
