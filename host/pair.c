#include "pair.h"

#include "answer.h"
#include "chunks.h"

#include <inttypes.h>
#include <stdio.h>

const char *const sides[2] = {"first", "second"};

static struct geometry geometry_of(const struct mapped *image)
{
    uint64_t header[TARPAULARK_HEADER_ANSWER];

    tarpaulark_header(image->at, image->length, UINT64_MAX, header);
    return (struct geometry){header[TARPAULARK_HEADER_BLOCK], header[TARPAULARK_HEADER_TOTAL]};
}

void open_pair(struct pair *pair, const char *const paths[2])
{
    for (size_t i = 0; i < 2; i++)
        pair->images[i] = open_file(paths[i], READ_IMAGE);
}

void expect_neither(const struct pair *pair, const struct place *place, const char *what)
{
    for (size_t i = 0; i < 2; i++)
        expect_other(place, pair->images + i, what);
}

void hold_pair(struct pair *pair)
{
    for (size_t i = 0; i < 2; i++) {
        hold_file(pair->images + i);
        pair->both[i] = geometry_of(pair->images + i);
    }
}

void expect_pair_read(const struct pair *pair)
{
    for (size_t i = 0; i < 2; i++)
        expect_read(pair->images + i);
}

bool is_geometry_equal(const struct pair *pair)
{
    return pair->both[0].block == pair->both[1].block && pair->both[0].total == pair->both[1].total;
}

/* Says block size and total blocks of both images, once where they are equal. */
static void advise_geometry(const struct pair *pair)
{
    const struct geometry *both = pair->both;
    char text[192];

    if (is_geometry_equal(pair))
        snprintf(text, sizeof text, "both images: block %" PRIu64 " total %" PRIu64, both[0].block, both[0].total);
    else
        snprintf(text, sizeof text, "first image: block %" PRIu64 " total %" PRIu64 "; second image: block %" PRIu64
                 " total %" PRIu64, both[0].block, both[0].total, both[1].block, both[1].total);
    advise("geometry", text);
}

enum status refuse_pair(
    const struct pair *pair, uint32_t number, const char *meaning, const uint64_t answer[TARPAULARK_COMPARE_ANSWER])
{
    enum status status = refuse_because(number, answer[TARPAULARK_PLACE], meaning);
    uint64_t image = answer[TARPAULARK_IMAGE];

    if (image != 0)
        name_image(sides[image - 1], pair->images[image - 1].path);
    if (number == TARPAULARK_BAD_GEOMETRY)
        advise_geometry(pair);
    return status;
}
