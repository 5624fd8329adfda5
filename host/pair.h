/* Two sparse images that a command takes: opened, held, and what is said where they are refused. */
#ifndef PAIR_H
#define PAIR_H

#include "files.h"
#include "replace.h"
#include "tarpaulark.h"

#include <stdint.h>

/* Block size and total blocks of an image; zeros where its file header is refused. */
struct geometry {
    uint64_t block, total;
};

/* The first image and the second, which may be one file. */
struct pair {
    struct mapped images[2];
    struct geometry both[2];
};

/* What the two are called. */
extern const char *const sides[2];

/* Opens both images. */
void open_pair(struct pair *pair, const char *const paths[2]);

/* Bad usage, in these words, where the file in a place is one of the images. */
void expect_neither(const struct pair *pair, const struct place *place, const char *what);

/* Locks and maps both images, and reads their geometry. */
void hold_pair(struct pair *pair);

/* Fails where one of the images was changed while they were read. */
void expect_pair_read(const struct pair *pair);

bool is_geometry_equal(const struct pair *pair);

/* Says a refusal of the pair by the answer of compare or join, what it means, and the image that it is of, or the
   geometry of both. */
enum status refuse_pair(
    const struct pair *pair, uint32_t number, const char *meaning, const uint64_t answer[TARPAULARK_COMPARE_ANSWER]);

#endif
