/* A sparse image, judged and then read chunk by chunk through the library. */
#ifndef CHUNKS_H
#define CHUNKS_H

#include "files.h"
#include "tarpaulark.h"

#include <stdbool.h>
#include <stdint.h>

enum { KINDS = 4 };

/* A chunk: its kind, its first block and how many they are, and where its data begin in the image. */
struct chunk {
    unsigned kind;
    uint32_t first;
    uint32_t blocks;
    uint64_t data;
};

/* What there may be to remark on an accepted image. */
struct remarks {
    uint64_t checksum;       /* as stated; 0 where none is */
    uint64_t chunks, blocks; /* of unknown type; no chunks where only their blocks were counted */
    uint64_t at;             /* where the first of these chunks stands in the image */
    unsigned type;           /* its type */
};

/* An image on the way: its header, the chunk that comes next, and what to remark by then. */
struct walk {
    const struct mapped *image;
    uint64_t header[TARPAULARK_HEADER_ANSWER];
    uint64_t left;
    uint64_t at;
    uint32_t first;
    struct remarks remarks;
};

/* Judges an image for a partition of so many bytes, and begins to walk it; 0 or the refusal. */
uint32_t begin_walk(
    struct walk *walk, const struct mapped *image, uint64_t room, uint64_t answer[TARPAULARK_JUDGE_ANSWER]);

/* The next chunk; false after the last. */
bool next_chunk(struct walk *walk, struct chunk *chunk);

/* The number in four bytes, low byte first, as the word of a fill chunk where its data begin. */
uint32_t word_at(const uint8_t *at);

/* Fails where the image was changed while it was read. */
void expect_read(const struct mapped *image);

/* What to remark on an image that was accepted. It is walked to its end, and must not be changed meanwhile. */
struct remarks remarks_on(const struct mapped *image);

/* Says how many blocks of an accepted image are written, skipped (don't care) and of unknown chunks. */
void say_counts(const uint64_t answer[TARPAULARK_JUDGE_ANSWER]);

/* Says after the answer that the data were not checked, where no checksum is stated, and that there are chunks
   of unknown type, where there are. */
void say_remarks(const struct remarks *remarks);

/* Says the same of one of two images, in one line; of blocks of unknown type only that it does not write them,
   since the other may. */
void say_remarks_of(const char *side, const struct remarks *remarks);

#endif
