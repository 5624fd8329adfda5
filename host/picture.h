/* A partition as cells, each a stretch of so many blocks, with how many blocks of each kind it has. */
#ifndef PICTURE_H
#define PICTURE_H

#include "replace.h"

#include <stddef.h>
#include <stdint.h>

enum { COLUMNS = 64, MOST_CELLS = 16 * COLUMNS, MOST_KINDS = 5 };

/* A kind of block: its name, how it is painted, and what becomes of such blocks. */
struct kind {
    const char *name, *paint, *does;
};

struct picture {
    const struct kind *kinds;
    size_t kind_count;
    uint64_t block;    /* bytes of a block */
    uint64_t total;    /* blocks */
    uint64_t per_cell; /* blocks of a cell, but for the last */
    size_t cells;
    uint64_t parts[MOST_CELLS][MOST_KINDS];
    uint64_t totals[MOST_KINDS];
};

/* What a cell is drawn as in text. A list of signs ends with one without a meaning. */
struct sign {
    char letter;
    const char *meaning;
};

/* A picture of so many blocks of so many bytes, none of which has its kind yet. */
void begin_picture(
    struct picture *picture, const struct kind *kinds, size_t kind_count, uint64_t block, uint64_t total);

/* Gives so many blocks from the first on their kind. */
void add_blocks(struct picture *picture, size_t kind, uint64_t first, uint64_t blocks);

/* Says what a cell is, and what those of the signs mean that were drawn. */
void say_legend(const struct picture *picture, const struct sign *signs, const char *drawn);

/* A path without the folder's name. */
const char *last_part(const char *path);

/* Where an SVG file is to stand; nowhere where the path is null. */
struct place svg_place(const char *path);

/* Puts the picture there as SVG, if it is to stand anywhere. As put_in_place answers. */
int save_svg(const struct picture *picture, const struct place *place, const char *title);

#endif
