#include "picture.h"

#include <inttypes.h>
#include <stdio.h>
#include <string.h>

void begin_picture(
    struct picture *picture, const struct kind *kinds, size_t kind_count, uint64_t block, uint64_t total)
{
    memset(picture, 0, sizeof *picture);
    picture->kinds = kinds;
    picture->kind_count = kind_count;
    picture->block = block;
    picture->total = total;
    picture->per_cell = total <= MOST_CELLS ? 1 : (total + MOST_CELLS - 1) / MOST_CELLS;
    picture->cells = (size_t)((total + picture->per_cell - 1) / picture->per_cell);
}

void add_blocks(struct picture *picture, size_t kind, uint64_t first, uint64_t blocks)
{
    uint64_t at = first, end = first + blocks;

    picture->totals[kind] += blocks;
    while (at < end) {
        uint64_t cell = at / picture->per_cell, cell_end = (cell + 1) * picture->per_cell;
        uint64_t next = cell_end < end ? cell_end : end;

        picture->parts[cell % MOST_CELLS][kind] += next - at;
        at = next;
    }
}

void say_legend(const struct picture *picture, const struct sign *signs, const char *drawn)
{
    char text[256];
    int length = snprintf(text, sizeof text, "a cell is %" PRIu64 " block%s:", picture->per_cell,
                          picture->per_cell == 1 ? "" : "s");

    for (; signs->meaning != NULL; signs++)
        if (strchr(drawn, signs->letter) != NULL)
            length += snprintf(text + length, sizeof text - (size_t)length, "  %c %s", signs->letter,
                               signs->meaning);
    say_line(text);
}

const char *last_part(const char *path)
{
    const char *last = strrchr(path, '/');

    return last == NULL ? path : last + 1;
}
