/* A picture of what a sparse image does to its partition. */
#include "chunks.h"
#include "commands.h"
#include "picture.h"

#include <inttypes.h>
#include <stdio.h>

/* Painted dark to light in this order, so that the kinds tell apart without colour. */
static const struct kind kinds[KINDS] = {
    [TARPAULARK_RAW] = {"raw", "#1f4e79", "stored as they come"},
    [TARPAULARK_FILL] = {"fill", "#5aa5a0", "stored, one word repeated"},
    [TARPAULARK_DONT_CARE] = {"kept", "#eef0ea", "left as they were"},
    [TARPAULARK_UNKNOWN] = {"unknown", "url(#hatched)", "unknown chunk: left as they were"},
};

static const struct sign signs[] = {
    {'#', "raw"}, {'=', "fill"}, {'.', "kept"}, {'?', "unknown, kept too"},
    {'+', "raw and fill"}, {'%', "partly kept"}, {'!', "partly unknown"}, {0, NULL},
};

static void draw(struct picture *picture, struct walk *walk)
{
    struct chunk chunk;

    begin_picture(picture, kinds, KINDS, walk->header[TARPAULARK_HEADER_BLOCK],
                  walk->header[TARPAULARK_HEADER_TOTAL]);
    while (next_chunk(walk, &chunk))
        add_blocks(picture, chunk.kind, chunk.first, chunk.blocks);
}

/* One kind of block has its own sign; of several, whether some are unknown, else whether all are stored. */
static char sign_of(const uint64_t parts[KINDS])
{
    bool raw = parts[TARPAULARK_RAW] != 0, fill = parts[TARPAULARK_FILL] != 0;
    bool kept = parts[TARPAULARK_DONT_CARE] != 0;

    if (parts[TARPAULARK_UNKNOWN] != 0)
        return raw || fill || kept ? '!' : '?';
    if (kept)
        return raw || fill ? '%' : '.';
    return raw && fill ? '+' : raw ? '#' : '=';
}

static void say_cells(const struct picture *picture)
{
    char cells[MOST_CELLS + 1], line[COLUMNS + 32];

    for (size_t i = 0; i < picture->cells; i++)
        cells[i] = sign_of(picture->parts[i]);
    cells[picture->cells] = '\0';
    for (size_t at = 0; at < picture->cells; at += COLUMNS) {
        snprintf(line, sizeof line, "%10" PRIu64 "  %.*s", at * picture->per_cell, COLUMNS, cells + at);
        say_line(line);
    }
    if (picture->cells != 0)
        say_legend(picture, signs, cells);
    say_only_json("cells", cells);
}

static void say_picture(const struct picture *picture)
{
    say_number("block", picture->block);
    say_number("total", picture->total);
    say_number("cell", picture->per_cell);
    end_line();
    say_cells(picture);
    say_word("blocks");
    for (size_t kind = 0; kind < KINDS; kind++)
        say_number(kinds[kind].name, picture->totals[kind]);
    end_line();
}

enum status map(const struct request *request)
{
    static struct picture picture;
    uint64_t answer[TARPAULARK_JUDGE_ANSWER];
    struct mapped image = open_file(request->words[0], READ_IMAGE);
    struct place place = svg_place(request->svg);
    struct walk walk;
    uint32_t number;
    int error;

    expect_other(&place, &image, "IMAGE and the SVG file are one file: name two");
    hold_file(&image);
    number = begin_walk(&walk, &image, UINT64_MAX, answer);
    expect_read(&image);
    if (number != 0)
        return refuse(number, answer[TARPAULARK_PLACE]);
    draw(&picture, &walk);
    expect_read(&image);
    error = save_svg(&picture, &place, last_part(image.path));
    say_picture(&picture);
    return stands(&place, error);
}
