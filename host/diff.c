/* What changed between two sparse images. */
#include "commands.h"
#include "picture.h"
#include "refusals.h"
#include "runs.h"

#include <inttypes.h>
#include <limits.h>
#include <stdio.h>
#include <stdlib.h>

/* Cells in a line of each of the two images. */
enum { SIDE = COLUMNS / 2 };

/* Painted so that the kinds tell apart without colour. */
static const struct kind kinds[CHANGES] = {
    [TARPAULARK_NEITHER] = {"neither", "#eef0ea", "neither image writes them"},
    [TARPAULARK_ONLY_FIRST] = {"only first", "#5aa5a0", "only the first image writes them"},
    [TARPAULARK_ONLY_SECOND] = {"only second", "url(#hatched)", "only the second image writes them"},
    [TARPAULARK_EQUAL] = {"equal", "#b4c3d0", "both write them, the same bytes"},
    [TARPAULARK_DIFFERENT] = {"different", "#1f4e79", "both write them, other bytes"},
};

static const struct sign signs[] = {
    {'.', "not written"}, {'+', "in this image alone"}, {'=', "in both, equal"}, {'#', "in both, different"},
    {'-', "mixed, none changed"}, {'%', "mixed, some changed"}, {0, NULL},
};

static void draw(struct picture *picture, const struct runs *runs, struct geometry geometry)
{
    begin_picture(picture, kinds, CHANGES, geometry.block, geometry.total);
    for (uint64_t i = 0; i < runs->count; i++) {
        struct run run = run_at(runs, i);

        add_blocks(picture, run.kind, run.first, run.blocks);
    }
}

/* What the image whose own blocks are of the kind `alone` does in a cell. Of several kinds, whether some changed. */
static char sign_of(const uint64_t parts[CHANGES], size_t alone)
{
    size_t present = 0;

    for (size_t kind = 0; kind < CHANGES; kind++)
        present += parts[kind] != 0;
    if (parts[alone] == 0 && parts[TARPAULARK_EQUAL] == 0 && parts[TARPAULARK_DIFFERENT] == 0)
        return '.';
    if (present == 1)
        return parts[alone] != 0 ? '+' : parts[TARPAULARK_EQUAL] != 0 ? '=' : '#';
    return present == 2 && parts[TARPAULARK_NEITHER] != 0 && parts[TARPAULARK_EQUAL] != 0 ? '-' : '%';
}

/* The lines of cells, both images side by side. */
static void say_lines(const struct picture *picture, char cells[2][MOST_CELLS + 1])
{
    char line[2 * SIDE + 32], drawn[2 * (MOST_CELLS + 1)];

    if (picture->cells == 0)
        return;
    snprintf(line, sizeof line, "%10s  %-*s  %s", "block", SIDE, sides[0], sides[1]);
    say_line(line);
    for (size_t at = 0; at < picture->cells; at += SIDE) {
        snprintf(line, sizeof line, "%10" PRIu64 "  %-*.*s  %.*s", at * picture->per_cell, SIDE, SIDE, cells[0] + at,
                 SIDE, cells[1] + at);
        say_line(line);
    }
    snprintf(drawn, sizeof drawn, "%s%s", cells[0], cells[1]);
    say_legend(picture, signs, drawn);
}

static void say_map(const struct picture *picture)
{
    static const size_t alone[] = {TARPAULARK_ONLY_FIRST, TARPAULARK_ONLY_SECOND};
    char cells[2][MOST_CELLS + 1] = {"", ""};

    for (size_t side = 0; side < 2; side++)
        for (size_t i = 0; i < picture->cells; i++)
            cells[side][i] = sign_of(picture->parts[i], alone[side]);
    say_lines(picture, cells);
    for (size_t side = 0; side < 2; side++)
        say_only_json(sides[side], cells[side]);
}

/* Blocks and bytes of a kind, those of a run or all. */
static void say_blocks(size_t kind, uint64_t blocks, uint64_t block)
{
    say_name_column("kind", 11, kinds[kind].name);
    say_column("blocks", 10, blocks);
    say_column("bytes", 15, blocks * block);
}

static void say_runs(const struct runs *runs, uint64_t block)
{
    open_list("list");
    for (uint64_t i = 0; i < runs->count; i++) {
        struct run run = run_at(runs, i);

        open_item();
        say_column("first", 11, run.first);
        say_blocks(run.kind, run.blocks, block);
        close_item();
    }
    close_list();
}

static void say_totals(const struct picture *picture)
{
    open_list("totals");
    for (size_t kind = 0; kind < CHANGES; kind++) {
        open_item();
        say_word("      total");
        say_blocks(kind, picture->totals[kind], picture->block);
        close_item();
    }
    close_list();
}

static void say_changes(const struct picture *picture, const struct runs *runs, bool as_map)
{
    say_number("block", picture->block);
    say_number("total", picture->total);
    say_number("runs", runs->count);
    if (as_map)
        say_number("cell", picture->per_cell);
    end_line();
    if (as_map) {
        say_map(picture);
        say_line("            kind            blocks           bytes");
    } else {
        say_line("first block kind            blocks           bytes");
        say_runs(runs, picture->block);
    }
    say_totals(picture);
}

/* Draws the runs, puts the picture where it is to stand, if anywhere, and says the answer. */
static enum status show(
    const struct request *request, const struct pair *pair, const struct runs *runs, const struct place *place)
{
    static struct picture picture;
    char title[2 * NAME_MAX + 8];
    int error;

    draw(&picture, runs, pair->both[0]);
    snprintf(title, sizeof title, "%s and %s", last_part(pair->images[0].path), last_part(pair->images[1].path));
    error = save_svg(&picture, place, title);
    say_changes(&picture, runs, request->map);
    return stands(place, error);
}

enum status diff(const struct request *request)
{
    uint64_t answer[TARPAULARK_COMPARE_ANSWER];
    struct place place;
    struct pair pair;
    struct runs runs;
    enum status status;
    uint32_t number;

    open_pair(&pair, request->words);
    place = svg_place(request->svg);
    expect_neither(&pair, &place, "an image and the SVG file are one file: name another");
    hold_pair(&pair);
    number = find_runs(&runs, &pair, answer);
    expect_pair_read(&pair);
    status = number != 0 ? refuse_pair(&pair, number, refusal_meaning(number), answer)
                         : show(request, &pair, &runs, &place);
    free(runs.numbers);
    return status;
}
