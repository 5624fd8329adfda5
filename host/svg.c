/* The picture of a partition as SVG. */
#include "answer.h"
#include "characters.h"
#include "picture.h"

#include <inttypes.h>
#include <limits.h>
#include <stdio.h>
#include <stdlib.h>

enum { LEFT = 96, TOP = 92, RIGHT = 32, LEGEND_LINE = 24, NARROWEST = 780, LETTER = 16 };

/* A small share still shows as this part of its cell. */
static const double least_share = 0.15;

/* At most so many characters; dots stand for the rest. */
static void put_escaped(FILE *out, const char *text, int most)
{
    for (; *text != '\0' && most > 0; most--) {
        int length = character_length(text);

        if (*text == '&')
            fputs("&amp;", out);
        else if (*text == '<')
            fputs("&lt;", out);
        else if (*text == '>')
            fputs("&gt;", out);
        else if (length == 0 || is_control(text))
            fputc('?', out);
        else
            fprintf(out, "%.*s", length, text);
        text += length == 0 ? 1 : length;
    }
    if (*text != '\0')
        fputs("&#8230;", out);
}

/* A number with a comma before each three digits. */
static void put_number(FILE *out, uint64_t number)
{
    char digits[24];
    int length = snprintf(digits, sizeof digits, "%" PRIu64, number);

    for (int i = 0; i < length; i++) {
        if (i > 0 && (length - i) % 3 == 0)
            fputc(',', out);
        fputc(digits[i], out);
    }
}

static void put_head(FILE *out, const struct picture *picture, const char *title, int width, int height)
{
    fprintf(out, "<svg xmlns=\"http://www.w3.org/2000/svg\" viewBox=\"0 0 %d %d\" width=\"%d\" height=\"%d\""
                 " font-family=\"Helvetica, Arial, sans-serif\" fill=\"#22303c\">\n<title>",
            width, height, width, height);
    put_escaped(out, title, INT_MAX);
    fputs("</title>\n<defs><pattern id=\"hatched\" width=\"6\" height=\"6\" patternUnits=\"userSpaceOnUse\""
          " patternTransform=\"rotate(45)\"><rect width=\"6\" height=\"6\" fill=\"#fbe3c4\"/>"
          "<rect width=\"3\" height=\"6\" fill=\"#d9822b\"/></pattern></defs>\n", out);
    fprintf(out, "<rect width=\"%d\" height=\"%d\" rx=\"10\" fill=\"#ffffff\" stroke=\"#d5dade\"/>\n", width, height);
    fprintf(out, "<text x=\"32\" y=\"44\" font-size=\"20\" font-weight=\"bold\">");
    put_escaped(out, title, (width - 64) / LETTER);
    fputs("</text>\n<text x=\"32\" y=\"68\" font-size=\"13\" fill=\"#5b6b78\">", out);
    put_number(out, picture->total);
    fputs(picture->total == 1 ? " block of " : " blocks of ", out);
    put_number(out, picture->block);
    fputs(" bytes; a cell is ", out);
    put_number(out, picture->per_cell);
    fputs(picture->per_cell == 1 ? " block" : " blocks, split by kind; a small part shows larger than it is", out);
    fputs("</text>\n", out);
}

/* The shares of a cell's kinds, each that is there large enough to be seen; they add up to 1. */
static void shares_of(const uint64_t parts[MOST_KINDS], double shares[MOST_KINDS])
{
    double blocks = 0, sum = 0;

    for (size_t kind = 0; kind < MOST_KINDS; kind++)
        blocks += (double)parts[kind];
    for (size_t kind = 0; kind < MOST_KINDS; kind++) {
        shares[kind] = blocks > 0 ? (double)parts[kind] / blocks : 0;
        if (parts[kind] != 0 && shares[kind] < least_share)
            shares[kind] = least_share;
        sum += shares[kind];
    }
    for (size_t kind = 0; kind < MOST_KINDS && sum > 0; kind++)
        shares[kind] /= sum;
}

static void put_note(FILE *out, const struct picture *picture, size_t cell)
{
    uint64_t first = cell * picture->per_cell, last = first + picture->per_cell - 1;

    fprintf(out, "<title>blocks %" PRIu64 " to %" PRIu64 ":", first,
            last < picture->total ? last : picture->total - 1);
    for (size_t kind = 0; kind < picture->kind_count; kind++)
        if (picture->parts[cell][kind] != 0)
            fprintf(out, " %s %" PRIu64, picture->kinds[kind].name, picture->parts[cell][kind]);
    fputs("</title>", out);
}

/* A cell, from its top down in the kinds that it has. */
static void put_cell(FILE *out, const struct picture *picture, size_t cell, double x, double y, double size)
{
    double shares[MOST_KINDS], down = y;

    shares_of(picture->parts[cell], shares);
    fputs("<g>", out);
    put_note(out, picture, cell);
    for (size_t kind = 0; kind < picture->kind_count; kind++) {
        if (shares[kind] <= 0)
            continue;
        fprintf(out, "<rect x=\"%.1f\" y=\"%.2f\" width=\"%.1f\" height=\"%.2f\" fill=\"%s\"/>", x, down, size,
                shares[kind] * size, picture->kinds[kind].paint);
        down += shares[kind] * size;
    }
    fprintf(out, "<rect x=\"%.1f\" y=\"%.1f\" width=\"%.1f\" height=\"%.1f\" fill=\"none\" stroke=\"#22303c\""
                 " stroke-opacity=\"0.35\"/></g>\n", x, y, size, size);
}

static void put_cells(FILE *out, const struct picture *picture, int pitch)
{
    for (size_t cell = 0; cell < picture->cells; cell++) {
        size_t column = cell % COLUMNS, row = cell / COLUMNS;
        double y = TOP + (double)row * pitch;

        if (column == 0) {
            fprintf(out, "<text x=\"%d\" y=\"%.1f\" font-size=\"11\" text-anchor=\"end\" fill=\"#5b6b78\">",
                    LEFT - 10, y + pitch / 2.0 + 3);
            put_number(out, cell * picture->per_cell);
            fputs("</text>\n", out);
        }
        put_cell(out, picture, cell, LEFT + (double)column * pitch, y, pitch - 2);
    }
}

/* A line for each kind: its paint, its blocks and bytes, and what becomes of them. */
static void put_legend(FILE *out, const struct picture *picture, int y)
{
    for (size_t kind = 0; kind < picture->kind_count; kind++, y += LEGEND_LINE) {
        fprintf(out, "<rect x=\"32\" y=\"%d\" width=\"14\" height=\"14\" fill=\"%s\" stroke=\"#22303c\""
                     " stroke-opacity=\"0.35\"/><g font-size=\"13\"><text x=\"56\" y=\"%d\" font-weight=\"bold\">"
                     "%s</text><text x=\"284\" y=\"%d\" text-anchor=\"end\">",
                y, picture->kinds[kind].paint, y + 12, picture->kinds[kind].name, y + 12);
        put_number(out, picture->totals[kind]);
        fprintf(out, " block%s</text><text x=\"488\" y=\"%d\" text-anchor=\"end\">",
                picture->totals[kind] == 1 ? "" : "s", y + 12);
        put_number(out, picture->totals[kind] * picture->block);
        fprintf(out, " bytes</text><text x=\"512\" y=\"%d\" fill=\"#5b6b78\">%s</text></g>\n", y + 12,
                picture->kinds[kind].does);
    }
}

/* The picture as SVG text, which is to be freed; null where there is no memory. */
static char *as_svg(const struct picture *picture, const char *title, size_t *length)
{
    int pitch = picture->cells <= COLUMNS / 2 ? 26 : 15;
    int rows = (int)((picture->cells + COLUMNS - 1) / COLUMNS);
    int columns = picture->cells < COLUMNS ? (int)picture->cells : COLUMNS;
    int width = LEFT + columns * pitch + RIGHT, foot = TOP + rows * pitch + 24;
    char *text = NULL;
    FILE *out = open_memstream(&text, length);

    if (out == NULL)
        return NULL;
    put_head(out, picture, title, width < NARROWEST ? NARROWEST : width,
             foot + LEGEND_LINE * (int)picture->kind_count + 12);
    put_cells(out, picture, pitch);
    put_legend(out, picture, foot);
    fputs("</svg>\n", out);
    if (fclose(out) == 0)
        return text;
    free(text);
    return NULL;
}

struct place svg_place(const char *path)
{
    return path == NULL ? (struct place){.held = -1} : hold_place(path);
}

int save_svg(const struct picture *picture, const struct place *place, const char *title)
{
    size_t length;
    char *text;
    int error;

    if (place->path == NULL)
        return 0;
    text = as_svg(picture, title, &length);
    if (text == NULL)
        failed(place->path, "cannot be drawn; see that there is memory for it", 0);
    error = put_bytes(place, text, length);
    free(text);
    return error;
}
