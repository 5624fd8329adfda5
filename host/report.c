/* Totals over any number of sparse images. */
#include "chunks.h"
#include "commands.h"
#include "refusals.h"

#include <inttypes.h>
#include <stdio.h>
#include <string.h>
#include <unistd.h>

enum {
    LAST_REFUSAL = TARPAULARK_REPORT - TARPAULARK_REPORT_REFUSED, /* the last number that an image may get */
    HEAD = 40,                                                    /* room for how the line of a number begins */
    MARKS = 20,                                                   /* of the longest bar */
    WIDTH = 79                                                    /* columns of a line */
};

/* How many images got a refusal number, 1 to the last. */
static uint64_t refused_with(const uint64_t totals[TARPAULARK_REPORT], uint32_t number)
{
    return totals[TARPAULARK_REPORT_REFUSED + number - 1];
}

/* What the image that was counted in between was refused with, or 0. */
static uint32_t refused_between(const uint64_t before[TARPAULARK_REPORT], const uint64_t after[TARPAULARK_REPORT])
{
    for (uint32_t number = 1; number <= LAST_REFUSAL; number++)
        if (refused_with(before, number) != refused_with(after, number))
            return number;
    return 0;
}

/* Opens each image before the first is counted: one that is missing is told at once, and one that the answer would be
   printed to before anything is printed. */
static void look_at_all(const char *const *paths)
{
    for (; *paths != NULL; paths++) {
        struct mapped image = open_file(*paths, READ_IMAGE);

        release_file(&image);
    }
}

/* Counts an image, and says so where it is refused; 0, or the refusal of the counting. */
static uint32_t count_image(uint64_t totals[TARPAULARK_REPORT], const char *path, uint64_t room)
{
    uint64_t before[TARPAULARK_REPORT];
    struct mapped image = read_image(path);
    uint32_t number, refused;

    memcpy(before, totals, sizeof before);
    number = tarpaulark_report_count(totals, image.at, image.length, room);
    expect_read(&image);
    release_file(&image);
    refused = refused_between(before, totals);
    if (refused != 0)
        say_refused_image(path, refused);
    return number;
}

/* How the line of a refusal number begins, as it stands without a bar; its length. */
static int put_head(char head[HEAD], uint32_t number, uint64_t count)
{
    return snprintf(head, HEAD, "refused %" PRIu32 " %" PRIu64, number, count);
}

/* What all bars go by: the length of the longest beginning, and how many images got the most frequent number. */
struct scale {
    int head;
    uint64_t most;
};

static struct scale scale_of(const uint64_t totals[TARPAULARK_REPORT])
{
    struct scale scale = {0, 0};
    char head[HEAD];

    for (uint32_t number = 1; number <= LAST_REFUSAL; number++) {
        uint64_t count = refused_with(totals, number);
        int length = put_head(head, number, count);

        if (count != 0 && length > scale.head)
            scale.head = length;
        if (count > scale.most)
            scale.most = count;
    }
    return scale;
}

/* How much of a text goes on a line with so much room: all, or what stands before a space. */
static int fitting(const char *text, int room)
{
    int length = (int)strlen(text);

    if (length <= room)
        return length;
    for (length = room; length > 0 && text[length] != ' '; length--)
        continue;
    return length == 0 ? room : length;
}

/* The line of a refusal number with its bar and its meaning, which goes on below where there is no more room. A bar is
   rounded up, so each has a mark. */
static void draw_refused(uint32_t number, uint64_t count, const struct scale *scale)
{
    const char *meaning = refusal_meaning(number);
    int marks = (int)((count * MARKS + scale->most - 1) / scale->most);
    int from = scale->head + 2 + MARKS + 2, fits = fitting(meaning, WIDTH - from);
    char head[HEAD], line[WIDTH + 1];

    put_head(head, number, count);
    snprintf(line, sizeof line, "%-*s  %-*.*s  %.*s", scale->head, head, MARKS, marks, "####################", fits,
             meaning);
    say_line(line);
    for (meaning += fits; *meaning != '\0'; meaning += fits) {
        meaning += *meaning == ' ';
        fits = fitting(meaning, WIDTH - from);
        snprintf(line, sizeof line, "%*s%.*s", from, "", fits, meaning);
        say_line(line);
    }
}

static void say_refused(uint32_t number, uint64_t count)
{
    open_item();
    say_word("refused");
    say_column("number", 0, number);
    say_column("count", 0, count);
    say_only_json("meaning", refusal_meaning(number));
    close_item();
}

/* The refusal numbers that some image got, in order; a terminal shows their bars. */
static void say_all_refused(const uint64_t totals[TARPAULARK_REPORT])
{
    bool is_drawn = isatty(STDOUT_FILENO) == 1 && !answers_in_json();
    struct scale scale = scale_of(totals);

    open_list("refused");
    for (uint32_t number = 1; number <= LAST_REFUSAL; number++) {
        uint64_t count = refused_with(totals, number);

        if (count != 0 && is_drawn)
            draw_refused(number, count, &scale);
        else if (count != 0)
            say_refused(number, count);
    }
    close_list();
}

static void say_total(const char *name, uint64_t total)
{
    say_number(name, total);
    end_line();
}

static void say_totals(const uint64_t totals[TARPAULARK_REPORT])
{
    say_total("accepted", totals[TARPAULARK_REPORT_ACCEPTED]);
    say_total("blocks", totals[TARPAULARK_REPORT_BLOCKS]);
    say_total("bytes", totals[TARPAULARK_REPORT_BYTES]);
    say_total("skipped", totals[TARPAULARK_REPORT_SKIPPED]);
    say_total("largest", totals[TARPAULARK_REPORT_LARGEST]);
    say_all_refused(totals);
}

/* Says that an image makes a total pass 64 bits, in place of the totals. */
static enum status refuse_counting(const char *path, uint32_t number)
{
    enum status status;

    close_list();
    status = refuse(number, 0);
    name_image_counted(path);
    return status;
}

enum status report(const struct request *request)
{
    uint64_t totals[TARPAULARK_REPORT] = {0};
    uint64_t room = request->has_partition_length ? request->partition_length : UINT64_MAX;

    look_at_all(request->words);
    open_list("images");
    for (const char *const *path = request->words; *path != NULL; path++) {
        uint32_t number = count_image(totals, *path, room);

        if (number != 0)
            return refuse_counting(*path, number);
    }
    close_list();
    say_totals(totals);
    return DONE;
}
