/* Starting a slot: its boot image, and the kernel's command line. */
#include "chunks.h"
#include "commands.h"
#include "record.h"
#include "sections.h"

#include <stdio.h>
#include <string.h>

/* Room for words about what a start takes. */
enum { WORDS = 128 };

/* A start: the record and its place; what is read, no image of a slot that is not in use; and what comes of it. */
struct starting {
    struct place place;
    uint8_t record[TARPAULARK_RECORD];
    struct mapped images[SLOTS], misc;
    char line[TARPAULARK_MOST_LINE + 1]; /* a zero byte stands after the longest one too */
    uint64_t answer[TARPAULARK_START_ANSWER];
};

static bool is_used(const struct starting *starting, char letter)
{
    return slot_in(starting->record, letter)[TARPAULARK_SLOT_USED] != 0;
}

/* Each slot in use must have an image. */
static void expect_images(const struct starting *starting, const char *const paths[SLOTS])
{
    char text[WORDS];

    for (char letter = 'a'; letter < 'a' + SLOTS; letter++) {
        if (!is_used(starting, letter) || paths[letter - 'a'] != NULL)
            continue;
        snprintf(text, sizeof text, "slot %c is in use and has no image; add --image %c=FILE", letter, letter);
        misused(NULL, text);
    }
}

/* A file to read that is not the record's. */
static struct mapped read_other(const struct starting *starting, const char *path, const char *what)
{
    struct mapped file = open_file(path, READ_IMAGE);

    expect_other(&starting->place, &file, what);
    hold_file(&file);
    return file;
}

/* Opens and holds the images of slots in use, and misc. */
static void open_all(struct starting *starting, const struct request *request)
{
    for (char letter = 'a'; letter < 'a' + SLOTS; letter++)
        if (is_used(starting, letter))
            starting->images[letter - 'a'] = read_other(
                starting, request->images[letter - 'a'], "RECORD and an image are one file: name two");
    starting->misc = read_other(starting, request->misc, "RECORD and misc are one file: name two");
}

/* Fails where one of them was changed while they were read. */
static void expect_all_read(const struct starting *starting)
{
    for (char letter = 'a'; letter < 'a' + SLOTS; letter++)
        if (is_used(starting, letter))
            expect_read(starting->images + (letter - 'a'));
    expect_read(&starting->misc);
}

/* 0 or the refusal; the record in memory is what it leaves. */
static uint32_t run_start(struct starting *starting, const char *loader_line)
{
    const struct mapped *images = starting->images, *misc = &starting->misc;
    size_t misc_len = misc->length < TARPAULARK_MISC ? misc->length : TARPAULARK_MISC;

    return tarpaulark_start(
        starting->record, images[0].at, images[0].length, images[1].at, images[1].length, images[2].at,
        images[2].length, images[3].at, images[3].length, misc->at, misc_len, (const uint8_t *)loader_line,
        strlen(loader_line), (uint8_t *)starting->line, TARPAULARK_MOST_LINE, starting->answer);
}

/* Text has the line alone, and beside it that a retired section is present. */
static void say_started(const struct starting *starting)
{
    const uint64_t *answer = starting->answer, *sections = answer + TARPAULARK_START_SECTIONS;
    char letter = (char)('a' + answer[TARPAULARK_START_SLOT]), text[WORDS];

    say_only_json("answer", "starts");
    say_only_json("slot", (const char[]){letter, '\0'});
    say_bytes("line", starting->line, answer[TARPAULARK_START_LENGTH]);
    end_line();
    say_only_json_number("length", answer[TARPAULARK_START_LENGTH]);
    snprintf(text, sizeof text, "in the image of slot %c: retired section present", letter);
    if (answers_in_json())
        say_sections(sections);
    else if (sections[TARPAULARK_RETIRED_AT] != 0)
        advise("retired", text);
}

static void say_recovery(void)
{
    say_only_json("answer", "recovery");
    advise("recovery", "recovery: no slot may start, so there is no line");
}

/* Puts in words what Start has taken of the slot that it picked. */
static void word_spent(const struct starting *starting, char letter, char text[WORDS])
{
    const uint8_t *slot = slot_in(starting->record, letter);
    unsigned tries = slot[TARPAULARK_SLOT_TRIES];

    if (slot[TARPAULARK_SLOT_SUCCESSFUL] != 0)
        snprintf(text, WORDS, "slot %c is successful, so no try is spent; the record stands as start left it", letter);
    else
        snprintf(text, WORDS, "the try is spent: the record stands as start left it, with %u %s left for slot %c",
                 tries, tries == 1 ? "try" : "tries", letter);
}

/* A refusal after Start. The slot that it picked is the current one. */
static enum status refuse_started(const struct starting *starting, uint32_t number)
{
    char letter = current_of(starting->record), text[WORDS];
    enum status status = refuse(number, 0);

    say_only_json("slot", (const char[]){letter, '\0'});
    if (number != TARPAULARK_BAD_LINE)
        name_image_of(letter, starting->images[letter - 'a'].path);
    word_spent(starting, letter, text);
    advise("spent", text);
    return status;
}

/* The record stands in its place before anything is said. */
static enum status keep_start(const struct starting *starting, uint32_t number)
{
    int error = put_bytes(&starting->place, starting->record, TARPAULARK_RECORD);
    enum status status = DONE;

    if (number != 0)
        status = refuse_started(starting, number);
    else if (starting->answer[TARPAULARK_START_KIND] == TARPAULARK_STARTS)
        say_started(starting);
    else
        say_recovery();
    return error == 0 ? status : start_stands(&starting->place, error);
}

enum status start(const struct request *request)
{
    static struct starting starting;
    ssize_t length;
    uint32_t number;

    if (request->misc == NULL || request->loader_line == NULL)
        misused(NULL, "start takes --misc with the file of the misc partition, and --line with the loader's line");
    length = hold_record(request->words[0], &starting.place, starting.record);
    if (length != TARPAULARK_RECORD || tarpaulark_slots_valid(starting.record) != 0)
        return refuse_record(length);
    expect_images(&starting, request->images);
    open_all(&starting, request);
    number = run_start(&starting, request->loader_line);
    expect_all_read(&starting);
    if (number == TARPAULARK_BAD_RECORD || number == TARPAULARK_BAD_MISC)
        return refuse(number, 0);
    return keep_start(&starting, number);
}
