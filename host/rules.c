/* Which boards take a boot image, by the release that they were launched with and by their kernel. */
#include "chunks.h"
#include "commands.h"
#include "refusals.h"
#include "sections.h"

#include <inttypes.h>
#include <stdio.h>
#include <string.h>

static const char *const kernels[] = {
    [TARPAULARK_PLAIN_KERNEL] = "plain",
    [TARPAULARK_GENERIC_KERNEL] = "generic",
};

enum {
    KERNELS = sizeof kernels / sizeof kernels[0],
    PAIRS = (TARPAULARK_LAST_RELEASE - TARPAULARK_FIRST_RELEASE + 1) * KERNELS,
    NAMES = 16 * PAIRS, /* room for the names of all pairs */
    LINE = NAMES + 128  /* and for words about them */
};

/* A release and a kernel, and what they say of an image: 0, or the refusal. */
struct launch {
    uint32_t release, kernel, number;
};

/* Asks every pair, in order of release, the plain kernel first. */
static void ask_all(const struct mapped *image, struct launch launches[PAIRS])
{
    uint64_t answer[TARPAULARK_LOCATE_ANSWER];

    for (uint32_t i = 0; i < PAIRS; i++) {
        struct launch *launch = launches + i;

        launch->release = TARPAULARK_FIRST_RELEASE + i / KERNELS;
        launch->kernel = i % KERNELS;
        launch->number = tarpaulark_locate_for(image->at, image->length, launch->release, launch->kernel, answer);
    }
}

/* The names of the pairs that got a number, with a mark between them; nothing where none did. */
static void name_pairs(const struct launch launches[PAIRS], uint32_t number, const char *mark, char names[NAMES])
{
    size_t length = 0;

    names[0] = '\0';
    for (size_t i = 0; i < PAIRS; i++)
        if (launches[i].number == number)
            length += (size_t)snprintf(names + length, NAMES - length, "%s%" PRIu32 " %s", length == 0 ? "" : mark,
                                       launches[i].release, kernels[launches[i].kernel]);
}

/* In text: a line for each pair that takes the image, then one for each refusal, with the pairs that give it. */
static void say_lines(const struct launch launches[PAIRS])
{
    static const uint32_t refusals[] = {
        TARPAULARK_BAD_RELEASE, TARPAULARK_BAD_RELEASE_VERSION, TARPAULARK_BAD_RELEASE_OS};
    char names[NAMES], line[LINE];

    name_pairs(launches, 0, "\n", names);
    say_line(names);
    for (size_t i = 0; i < sizeof refusals / sizeof refusals[0]; i++) {
        name_pairs(launches, refusals[i], ", ", names);
        snprintf(line, sizeof line, "refused %" PRIu32 " for %s: %s", refusals[i], names, refusal_meaning(refusals[i]));
        if (names[0] != '\0')
            say_line(line);
    }
}

/* In the object: every pair. */
static void list_pairs(const struct launch launches[PAIRS])
{
    open_list("pairs");
    for (size_t i = 0; i < PAIRS; i++) {
        open_item();
        say_only_json_number("release", launches[i].release);
        say_only_json("kernel", kernels[launches[i].kernel]);
        say_only_json_flag("taken", launches[i].number == 0);
        if (launches[i].number != 0) {
            say_only_json_number("number", launches[i].number);
            say_only_json("meaning", refusal_meaning(launches[i].number));
        }
        close_only_json_item();
    }
    close_list();
}

static enum status list_launches(const char *path)
{
    struct launch launches[PAIRS];
    uint64_t answer[TARPAULARK_LOCATE_ANSWER];
    struct mapped image = read_image(path);
    uint32_t number = tarpaulark_locate(image.at, image.length, answer);

    ask_all(&image, launches);
    expect_read(&image);
    if (number != 0)
        return refuse(number, 0);
    say_number("version", answer[TARPAULARK_VERSION_AT]);
    end_line();
    say_lines(launches);
    list_pairs(launches);
    return DONE;
}

/* The os version of an accepted image; its place goes by the header version. */
static uint32_t os_version_of(const struct mapped *image, uint64_t version)
{
    return word_at(image->at + (version < 3 ? 44 : 16));
}

/* Puts in words what an accepted image has that a pair refuses with this number, and which pairs take it. */
static void word_found(const struct mapped *image, uint32_t number, char text[LINE])
{
    struct launch launches[PAIRS];
    uint64_t answer[TARPAULARK_LOCATE_ANSWER], version;
    char names[NAMES];

    tarpaulark_locate(image->at, image->length, answer);
    version = answer[TARPAULARK_VERSION_AT];
    ask_all(image, launches);
    name_pairs(launches, 0, ", ", names);
    if (number == TARPAULARK_BAD_RELEASE_VERSION)
        snprintf(text, LINE, "this image has header version %" PRIu64 " and is taken by %s", version, names);
    else
        snprintf(text, LINE, "this image has os version 0x%08" PRIx32 " and is taken by %s",
                 os_version_of(image, version), names);
}

/* A refusal, with what was found in the image where that is to be said. */
static enum status refuse_launch(uint32_t number, const char *found)
{
    enum status status = refuse(number, 0);

    if (found[0] != '\0')
        advise("found", found);
    return status;
}

static enum status ask_one(const char *path, uint32_t release, uint32_t kernel)
{
    uint64_t answer[TARPAULARK_LOCATE_ANSWER];
    struct mapped image = read_image(path);
    uint32_t number = tarpaulark_locate_for(image.at, image.length, release, kernel, answer);
    char found[LINE] = "";

    if (number == TARPAULARK_BAD_RELEASE_VERSION || number == TARPAULARK_BAD_RELEASE_OS)
        word_found(&image, number, found);
    expect_read(&image);
    if (number != 0)
        return refuse_launch(number, found);
    say_word("taken by");
    say_column("release", 0, release);
    say_plain("kernel", kernels[kernel]);
    end_line();
    say_sections(answer);
    return DONE;
}

static uint32_t as_release(const char *text)
{
    uint64_t release;

    if (!as_number(text, UINT32_MAX, &release))
        misused(NULL, "RELEASE is a number up to 4294967295");
    return (uint32_t)release;
}

static uint32_t as_kernel(const char *text)
{
    for (uint32_t kernel = 0; text != NULL && kernel < KERNELS; kernel++)
        if (strcmp(text, kernels[kernel]) == 0)
            return kernel;
    misused(NULL, "after BOOT-IMAGE comes nothing, or a RELEASE and its kernel, plain or generic");
}

enum status rules(const struct request *request)
{
    const char *path = request->words[0];
    uint32_t release, kernel;

    if (request->words[1] == NULL)
        return list_launches(path);
    release = as_release(request->words[1]);
    kernel = as_kernel(request->words[2]);
    return ask_one(path, release, kernel);
}
