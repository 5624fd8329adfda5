#include "words.h"

#include <errno.h>
#include <stdio.h>
#include <stdlib.h>
#include <string.h>

/* An option: it is taken alone, or with the word after it. */
struct known {
    const char *name;
    void (*take)(struct line *line);
    void (*take_with)(struct line *line, const char *value);
};

static const struct known *option_named(const char *name);

bool as_number(const char *text, uint64_t most, uint64_t *number)
{
    char *end;

    errno = 0;
    *number = strtoull(text, &end, 10);
    return text[0] >= '0' && text[0] <= '9' && *end == '\0' && errno == 0 && *number <= most;
}

/* The number that follows an option; `what` says what the option takes. */
static uint64_t number_after(const char *value, const char *what)
{
    uint64_t number;

    if (value == NULL || !as_number(value, UINT64_MAX, &number))
        misused(NULL, what);
    return number;
}

static void take_limit(struct line *line, const char *value)
{
    line->request.limit = number_after(value, "--limit takes a number of blocks");
    line->request.has_limit = true;
    line->options |= LIMIT;
}

static void take_length(struct line *line, const char *value)
{
    line->request.length = number_after(value, "--length takes a number of bytes");
    line->request.has_length = true;
    line->options |= LENGTH;
}

static void take_partition_length(struct line *line, const char *value)
{
    line->request.partition_length = number_after(value, "--partition-length takes a number of bytes");
    line->request.has_partition_length = true;
    line->options |= PARTITION_LENGTH;
}

static void take_svg(struct line *line, const char *value)
{
    if (value == NULL || value[0] == '-')
        misused(NULL, "--svg takes the name of a file; put ./ before one that begins with -");
    line->options |= SVG;
    line->request.svg = value;
}

/* The boot image of a slot, as a=FILE; each slot has one. */
static void take_image(struct line *line, const char *value)
{
    const char **image;
    char text[64];

    if (value == NULL || value[0] < 'a' || value[0] >= 'a' + SLOTS || value[1] != '=' || value[2] == '\0')
        misused(NULL, "--image takes a slot, a letter from a to d, and the name of its boot image, as in a=FILE");
    image = line->request.images + (value[0] - 'a');
    snprintf(text, sizeof text, "--image names slot %c twice; name each slot once", value[0]);
    if (*image != NULL)
        misused(NULL, text);
    *image = value + 2;
    line->options |= IMAGE;
}

static void take_misc(struct line *line, const char *value)
{
    if (value == NULL || value[0] == '-')
        misused(NULL, "--misc takes the name of a file; put ./ before one that begins with -");
    if (line->request.misc != NULL)
        misused(NULL, "--misc is given twice; name one file");
    line->options |= MISC;
    line->request.misc = value;
}

/* Any text, but for an option, before which the text was forgotten. */
static void take_loader_line(struct line *line, const char *value)
{
    if (value == NULL || option_named(value) != NULL || strcmp(value, "--") == 0)
        misused(NULL, "--line takes a text, which may be empty, and not an option");
    if (line->request.loader_line != NULL)
        misused(NULL, "--line is given twice; give one text");
    line->options |= LINE;
    line->request.loader_line = value;
}

static void take_dry_run(struct line *line)
{
    line->options |= DRY_RUN;
    line->request.dry_run = true;
}

static void take_map(struct line *line)
{
    line->options |= MAP;
    line->request.map = true;
}

static void take_help(struct line *line)
{
    line->help = true;
}

static void take_version(struct line *line)
{
    line->version = true;
}

/* The form was chosen before any word was taken. */
static void take_json(struct line *line)
{
    (void)line;
}

static const struct known known[] = {
    {"--limit", NULL, take_limit},
    {"--length", NULL, take_length},
    {"--partition-length", NULL, take_partition_length},
    {"--svg", NULL, take_svg},
    {"--image", NULL, take_image},
    {"--misc", NULL, take_misc},
    {"--line", NULL, take_loader_line},
    {"--dry-run", take_dry_run, NULL},
    {"--map", take_map, NULL},
    {"-h", take_help, NULL},
    {"--help", take_help, NULL},
    {"--version", take_version, NULL},
    {"--json", take_json, NULL},
};

static const struct known *option_named(const char *name)
{
    for (size_t i = 0; i < sizeof known / sizeof known[0]; i++)
        if (strcmp(name, known[i].name) == 0)
            return known + i;
    return NULL;
}

/* An option; how many words it is. */
static int take_option(struct line *line, char **words)
{
    const struct known *option = option_named(words[0]);

    if (option == NULL)
        misused(words[0], "is no option; see tarpaulark --help, and put -- before a name that begins with -");
    if (option->take != NULL) {
        option->take(line);
        return 1;
    }
    option->take_with(line, words[1]);
    return 2;
}

static void take_word(struct line *line, const char *word)
{
    if (line->command == NULL)
        line->command = word;
    else
        line->request.words[line->count++] = word;
}

/* Room for all words that there are, and for null after them. */
static const char **room_for(char **words)
{
    const char **room;
    size_t count = 0;

    while (words[count] != NULL)
        count++;
    room = calloc(count + 1, sizeof *room);
    if (room == NULL)
        failed(NULL, "there is no memory for so many words; name fewer files", 0);
    return room;
}

/* An object is printed also where the words are wrong. */
static void choose_form(char **words)
{
    for (; *words != NULL && strcmp(*words, "--") != 0; words++)
        if (strcmp(*words, "--json") == 0)
            answer_in_json();
}

void take_words(struct line *line, char **words)
{
    choose_form(words);
    line->request.words = room_for(words);
    while (*words != NULL && strcmp(*words, "--") != 0) {
        if (**words == '-' && (*words)[1] != '\0')
            words += take_option(line, words);
        else
            take_word(line, *words++);
    }
    while (*words != NULL && *++words != NULL)
        take_word(line, *words);
}
