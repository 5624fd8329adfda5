/* The command line, taken apart. */
#ifndef WORDS_H
#define WORDS_H

#include "commands.h"

#include <stddef.h>

/* Options that only some commands take. */
enum option {
    DRY_RUN = 1, LIMIT = 2, SVG = 4, LENGTH = 8, MAP = 16, IMAGE = 32, MISC = 64, LINE = 128,
    PARTITION_LENGTH = 256
};

struct line {
    const char *command; /* null where there is none */
    size_t count;        /* words after it that are no option */
    unsigned options;
    bool help, version;
    struct request request;
};

/* Takes the words after the tool's name apart; the list ends with null. */
void take_words(struct line *line, char **words);

#endif
