/* The commands, and what the words after the tool's name ask of them. */
#ifndef COMMANDS_H
#define COMMANDS_H

#include "answer.h"

#include <stdbool.h>
#include <stdint.h>

enum { SLOTS = 4 };

struct request {
    const char **words; /* those that are no option; then null */
    bool dry_run;
    bool has_limit;
    uint64_t limit;
    bool has_length;
    uint64_t length; /* of an image that comes by standard input */
    bool has_partition_length;
    uint64_t partition_length; /* that images are judged for */
    bool map;        /* one of the two images in place of the list of runs */
    const char *svg; /* null where there is none; so are those below */
    const char *images[SLOTS]; /* the boot image of each slot, from a on */
    const char *misc, *loader_line;
};

enum status judge(const struct request *request);
enum status store(const struct request *request);
enum status write_image(const struct request *request);
enum status list(const struct request *request);
enum status map(const struct request *request);
enum status diff(const struct request *request);
enum status join(const struct request *request);
enum status report(const struct request *request);
enum status sections(const struct request *request);
enum status rules(const struct request *request);
enum status slots(const struct request *request);
enum status start(const struct request *request);

/* A decimal number up to `most`. */
bool as_number(const char *text, uint64_t most, uint64_t *number);

#endif
