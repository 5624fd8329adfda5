/* What changed between two sparse images: the runs that the library lists, in memory. */
#ifndef RUNS_H
#define RUNS_H

#include "pair.h"
#include "tarpaulark.h"

#include <stddef.h>
#include <stdint.h>

enum { CHANGES = 5 };

/* A run of blocks: its kind, its first block and how many they are. */
struct run {
    unsigned kind;
    uint32_t first;
    uint32_t blocks;
};

/* All runs of two images, as the library numbers them. */
struct runs {
    uint32_t *numbers;
    uint64_t count;
};

/* Lists the runs of two images that are held, in space that grows until it is enough and is to be freed; 0 or the
   refusal. */
uint32_t find_runs(struct runs *runs, const struct pair *pair, uint64_t answer[TARPAULARK_COMPARE_ANSWER]);

/* The run with a number from 0 on, one of those that were listed. */
struct run run_at(const struct runs *runs, uint64_t number);

#endif
