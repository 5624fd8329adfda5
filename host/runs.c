#include "runs.h"

#include "answer.h"

#include <inttypes.h>
#include <stdio.h>
#include <stdlib.h>

/* The space has room for so many runs at first, and then for so many times as many, up to a run for each block. */
enum { FEW_RUNS = 65536, MORE = 4, RUN_BYTES = TARPAULARK_RUN * sizeof(uint32_t) };

static uint64_t lesser(uint64_t one, uint64_t other)
{
    return one < other ? one : other;
}

/* Room for so many runs, in place of what there was. */
static void make_room(struct runs *runs, uint64_t room, const struct mapped *image)
{
    char text[128];

    free(runs->numbers);
    runs->numbers = malloc(room == 0 ? 1 : room * RUN_BYTES);
    if (runs->numbers != NULL)
        return;
    snprintf(text, sizeof text, "cannot be compared; see that there is memory for %" PRIu64 " runs of %d bytes each",
             room, (int)RUN_BYTES);
    failed(image->path, text, 0);
}

uint32_t find_runs(struct runs *runs, const struct pair *pair, uint64_t answer[TARPAULARK_COMPARE_ANSWER])
{
    const struct mapped *images = pair->images;
    uint64_t total = pair->both[0].total, room = lesser(total, FEW_RUNS);
    uint32_t number;

    *runs = (struct runs){NULL, 0};
    for (;; room = lesser(total, room * MORE)) {
        make_room(runs, room, images);
        number = tarpaulark_compare(images[0].at, images[0].length, images[1].at, images[1].length, runs->numbers,
                                    room * TARPAULARK_RUN, answer);
        if (number != TARPAULARK_BAD_SPACE || room == total)
            break;
    }
    runs->count = answer[TARPAULARK_RUNS];
    return number;
}

struct run run_at(const struct runs *runs, uint64_t number)
{
    const uint32_t *run = runs->numbers + number * TARPAULARK_RUN;

    return (struct run){run[TARPAULARK_RUN_KIND] % CHANGES, run[TARPAULARK_RUN_FIRST], run[TARPAULARK_RUN_BLOCKS]};
}
