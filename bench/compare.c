#include "compare.h"

#include <stdio.h>
#include <string.h>

/* Where the data of an image that is one raw chunk begin. */
#define RAW_DATA 40

/* The byte of which fill chunks are made, and their word. */
#define FILL_BYTE 0xA5
#define FILL_WORD 0xA5A5A5A5u

/* The images that name the most blocks, and how often they are compared for one time. */
#define MOST_BLOCKS 0xFFFFFFFFu
#define LARGEST_BLOCK 65536
#define CALLS 100000

/*
 * The second image has another first byte in one block of each `apart`, in none for 0.
 * Filled: it is one fill chunk, the first one raw chunk of the same bytes. Scant: numbers
 * are lent for one run, else for a run of each block.
 */
struct pair {
    const struct data *data;
    uint32_t apart;
    int filled, scant, unstated;
};

static const struct pair pairs[] = {
    {.data = &kinds[RANDOM], .unstated = 1},
    {.data = &kinds[RANDOM], .unstated = 1, .scant = 1},
    {.data = &kinds[RANDOM], .unstated = 1, .apart = 1},
    {.data = &kinds[RANDOM], .unstated = 1, .apart = 2},
    {.data = &kinds[RANDOM], .unstated = 1, .filled = 1},
    {.data = &kinds[SMALL_CHUNKS], .unstated = 1},
    {.data = &kinds[RANDOM]},
};

static size_t blocks_of(const struct work *work)
{
    return work->flat_len / work->block;
}

/* How long each run is: one block where they differ and agree in turn, else all. */
static size_t run_length(const struct work *work)
{
    return work->apart == 2 ? 1 : blocks_of(work);
}

static size_t run_count(const struct work *work)
{
    return blocks_of(work) / run_length(work);
}

static void clear_runs(struct work *work)
{
    memset(work->runs, 0xFF, run_count(work) * TARPAULARK_RUN * sizeof *work->runs);
}

/* That the answer and the runs are the right ones. */
static void expect_runs(const struct work *work, const uint64_t answer[TARPAULARK_COMPARE_ANSWER])
{
    size_t length = run_length(work);

    expect(answer[TARPAULARK_PLACE] == 0 && answer[TARPAULARK_IMAGE] == 0 &&
               answer[TARPAULARK_RUNS] == run_count(work),
           "compare gave a wrong answer");
    for (size_t i = 0; i < run_count(work); i++) {
        const uint32_t *run = work->runs + i * TARPAULARK_RUN;
        int differs = work->apart != 0 && i % work->apart == 0;

        expect(run[TARPAULARK_RUN_FIRST] == i * length && run[TARPAULARK_RUN_BLOCKS] == length &&
                   run[TARPAULARK_RUN_KIND] == (differs ? TARPAULARK_DIFFERENT : TARPAULARK_EQUAL),
               "compare listed a wrong run");
    }
}

static double compare(struct work *work)
{
    uint64_t answer[TARPAULARK_COMPARE_ANSWER];
    double start, seconds;

    clear_runs(work);
    start = now();
    for (size_t i = 0; i < work->calls; i++)
        expect(tarpaulark_compare(work->image, work->image_len, work->other, work->other_len, work->runs,
                                  work->runs_len, answer) == 0,
               "compare refused");
    seconds = now() - start;
    expect_runs(work, answer);
    return seconds;
}

/* memcmp on the flat bytes: one call where they are equal, else a call for each block. */
static double plain_compare(struct work *work)
{
    static int (*volatile plain)(const void *, const void *, size_t) = memcmp;
    size_t step = work->apart == 0 ? work->flat_len : work->block, differing = 0;
    double start = now(), seconds;

    for (size_t at = 0; at < work->flat_len; at += step)
        differing += plain(work->flat + at, work->partition + at, step) != 0;
    seconds = now() - start;
    expect(differing == (work->apart == 0 ? 0 : blocks_of(work) / work->apart), "the flat bytes are wrong");
    return seconds;
}

static void make_filled(struct work *work)
{
    memset(work->flat, FILL_BYTE, work->flat_len);
    memset(work->image + RAW_DATA, FILL_BYTE, work->flat_len);
    work->other_len = put_fill(work->other, work->block, (uint32_t)blocks_of(work), FILL_WORD);
}

static void make_alike(struct work *work)
{
    memcpy(work->other, work->image, work->image_len);
    work->other_len = work->image_len;
    if (work->apart == 0)
        return;
    for (size_t at = 0; at < work->flat_len; at += (size_t)work->block * work->apart)
        work->other[RAW_DATA + at] ^= 1;
}

/* Makes both images and the flat bytes of each, those of the second in the partition. */
static void make_pair(const struct pair *pair, struct work *work, size_t mib)
{
    uint64_t answer[TARPAULARK_STORE_ANSWER];

    work->unstated = pair->unstated;
    work->apart = pair->apart;
    work->calls = 1;
    make_image(pair->data, work, mib);
    if (pair->filled)
        make_filled(work);
    else
        make_alike(work);
    work->runs_len = TARPAULARK_RUN * (pair->scant ? 1 : blocks_of(work));
    clear_partition(work);
    expect(tarpaulark_store(work->other, work->other_len, work->partition, work->flat_len, answer) == 0,
           "store refused");
}

static double time_pair(const struct pair *pair, struct work *work, size_t mib)
{
    make_pair(pair, work, mib);
    return best(compare, work);
}

/* Of two images that name so many of the largest blocks no flat bytes are made. */
static double time_fills(struct work *work, uint32_t blocks, uint32_t apart)
{
    work->unstated = 1;
    work->apart = apart;
    work->calls = CALLS;
    work->block = LARGEST_BLOCK;
    work->flat_len = (size_t)blocks * LARGEST_BLOCK;
    work->runs_len = TARPAULARK_RUN;
    work->image_len = put_fill(work->image, LARGEST_BLOCK, blocks, FILL_WORD);
    work->other_len = put_fill(work->other, LARGEST_BLOCK, blocks, FILL_WORD ^ apart);
    return best(compare, work);
}

static void put_row(const char *name, const struct work *work, double whole, double quarter, double plain)
{
    static const char *const differ[] = {"none", "all", "half"};
    double each = whole / (double)work->calls;

    printf("%-17s  %-6s  %-8s %8zu %8zu %12.3f", name, differ[work->apart], work->unstated ? "none" : "stated",
           work->runs_len, run_count(work), each * 1e6);
    put_ratio((double)work->flat_len / 1e9, each);
    put_ratio(plain, each);
    put_ratio(whole, quarter);
    putchar('\n');
    fflush(stdout);
}

static void put_pair(const struct pair *pair, struct work *work, size_t mib)
{
    double quarter = time_pair(pair, work, mib / 4), whole = time_pair(pair, work, mib);

    put_row(pair->filled ? "raw and fill" : pair->data->name, work, whole, quarter, best(plain_compare, work));
}

static void put_fills(struct work *work, uint32_t apart)
{
    double quarter = time_fills(work, MOST_BLOCKS / 4, apart), whole = time_fills(work, MOST_BLOCKS, apart);

    put_row("44 bytes", work, whole, quarter, ABSENT);
}

void put_comparisons(struct work *work, size_t mib)
{
    printf("%-17s  %-6s  %-8s %8s %8s %12s %9s %9s %9s\n", "data", "differ", "checksum", "numbers", "runs",
           "microseconds", "GB/s", "of memcmp", "growth");
    for (size_t i = 0; i < sizeof pairs / sizeof pairs[0]; i++)
        put_pair(&pairs[i], work, mib);
    put_fills(work, 0);
    put_fills(work, 1);
}
