#include "join.h"

#include <stdio.h>
#include <string.h>

/* Where the data of an image that is one raw chunk begin. */
#define RAW_DATA (HEADER + CHUNK_HEADER)

#define FILL_WORD 0xA5A5A5A5u

/* The images that name the most bytes that can be joined, and how often they are joined for one time. */
#define MOST_BLOCKS 32768
#define LARGEST_BLOCK 65536
#define CALLS 10000

static size_t blocks_of(const struct work *work)
{
    return work->flat_len / work->block;
}

static void make_raw(struct work *work)
{
    memcpy(work->other, work->image, work->image_len);
    for (size_t at = 0; at < work->flat_len; at += work->block)
        work->other[RAW_DATA + at] ^= 1;
    work->other_len = work->image_len;
}

/* One block kept and one raw in turn, which holds what the kept one does in the first image. */
static void make_half(struct work *work)
{
    const uint32_t chunks = (uint32_t)blocks_of(work);
    uint8_t *at = work->other + HEADER;

    memcpy(work->other, work->image, HEADER);
    memcpy(work->other + CHUNKS, &chunks, sizeof chunks);
    for (size_t i = 0; i < chunks; i += 2) {
        at = put_chunk_header(at, 0xCAC3, 1, CHUNK_HEADER);
        at = put_chunk_header(at, 0xCAC1, 1, CHUNK_HEADER + work->block);
        memcpy(at, work->image + RAW_DATA + i * work->block, work->block);
        at += work->block;
    }
    work->other_len = (size_t)(at - work->other);
}

static void make_fill(struct work *work)
{
    work->other_len = put_fill(work->other, work->block, (uint32_t)blocks_of(work), FILL_WORD);
}

static void make_kept(struct work *work)
{
    make_fill(work);
    work->other_len = (size_t)(put_chunk_header(work->other + HEADER, 0xCAC3, (uint32_t)blocks_of(work), CHUNK_HEADER)
                               - work->other);
}

/* The second image, over a first that writes all blocks raw. */
static const struct second {
    const char *name;
    void (*make)(struct work *work);
} seconds[] = {
    {"raw over raw", make_raw},
    {"half over raw", make_half},
    {"fill over raw", make_fill},
    {"kept over raw", make_kept},
};

static double join(struct work *work)
{
    uint64_t answer[TARPAULARK_JOIN_ANSWER];
    double start = now(), taken;

    for (size_t i = 0; i < work->calls; i++)
        expect(tarpaulark_join(work->image, work->image_len, work->other, work->other_len, work->joined,
                               work->image_room, answer) == 0,
               "join refused");
    taken = now() - start;
    work->joined_len = answer[TARPAULARK_JOINED];
    return taken;
}

static void store_on(uint8_t *partition, const struct work *work, const uint8_t *image, size_t length)
{
    uint64_t answer[TARPAULARK_STORE_ANSWER];

    expect(tarpaulark_store(image, length, partition, work->flat_len, answer) == 0, "store refused");
}

/* That the joined image, stored, leaves what both leave, one after the other. */
static void expect_joined(struct work *work)
{
    memset(work->flat, 0, work->flat_len);
    store_on(work->flat, work, work->image, work->image_len);
    store_on(work->flat, work, work->other, work->other_len);
    clear_partition(work);
    store_on(work->partition, work, work->joined, work->joined_len);
    expect_stored(work);
}

static double time_pair(const struct second *second, struct work *work, uint32_t block, size_t length)
{
    double least;

    work->calls = 1;
    make_raw_image(work, block, length);
    second->make(work);
    state_checksum(work, work->image, work->image_len);
    state_checksum(work, work->other, work->other_len);
    least = best(join, work);
    expect_joined(work);
    return least;
}

/* Of two images that name so many of the largest blocks no flat bytes are made. */
static double time_fills(struct work *work, uint32_t blocks)
{
    work->calls = CALLS;
    work->block = LARGEST_BLOCK;
    work->flat_len = (size_t)blocks * LARGEST_BLOCK;
    work->image_len = put_fill(work->image, LARGEST_BLOCK, blocks, ~FILL_WORD);
    make_fill(work);
    return best(join, work);
}

struct yardsticks {
    double copy, checksum;
};

/* Taken once for all rows of so many flat bytes. */
static struct yardsticks time_yardsticks(struct work *work, size_t length)
{
    struct yardsticks than;

    make_raw_image(work, BLOCK, length);
    than.copy = least_of(MORE_RUNS, copy, work);
    than.checksum = least_of(MORE_RUNS, checksum, work);
    return than;
}

static void put_row(const char *name, const struct work *work, double whole, double quarter, struct yardsticks than)
{
    double each = whole / (double)work->calls;

    printf("%-17s  %5u  %-8s %12.3f", name, (unsigned)work->block, work->unstated ? "none" : "stated", each * 1e6);
    put_ratio((double)work->flat_len / 1e9, each);
    put_ratio(each, than.copy);
    put_ratio(each, than.checksum);
    put_ratio(whole, quarter);
    putchar('\n');
    fflush(stdout);
}

static void put_pair(
    const struct second *second, struct work *work, uint32_t block, size_t length, struct yardsticks than)
{
    double quarter = time_pair(second, work, block, length / 4), whole = time_pair(second, work, block, length);

    put_row(second->name, work, whole, quarter, than);
}

static void put_pairs(struct work *work, size_t length)
{
    struct yardsticks than = time_yardsticks(work, length);

    for (work->unstated = 1; work->unstated >= 0; work->unstated--)
        for (size_t i = 0; i < sizeof seconds / sizeof seconds[0]; i++)
            put_pair(&seconds[i], work, BLOCK, length, than);
}

/* Raw over raw, the first of the pairs. */
static void put_small_blocks(struct work *work, size_t length)
{
    static const uint32_t blocks[] = {4, 16, 64, 256};
    struct yardsticks than = time_yardsticks(work, length);

    for (size_t i = 0; i < sizeof blocks / sizeof blocks[0]; i++)
        put_pair(&seconds[0], work, blocks[i], length, than);
}

static void put_fills(struct work *work)
{
    double quarter = time_fills(work, MOST_BLOCKS / 4), whole = time_fills(work, MOST_BLOCKS);
    struct yardsticks than = {ABSENT, ABSENT};

    put_row("44 bytes", work, whole, quarter, than);
}

void put_joinings(struct work *work, size_t mib)
{
    printf("%-17s  %5s  %-8s %12s %9s %9s %9s %9s\n", "data", "block", "checksum", "microseconds", "GB/s", "/ memcpy",
           "/ crc32", "growth");
    put_pairs(work, mib << 20);
    work->unstated = 1;
    put_small_blocks(work, (mib << 20) / PART);
    put_fills(work);
}
