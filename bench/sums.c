#include "sums.h"

#include <stdio.h>
#include <string.h>

/* Each block of the flat bytes one word, and no two that follow each other the same. */
static void make_words(struct work *work)
{
    for (size_t at = 0; at < work->flat_len; at += 4) {
        uint32_t word = (uint32_t)(at / work->block) * 2654435761u + 1;

        memcpy(work->flat + at, &word, 4);
    }
}

/* Makes the image of chunks of one block each: of each block its first bytes. */
static void make_chunks(struct work *work, uint32_t type, uint32_t bytes)
{
    const uint32_t chunks = (uint32_t)(work->flat_len / work->block);
    uint8_t *at = work->image + HEADER;

    memcpy(work->image + CHUNKS, &chunks, sizeof chunks);
    for (size_t i = 0; i < chunks; i++) {
        at = put_chunk_header(at, type, 1, CHUNK_HEADER + bytes);
        memcpy(at, work->flat + i * work->block, bytes);
        at += bytes;
    }
    work->image_len = (size_t)(at - work->image);
}

/* Raw data, a block of them in each chunk. */
static void make_raw(struct work *work, uint32_t block, size_t length)
{
    make_raw_image(work, block, length);
    make_chunks(work, 0xCAC1, block);
}

static void make_fill(struct work *work, uint32_t block, size_t length)
{
    make_raw_image(work, block, length);
    make_words(work);
    make_chunks(work, 0xCAC2, 4);
}

static const struct row {
    const char *name;
    uint32_t block;
    void (*make)(struct work *work, uint32_t block, size_t length);
} rows[] = {
    {"raw", 64, make_raw},   {"raw", 256, make_raw},   {"raw", 4096, make_raw},
    {"fill", 4, make_fill},  {"fill", 64, make_fill},  {"fill", 256, make_fill},
    {"fill", 4096, make_fill},
};

/* The time of the checksum over the image's data, which go in so many pieces, and of the walk that it needs. */
static void put_row(const char *name, struct work *work, size_t pieces)
{
    double none, stated, sum;

    work->unstated = 1;
    state_checksum(work, work->image, work->image_len);
    none = least_of(MORE_RUNS, judge, work);
    work->unstated = 0;
    state_checksum(work, work->image, work->image_len);
    stated = least_of(MORE_RUNS, judge, work);
    sum = stated - none;
    printf("%-17s  %9zu %9zu %12.1f %12.1f", name, work->flat_len / pieces, pieces, none * 1e9 / (double)pieces,
           stated * 1e9 / (double)pieces);
    put_ratio((double)work->flat_len / 1e9, sum);
    put_ratio(sum, least_of(MORE_RUNS, checksum, work));
    putchar('\n');
    fflush(stdout);
}

void put_sums(struct work *work, size_t mib)
{
    printf("%-17s  %9s %9s %12s %12s %9s %9s\n", "data", "bytes", "chunks", "ns, none", "ns, stated", "GB/s",
           "/ crc32");
    for (size_t i = 0; i < sizeof rows / sizeof rows[0]; i++) {
        rows[i].make(work, rows[i].block, (mib << 20) / PART);
        put_row(rows[i].name, work, work->flat_len / work->block);
    }
    make_raw_image(work, BLOCK, mib << 20);
    put_row("raw", work, 1);
}
