#include "work.h"

#include <stdio.h>
#include <stdlib.h>
#include <string.h>
#include <time.h>
#ifdef WITH_ZLIB
#include <zlib.h>
#endif

#define RUNS 3

/* Of a shorter time too much is the clock's own. */
#define SHORTEST 20e-6

const struct data kinds[KINDS] = {
    [RANDOM] = {"random", 4096, 1, 1, 0, 0},
    [MOSTLY_FILL] = {"mostly fill", 4096, 16, 256, 0xA5, 0},
    [MOSTLY_DONT_CARE] = {"mostly don't care", 4096, 16, 256, 0, 1},
    [SMALL_CHUNKS] = {"small chunks", 256, 1, 2, 0xA5, 0},
};

void expect(int holds, const char *what)
{
    if (holds)
        return;
    fprintf(stderr, "bench: %s\n", what);
    exit(1);
}

double now(void)
{
    struct timespec time;

    clock_gettime(CLOCK_PROCESS_CPUTIME_ID, &time);
    return (double)time.tv_sec + (double)time.tv_nsec / 1e9;
}

double least_of(int runs, job *run, struct work *work)
{
    double least = run(work);

    for (int i = 1; i < runs && least >= 0; i++) {
        double seconds = run(work);

        if (seconds < least)
            least = seconds;
    }
    return least;
}

double best(job *run, struct work *work)
{
    return least_of(RUNS, run, work);
}

double judge(struct work *work)
{
    uint64_t answer[TARPAULARK_JUDGE_ANSWER];
    double start = now();

    expect(tarpaulark_judge(work->image, work->image_len, work->flat_len, answer) == 0, "judge refused");
    return now() - start;
}

double store(struct work *work)
{
    uint64_t answer[TARPAULARK_STORE_ANSWER];
    double start = now();

    expect(tarpaulark_store(work->image, work->image_len, work->partition, work->flat_len, answer) == 0,
           "store refused");
    return now() - start;
}

double copy(struct work *work)
{
    static void *(*volatile plain)(void *, const void *, size_t) = memcpy;
    double start = now();

    plain(work->partition, work->flat, work->flat_len);
    return now() - start;
}

double checksum(struct work *work)
{
#ifdef WITH_ZLIB
    static volatile uLong sum;
    double start = now();

    sum = crc32_z(0, work->flat, work->flat_len);
    (void)sum;
    return now() - start;
#else
    (void)work;
    return ABSENT;
#endif
}

uint8_t *put_chunk_header(uint8_t *at, uint32_t type, uint32_t blocks, uint32_t size)
{
    const uint32_t fields[] = {type, blocks, size};

    memcpy(at, fields, sizeof fields);
    return at + sizeof fields;
}

/* Makes an image of one chunk, whose data are given, that states no checksum; its length. */
static size_t put_chunk(
    uint8_t *image, uint32_t block, uint32_t blocks, uint32_t type, const void *data, size_t length)
{
    const uint32_t size = 12 + (uint32_t)length;
    const uint32_t fields[] = {0xED26FF3A, 1, 12 << 16 | 28, block, blocks, 1, 0, type, blocks, size};

    memcpy(image, fields, sizeof fields);
    memcpy(image + sizeof fields, data, length);
    return sizeof fields + length;
}

size_t put_fill(uint8_t *image, uint32_t block, uint32_t blocks, uint32_t word)
{
    return put_chunk(image, block, blocks, 0xCAC2, &word, sizeof word);
}

static double write_image(struct work *work)
{
    uint64_t answer[TARPAULARK_WRITE_ANSWER];
    double start = now();

    expect(tarpaulark_write(work->flat, work->flat_len, work->block, work->image, work->image_room, answer) == 0,
           "write refused");
    work->image_len = answer[TARPAULARK_LENGTH];
    return now() - start;
}

static void make_noise(uint8_t *at, size_t length)
{
    static uint64_t state = 88172645463325252u;

    for (size_t i = 0; i + 8 <= length; i += 8) {
        state ^= state << 13;
        state ^= state >> 7;
        state ^= state << 17;
        memcpy(at + i, &state, 8);
    }
}

void make_raw_image(struct work *work, uint32_t block, size_t length)
{
    work->block = block;
    work->flat_len = length;
    make_noise(work->flat, length);
    work->image_len = put_chunk(work->image, block, (uint32_t)(length / block), 0xCAC1, work->flat, length);
}

static void make_flat(const struct data *data, struct work *work, size_t mib)
{
    size_t step = (size_t)data->block * data->period, noise = (size_t)data->block * data->noisy;

    /* Small chunks are one block each, 1,000,000 of them for 256 MiB. */
    work->flat_len = data->block == 256 ? mib * 1000000 / step * step : mib << 20;
    work->block = data->block;
    memset(work->flat, data->rest, work->flat_len);
    for (size_t at = 0; at < work->flat_len; at += step)
        make_noise(work->flat + at, noise);
}

/* Turns each fill chunk of zeros into don't care; the checksum stays. */
static void skip_zeros(struct work *work)
{
    static const uint8_t zeros[] = {0xC2, 0xCA};
    uint8_t *image = work->image;
    size_t from = 28, to = 28;

    while (from < work->image_len) {
        uint32_t total;
        int zero = memcmp(image + from, zeros, 2) == 0 && image[from + 12] == 0;

        memcpy(&total, image + from + 8, 4);
        memmove(image + to, image + from, total);
        from += total;
        if (zero) {
            image[to] = 0xC3;
            image[to + 8] = 12;
        }
        to += zero ? 12 : total;
    }
    work->image_len = to;
}

double make_image(const struct data *data, struct work *work, size_t mib)
{
    double seconds;

    make_flat(data, work, mib);
    seconds = best(write_image, work);
    if (data->skips)
        skip_zeros(work);
    if (work->unstated)
        memset(work->image + CHECKSUM, 0, 4);
    return seconds;
}

/* The image joined with itself states its true checksum too. */
void state_checksum(struct work *work, uint8_t *image, size_t length)
{
    uint64_t answer[TARPAULARK_JOIN_ANSWER];

    memset(image + CHECKSUM, 0, 4);
    if (work->unstated)
        return;
    expect(tarpaulark_join(image, length, image, length, work->joined, work->image_room, answer) == 0, "join refused");
    memcpy(image + CHECKSUM, work->joined + CHECKSUM, 4);
}

void clear_partition(struct work *work)
{
    memset(work->partition, 0, work->flat_len);
}

void expect_stored(const struct work *work)
{
    expect(memcmp(work->flat, work->partition, work->flat_len) == 0, "the stored bytes are wrong");
}

void put_names(const struct data *data, const char *job, const struct work *work)
{
    printf("%-17s  %-5s  %-8s", data->name, job, work->unstated ? "none" : "stated");
}

void put_ratio(double number, double time)
{
    if (time >= SHORTEST)
        printf(" %9.2f", number / time);
    else
        printf(" %9s", "-");
}
