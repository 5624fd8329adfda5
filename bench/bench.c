/*
 * bench MIB FOLDER: times judge, store and write on data of MIB MiB against memcpy,
 * zlib's crc32 (with -DWITH_ZLIB), simg2img and img2simg, and prints a table of ratios;
 * then a table of the passes against judge and store, one of comparing two images
 * against memcmp, one of joining two, and one of the checksum alone. Images are judged and
 * stored with a checksum stated and with none. The tools run on files in FOLDER.
 */
#define _GNU_SOURCE
#include "compare.h"
#include "join.h"
#include "passes.h"
#include "sums.h"
#include "work.h"

#include <spawn.h>
#include <stdio.h>
#include <stdlib.h>
#include <string.h>
#include <sys/resource.h>
#include <sys/wait.h>
#include <unistd.h>

extern char **environ;

static double seconds_of(struct timeval time)
{
    return (double)time.tv_sec + (double)time.tv_usec / 1e6;
}

static double run_tool(char **words, const char *out)
{
    struct rusage used;
    pid_t child;
    int status;

    unlink(out);
    if (posix_spawnp(&child, words[0], NULL, NULL, words, environ) != 0)
        return ABSENT;
    expect(wait4(child, &status, 0, &used) == child && status == 0, "a tool failed");
    return seconds_of(used.ru_utime) + seconds_of(used.ru_stime);
}

static double simg2img(struct work *work)
{
    char name[] = "simg2img";
    char *words[] = {name, work->image_path, work->out_path, NULL};

    return run_tool(words, work->out_path);
}

/* It takes blocks from 1,024 bytes. */
static double img2simg(struct work *work)
{
    char name[] = "img2simg", block[16];
    char *words[] = {name, work->flat_path, work->out_path, block, NULL};

    snprintf(block, sizeof block, "%u", (unsigned)work->block);
    return work->block < 1024 ? ABSENT : run_tool(words, work->out_path);
}

static void put_file(const char *path, const uint8_t *bytes, size_t length)
{
    FILE *file = fopen(path, "wb");

    expect(file != NULL && fwrite(bytes, 1, length, file) == length && fclose(file) == 0,
           "a file could not be written");
}

struct times {
    double judge, store, write;
};

static struct times time_ours(const struct data *data, struct work *work, size_t mib)
{
    struct times times;

    times.write = make_image(data, work, mib);
    clear_partition(work);
    times.judge = best(judge, work);
    times.store = best(store, work);
    expect_stored(work);
    return times;
}

struct yardsticks {
    double copy, checksum, tool;
};

static void put_row(const struct data *data, const char *job, const struct work *work, double whole,
                    double quarter, struct yardsticks than)
{
    put_names(data, job, work);
    printf(" %9.4f", whole);
    put_ratio((double)work->flat_len / 1e9, whole);
    put_ratio(whole, than.copy);
    put_ratio(whole, than.checksum);
    put_ratio(whole, than.tool);
    put_ratio(whole, quarter);
    putchar('\n');
    fflush(stdout);
}

static void put_rows(const struct data *data, struct work *work, size_t mib)
{
    struct times quarter = time_ours(data, work, mib / 4), whole = time_ours(data, work, mib);
    struct yardsticks than = {best(copy, work), best(checksum, work), ABSENT};

    put_file(work->image_path, work->image, work->image_len);
    than.tool = best(simg2img, work);
    put_row(data, "judge", work, whole.judge, quarter.judge, than);
    put_row(data, "store", work, whole.store, quarter.store, than);
    if (data->skips || work->unstated)
        return;
    put_file(work->flat_path, work->flat, work->flat_len);
    than.tool = best(img2simg, work);
    put_row(data, "write", work, whole.write, quarter.write, than);
}

static void *touched(size_t length)
{
    void *at = malloc(length);

    expect(at != NULL, "too little memory");
    memset(at, 1, length);
    return at;
}

int main(int count, char **words)
{
    static struct work work;
    size_t mib = count == 3 ? strtoul(words[1], NULL, 10) : 0;

    expect(mib >= 4 && mib <= 2048 && mib % 4 == 0, "usage: bench MIB FOLDER, MIB a multiple of 4 from 4 to 2048");
    snprintf(work.flat_path, PATH_MAX, "%s/flat", words[2]);
    snprintf(work.image_path, PATH_MAX, "%s/image", words[2]);
    snprintf(work.out_path, PATH_MAX, "%s/out", words[2]);
    work.image_room = TARPAULARK_WRITE_BOUND(mib << 20, 256);
    work.flat = touched(mib << 20);
    work.partition = touched(mib << 20);
    work.image = touched(work.image_room);
    work.other = touched(work.image_room);
    work.joined = touched(work.image_room);
    work.runs = touched((mib << 20) / 256 * TARPAULARK_RUN * sizeof *work.runs);
    printf("%-17s  %-5s  %-8s %9s %9s %9s %9s %9s %9s\n", "data", "job", "checksum", "seconds", "GB/s", "/ memcpy",
           "/ crc32", "/ tool", "growth");
    for (size_t i = 0; i < KINDS; i++) {
        work.unstated = 0;
        put_rows(&kinds[i], &work, mib);
        work.unstated = 1;
        put_rows(&kinds[i], &work, mib);
    }
    putchar('\n');
    put_passes(&work, mib);
    putchar('\n');
    put_comparisons(&work, mib);
    putchar('\n');
    put_joinings(&work, mib);
    putchar('\n');
    put_sums(&work, mib);
    return 0;
}
