/* The images that are timed, and the whole form on them. */
#ifndef WORK_H
#define WORK_H

#include "tarpaulark.h"

#include <limits.h>

#define ABSENT (-1.0)

/* An image: how long its header and that of a chunk are, and where it states its chunks and its checksum. */
#define HEADER 28
#define CHUNK_HEADER 12
#define CHUNKS 20
#define CHECKSUM 24

/* The block size, and what part of the data are taken in smaller blocks: the image is up to four times as long. */
#define BLOCK 4096
#define PART 16

/* Of so many runs a time is the least where small differences count. */
#define MORE_RUNS 9

struct work {
    uint8_t *flat, *image, *partition;
    uint8_t *other; /* what the image is compared or joined with */
    uint8_t *joined;
    uint32_t *runs;
    size_t flat_len, image_len, image_room, piece, other_len, runs_len, joined_len;
    size_t calls; /* comparisons or joinings that are timed as one */
    uint32_t block;
    uint32_t apart; /* one block of each so many is different in the other image; 0: none */
    int unstated; /* the image states no checksum */
    char flat_path[PATH_MAX], image_path[PATH_MAX], out_path[PATH_MAX];
};

/* What the flat bytes hold: `noisy` of each `period` blocks random, the others `rest`. */
struct data {
    const char *name;
    uint32_t block, noisy, period;
    uint8_t rest;
    int skips;
};

enum { RANDOM, MOSTLY_FILL, MOSTLY_DONT_CARE, SMALL_CHUNKS, KINDS };
extern const struct data kinds[KINDS];

/* Processor seconds of one run, or ABSENT. */
typedef double job(struct work *work);

void expect(int holds, const char *what);

/* Processor time, which other work on the machine disturbs least. */
double now(void);

/* The least of so many runs, and of as many as are made where nothing else is said. */
double least_of(int runs, job *run, struct work *work);
double best(job *run, struct work *work);

/* Makes the image of so many MiB of flat bytes; the time that writing it takes. */
double make_image(const struct data *data, struct work *work, size_t mib);

/* Makes so many random flat bytes, which are whole blocks, and the image of one raw chunk of them that states no
   checksum. */
void make_raw_image(struct work *work, uint32_t block, size_t length);

/* Makes an image state its true checksum, or none where the work says so. */
void state_checksum(struct work *work, uint8_t *image, size_t length);

/* Makes the partition zeros, and whether it holds the flat bytes. */
void clear_partition(struct work *work);
void expect_stored(const struct work *work);

double judge(struct work *work);
double store(struct work *work);

/* The yardsticks, over all the flat bytes: memcpy, and zlib's crc32 where it is to be had. */
double copy(struct work *work);
double checksum(struct work *work);

/* Makes a chunk header; the place after it. */
uint8_t *put_chunk_header(uint8_t *at, uint32_t type, uint32_t blocks, uint32_t size);

/* Makes an image of one fill chunk that states no checksum; its length. */
size_t put_fill(uint8_t *image, uint32_t block, uint32_t blocks, uint32_t word);

/* The columns that name the image and the job. */
void put_names(const struct data *data, const char *job, const struct work *work);

/* A column: a number over a time, which must be long enough to be told. */
void put_ratio(double number, double time);

#endif
