/*
 * Measures how much stack a call of each exported function takes: the call runs on a stack of its own whose words
 * were painted, and the lowest word that lost its paint tells how deep it went, less what an empty call takes. The
 * inputs are accepted ones and, by damage, ones that get every refusal. Prints one line, `stack: N calls of
 * M functions take at most B bytes`; ends with 1 where a call, with its state where it is one of a pass, takes more
 * than include/tarpaulark.h promises for the call, or a refusal was not met.
 */
#include "tarpaulark.h"

#include <stdbool.h>
#include <stdio.h>
#include <stdlib.h>
#include <string.h>
#include <ucontext.h>

/* A call takes less, says the header. */
#define PROMISED 2048

#define WORDS 2048
#define PAINT 0x9E3779B97F4A7C15u

/* Raw data of so many bytes go through the checksum in four lanes. */
#define BLOCK 1024
#define BLOCKS 10
#define ROOM 16384

/* Bytes of a loader's line that is not too long. */
#define LINE 40

/* What is lent to the calls, and what the last one returned. */
static uint8_t flat[BLOCKS * BLOCK], image[ROOM], partition[BLOCKS * BLOCK], pass[TARPAULARK_PASS];
static uint8_t other[ROOM], record[TARPAULARK_RECORD];
static uint32_t runs[BLOCKS * TARPAULARK_RUN];
static uint8_t joined[TARPAULARK_JOIN_BOUND(BLOCKS, BLOCK)];
static size_t other_len, runs_len = BLOCKS * TARPAULARK_RUN, joined_room = sizeof joined;
static bool other_first;
static size_t image_len, told_len, flat_len = sizeof flat, partition_len = sizeof partition, room = ROOM;
static size_t piece_at, piece_len, chunk_at;
static uint32_t block = BLOCK, slot, release, kernel, number;
static uint8_t misc[TARPAULARK_MISC], line[TARPAULARK_MOST_LINE], space[TARPAULARK_MOST_LINE];
static size_t misc_len = sizeof misc, line_len = LINE, space_len = sizeof space;
static uint64_t totals[TARPAULARK_REPORT], more_totals[TARPAULARK_REPORT];
static uint64_t answer[TARPAULARK_START_ANSWER], met;

static void got(uint32_t returned)
{
    number = returned;
    met |= (uint64_t)1 << returned;
}

static void nothing(void)
{
}

static void judge(void)
{
    got(tarpaulark_judge(image, image_len, sizeof partition, answer));
}

static void store(void)
{
    got(tarpaulark_store(image, image_len, partition, sizeof partition, answer));
}

static void store_limited(void)
{
    got(tarpaulark_store_limited(image, image_len, partition, sizeof partition, 3, answer));
}

static void compare(void)
{
    if (other_first)
        got(tarpaulark_compare(other, other_len, image, image_len, runs, runs_len, answer));
    else
        got(tarpaulark_compare(image, image_len, other, other_len, runs, runs_len, answer));
}

static void join(void)
{
    if (other_first)
        got(tarpaulark_join(other, other_len, image, image_len, joined, joined_room, answer));
    else
        got(tarpaulark_join(image, image_len, other, other_len, joined, joined_room, answer));
}

static void write_image(void)
{
    got(tarpaulark_write(flat, flat_len, block, image, room, answer));
}

static void header(void)
{
    got(tarpaulark_header(image, image_len, sizeof partition, answer));
}

static void chunk(void)
{
    got(tarpaulark_chunk(image, image_len, chunk_at, 0, answer));
}

static void pass_begin(void)
{
    tarpaulark_pass_begin(told_len, sizeof partition, pass);
}

static void judge_piece(void)
{
    got(tarpaulark_pass_judge_piece(pass, image + piece_at, piece_len, answer));
}

static void judge_finish(void)
{
    got(tarpaulark_pass_judge_finish(pass, answer));
}

static void store_piece(void)
{
    got(tarpaulark_pass_store_piece(pass, image + piece_at, piece_len, partition, partition_len, answer));
}

static void store_finish(void)
{
    got(tarpaulark_pass_store_finish(pass, partition, partition_len, answer));
}

static void report_count(void)
{
    got(tarpaulark_report_count(totals, image, image_len, sizeof partition));
}

static void report_add(void)
{
    got(tarpaulark_report_add(totals, more_totals));
}

static void locate(void)
{
    got(tarpaulark_locate(image, image_len, answer));
}

static void locate_for(void)
{
    got(tarpaulark_locate_for(image, image_len, release, kernel, answer));
}

static void slots_valid(void)
{
    got(tarpaulark_slots_valid(record));
}

static void slots_startable(void)
{
    got(tarpaulark_slots_startable(record, answer));
}

static void slots_fresh(void)
{
    got(tarpaulark_slots_fresh(slot, record, answer));
}

static void slots_start(void)
{
    got(tarpaulark_slots_start(record, answer));
}

static void slots_set_active(void)
{
    got(tarpaulark_slots_set_active(record, slot, answer));
}

static void slots_modified(void)
{
    got(tarpaulark_slots_modified(record, slot, answer));
}

static void slots_corrupted(void)
{
    got(tarpaulark_slots_corrupted(record, slot, answer));
}

static void slots_confirm(void)
{
    got(tarpaulark_slots_confirm(record, answer));
}

/* The image is that of every slot. */
static void start(void)
{
    got(tarpaulark_start(record, image, image_len, image, image_len, image, image_len, image, image_len, misc, misc_len,
                         line, line_len, space, space_len, answer));
}

/* Each call, and the deepest it went. The passes keep a state as well. */
static struct function {
    const char *name;
    void (*run)(void);
    bool is_pass;
    size_t deepest;
} functions[] = {
    {"judge", judge, false, 0},
    {"store", store, false, 0},
    {"store_limited", store_limited, false, 0},
    {"compare", compare, false, 0},
    {"join", join, false, 0},
    {"write", write_image, false, 0},
    {"header", header, false, 0},
    {"chunk", chunk, false, 0},
    {"pass_begin", pass_begin, true, 0},
    {"pass_judge_piece", judge_piece, true, 0},
    {"pass_judge_finish", judge_finish, true, 0},
    {"pass_store_piece", store_piece, true, 0},
    {"pass_store_finish", store_finish, true, 0},
    {"report_count", report_count, false, 0},
    {"report_add", report_add, false, 0},
    {"locate", locate, false, 0},
    {"locate_for", locate_for, false, 0},
    {"slots_valid", slots_valid, false, 0},
    {"slots_startable", slots_startable, false, 0},
    {"slots_fresh", slots_fresh, false, 0},
    {"slots_start", slots_start, false, 0},
    {"slots_set_active", slots_set_active, false, 0},
    {"slots_modified", slots_modified, false, 0},
    {"slots_corrupted", slots_corrupted, false, 0},
    {"slots_confirm", slots_confirm, false, 0},
    {"start", start, false, 0},
};
#define FUNCTIONS (sizeof functions / sizeof functions[0])

static size_t calls, empty;

static void expect(bool holds, const char *what)
{
    if (holds)
        return;
    printf("stack: %s\n", what);
    exit(1);
}

/* The bytes of a painted stack that a call takes. */
static size_t depth_of(void (*run)(void))
{
    static uint64_t stack[WORDS];
    static ucontext_t here, there;
    size_t kept = 0;

    for (size_t i = 0; i < WORDS; i++)
        stack[i] = PAINT;
    getcontext(&there);
    there.uc_stack.ss_sp = stack;
    there.uc_stack.ss_size = sizeof stack;
    there.uc_link = &here;
    makecontext(&there, run, 0);
    swapcontext(&here, &there);
    while (kept < WORDS && stack[kept] == PAINT)
        kept++;
    expect(kept > 0, "the painted stack is too small");
    return sizeof stack - kept * sizeof stack[0];
}

static void measure(void (*run)(void))
{
    size_t depth = depth_of(run) - empty, i = 0;

    while (functions[i].run != run)
        i++;
    if (functions[i].deepest < depth)
        functions[i].deepest = depth;
    calls++;
}

static void put32(size_t at, uint32_t value)
{
    for (size_t i = 0; i < 4; i++)
        image[at + i] = (uint8_t)(value >> 8 * i);
}

/* Where the chunks of the image begin: raw, fill, don't care, raw, unknown, of two blocks each. */
#define RAW (12 + 2 * BLOCK)
static const size_t starts[] = {28, 28 + RAW, 44 + RAW, 56 + RAW, 56 + 2 * RAW};

/* The bytes of those chunks, zeros for don't care and unknown. */
static void make_flat(void)
{
    memset(flat, 0, sizeof flat);
    for (size_t i = 0; i < 2 * BLOCK; i++)
        flat[i] = flat[6 * BLOCK + i] = (uint8_t)rand();
    memset(flat + 2 * BLOCK, 0xA5, 2 * BLOCK);
}

/* Changes the flat bytes, or changes them back: the last byte of a block that is raw, and of one that is fill. */
static void change_flat(void)
{
    flat[2 * BLOCK - 1] ^= 1;
    flat[4 * BLOCK - 1] ^= 1;
}

/* The other image, of the flat bytes in blocks of a size. */
static void make_other(uint32_t size)
{
    block = size;
    measure(write_image);
    block = BLOCK;
    other_len = answer[TARPAULARK_LENGTH];
    memcpy(other, image, other_len);
}

/* Fill chunks of zeros are turned into don't care, without their word, and into unknown; the checksum stays. */
static void make_image(void)
{
    measure(write_image);
    image_len = answer[TARPAULARK_LENGTH];
    image[starts[2]] = 0xC3;
    image[starts[2] + 8] = 12;
    memmove(image + starts[3], image + starts[3] + 4, image_len - starts[3] - 4);
    image_len -= 4;
    image[starts[4]] = 0xC5;
    told_len = image_len;
}

static void run_pass(void (*piece)(void), void (*finish)(void), size_t step)
{
    measure(pass_begin);
    for (piece_at = 0; piece_at < image_len; piece_at += piece_len) {
        piece_len = image_len - piece_at < step ? image_len - piece_at : step;
        measure(piece);
    }
    measure(finish);
}

static void run_passes(size_t step)
{
    run_pass(judge_piece, judge_finish, step);
    run_pass(store_piece, store_finish, step);
}

/* A call on the image and the other one, in both orders. */
static void measure_orders(void (*run)(void))
{
    other_first = false;
    measure(run);
    other_first = true;
    measure(run);
}

static void run_pair(void)
{
    measure_orders(compare);
    measure_orders(join);
}

static void run_whole(void)
{
    measure(judge);
    measure(store);
    measure(store_limited);
    measure(report_count);
    run_pair();
    measure(header);
    for (size_t i = 0; i < sizeof starts / sizeof starts[0]; i++) {
        chunk_at = starts[i];
        measure(chunk);
    }
}

static void run_sparse(void)
{
    run_whole();
    run_passes(ROOM);
    run_passes(BLOCK + 501);
}

/* The image with each byte of 28 from a place on changed in two ways. */
static void damage(size_t from)
{
    static const uint8_t changes[] = {2, 0xFF};

    for (size_t i = from; i < from + 28; i++)
        for (size_t j = 0; j < sizeof changes; j++) {
            image[i] ^= changes[j];
            run_sparse();
            image[i] ^= changes[j];
        }
}

static void try_lengths(void)
{
    const size_t good = image_len;

    for (image_len = 0; image_len <= good + 1; image_len += image_len < 64 ? 1 : 61) {
        told_len = image_len;
        run_sparse();
        told_len = good;
        run_passes(ROOM);
    }
    image_len = good + 1;
    run_passes(ROOM);
    told_len = good + 1;
    run_sparse();
    image_len = told_len = good;
    partition_len--;
    run_passes(ROOM);
    partition_len++;
}

static void try_image(void)
{
    measure(judge);
    expect(number == 0, "the image is refused");
    for (size_t step = 1; step < ROOM; step *= 3) {
        run_passes(step);
        expect(number == 0, "the image is refused in pieces");
    }
    run_sparse();
    damage(0);
    for (size_t i = 0; i < sizeof starts / sizeof starts[0]; i++)
        damage(starts[i]);
    try_lengths();
}

/* The image as it was made, and stating no checksum. */
static void try_sparse(void)
{
    make_flat();
    change_flat();
    make_other(BLOCK);
    change_flat();
    make_image();
    try_image();
    put32(24, 0);
    try_image();
}

/* Two images in space for any number of runs. */
static void try_compare(void)
{
    for (runs_len = 0; runs_len <= BLOCKS * TARPAULARK_RUN; runs_len++)
        measure_orders(compare);
    runs_len = BLOCKS * TARPAULARK_RUN;
    expect(number == 0 && answer[TARPAULARK_RUNS] > 3, "the images are not compared");
}

/* Two images in outputs of every 61st length, and of one that is never too short. */
static void try_join(void)
{
    for (joined_room = 0; joined_room < sizeof joined; joined_room += 61)
        measure_orders(join);
    joined_room = sizeof joined;
    measure_orders(join);
    expect(number == 0 && answer[TARPAULARK_JOINED] > 28, "the images are not joined");
}

/* An image and one that writes all blocks; an image and itself, of which some are kept; and one of other geometry. */
static void try_pairs(void)
{
    try_compare();
    try_join();
    memcpy(other, image, image_len);
    other_len = image_len;
    measure_orders(compare);
    expect(number == 0 && answer[TARPAULARK_RUNS] == 4, "an image and itself are not compared");
    try_join();
    make_other(BLOCK / 2);
    make_image();
    run_pair();
}

/* Whether a call is refused because a total is full; the report is then as it was. */
static bool is_too_much(void (*run)(void), size_t full)
{
    uint64_t before[TARPAULARK_REPORT];

    memset(totals, 0, sizeof totals);
    totals[full] = UINT64_MAX;
    memcpy(before, totals, sizeof before);
    measure(run);
    expect(number == 0 || number == TARPAULARK_BAD_REPORT, "a report is refused with another number");
    expect(number == 0 || memcmp(before, totals, sizeof before) == 0, "a report that is refused is changed");
    return number != 0;
}

/* Each number of a report full in turn, the image accepted and then refused with 1; then reports of any numbers. */
static void try_report(void)
{
    const size_t good = image_len;

    for (size_t i = 0; i < TARPAULARK_REPORT; i++) {
        image_len = good;
        expect(is_too_much(report_count, i) == (i < TARPAULARK_REPORT_LARGEST), "an accepted image is counted wrongly");
        image_len = 0;
        expect(is_too_much(report_count, i) == (i == TARPAULARK_REPORT_REFUSED), "a refused image is counted wrongly");
        memset(more_totals, 0, sizeof more_totals);
        expect(!is_too_much(report_add, i), "an empty report is not added");
        more_totals[i] = 1;
        expect(is_too_much(report_add, i) == (i != TARPAULARK_REPORT_LARGEST), "a report is added wrongly");
    }
    for (size_t i = 0; i < 1000; i++) {
        for (size_t j = 0; j < TARPAULARK_REPORT; j++)
            totals[j] = more_totals[j] = (uint64_t)rand() << 33 >> rand() % 8;
        measure(report_add);
    }
    image_len = good;
}

static void try_write(void)
{
    block = 3;
    measure(write_image);
    block = BLOCK;
    flat_len--;
    measure(write_image);
    flat_len++;
    room = 4 * BLOCK;
    measure(write_image);
}

/* Each section has one byte, so it takes one page. */
static void make_boot(uint32_t version)
{
    static const uint32_t lengths[] = {1632, 1648, 1660, 1580, 1584};
    const bool late = version > 2;

    memset(image, 0, sizeof image);
    memcpy(image, "ANDROID!", 8);
    put32(40, version);
    put32(8, 1);
    put32(late ? 12 : 16, 1);
    put32(late ? 1580 : 24, 1);
    put32(late ? 20 : 1644, lengths[version]);
    image_len = 3 * 4096 + 1;
    if (late)
        return;
    put32(36, 2048);
    put32(1632, 1);
    put32(1636, 4 * 2048);
    put32(1648, 1);
    image_len = 5 * 2048 + 1;
}

/* The boot image without a release, and for every pair of release and kernel, and some that there are not. */
static void run_boot(void)
{
    measure(locate);
    for (release = TARPAULARK_FIRST_RELEASE - 1; release <= TARPAULARK_LAST_RELEASE + 1; release++)
        for (kernel = TARPAULARK_PLAIN_KERNEL; kernel <= TARPAULARK_GENERIC_KERNEL + 1; kernel++)
            measure(locate_for);
}

/* The pair that takes a version with any os version. */
static void expect_taken(uint32_t version)
{
    release = TARPAULARK_FIRST_RELEASE + version;
    kernel = TARPAULARK_PLAIN_KERNEL;
    measure(locate_for);
    expect(number == 0, "the boot image is refused for its release");
    expect(answer[TARPAULARK_RETIRED_AT] == (version < 3), "a retired section is told of wrongly for a release");
}

static void try_boot(void)
{
    for (uint32_t version = 0; version <= 4; version++) {
        make_boot(version);
        measure(locate);
        expect(number == 0, "the boot image is refused");
        expect(answer[TARPAULARK_RETIRED_AT] == (version < 3), "a retired section is told of wrongly");
        expect_taken(version);
        for (size_t i = 0; i < 1660; i += i == 48 ? 1580 - 48 : 1) {
            image[i] ^= 0xFF;
            run_boot();
            image[i] ^= 0xFF;
        }
        for (; image_len > 0; image_len -= image_len < 200 ? 1 : 200)
            run_boot();
    }
}

static bool is_startable(const uint8_t *at)
{
    return at[TARPAULARK_SLOT_USED] == 1 && at[TARPAULARK_SLOT_UNBOOTABLE] == 0 && at[TARPAULARK_SLOT_CORRUPTED] == 0;
}

/* Any record: flags that may be 0 or 1, tries up to 8, a current slot up to the place after d, and a count of startable
   slots that in one of eight is one more. */
static void make_record(void)
{
    for (size_t i = 0; i < TARPAULARK_RECORD_CURRENT; i++)
        record[i] = (uint8_t)(rand() % (i % TARPAULARK_RECORD_SLOT == TARPAULARK_SLOT_TRIES ? 9 : 2));
    record[TARPAULARK_RECORD_CURRENT] = (uint8_t)(rand() % 5);
    record[TARPAULARK_RECORD_STARTABLE] = rand() % 8 == 0;
    for (size_t i = 0; i < TARPAULARK_RECORD_CURRENT; i += TARPAULARK_RECORD_SLOT)
        record[TARPAULARK_RECORD_STARTABLE] += is_startable(record + i);
}

static void try_slots(void)
{
    static void (*const operations[])(void) = {
        slots_valid, slots_startable, slots_fresh, slots_start, slots_set_active, slots_modified, slots_corrupted,
        slots_confirm,
    };

    for (size_t i = 0; i < 2000; i++)
        for (size_t j = 0; j < sizeof operations / sizeof operations[0]; j++) {
            make_record();
            slot = (uint32_t)(rand() % 6);
            measure(operations[j]);
        }
}

/* The boot image with cmdlines that fill their fields. */
static void make_lined(uint32_t version)
{
    make_boot(version);
    if (version > 2) {
        memset(image + 44, 'n', 1536);
        return;
    }
    memset(image + 64, 'o', 512);
    memset(image + 608, 'x', 1024);
}

/* Starts slot a of a fresh record; it starts, or is refused with a number. */
static void start_fresh(uint32_t refusal, const char *what)
{
    slot = 2;
    measure(slots_fresh);
    measure(start);
    expect(number == refusal, what);
    expect(answer[TARPAULARK_START_KIND] == (refusal == 0 ? TARPAULARK_STARTS : TARPAULARK_REFUSED), what);
}

/* Misc of every length, that does not ask for recovery and then does; space for that line, and a byte less. */
static void try_misc(bool has_retired)
{
    static const char asking[] = "boot-recovery";
    size_t length;

    for (misc_len = 0; misc_len < sizeof misc; misc_len++)
        start_fresh(TARPAULARK_BAD_MISC, "misc that is too short is taken");
    memset(misc, 0, sizeof misc);
    start_fresh(0, "a slot does not start");
    length = answer[TARPAULARK_START_LENGTH];
    expect(answer[TARPAULARK_START_SECTIONS + TARPAULARK_RETIRED_AT] == has_retired,
           "a retired section is told of wrongly at a start");
    memcpy(misc, asking, sizeof asking);
    start_fresh(0, "a slot does not start where recovery is asked for");
    expect(answer[TARPAULARK_START_LENGTH] < length, "that recovery is asked for does not show");
    space_len = answer[TARPAULARK_START_LENGTH];
    start_fresh(0, "a slot does not start with just enough space");
    space_len--;
    start_fresh(TARPAULARK_BAD_LINE, "a line without room is written");
    space_len = sizeof space;
}

/* The longest line, and loader's lines that are longer by one byte and by many. */
static void try_longest(void)
{
    line_len = 0;
    start_fresh(0, "a slot does not start with an empty line");
    line_len = sizeof space - answer[TARPAULARK_START_LENGTH];
    start_fresh(0, "the longest line is refused");
    expect(answer[TARPAULARK_START_LENGTH] == TARPAULARK_MOST_LINE, "the longest line has another length");
    line_len++;
    start_fresh(TARPAULARK_BAD_LINE, "a line that is too long is written");
    line_len = sizeof line;
    start_fresh(TARPAULARK_BAD_LINE, "a loader's line that is too long is taken");
    line_len = LINE;
}

/* Starts by any records: of a slot, and Recovery. */
static void start_records(void)
{
    bool starts = false, recovers = false;

    for (size_t i = 0; i < 400; i++) {
        make_record();
        measure(start);
        starts |= answer[TARPAULARK_START_KIND] == TARPAULARK_STARTS;
        recovers |= answer[TARPAULARK_START_KIND] == TARPAULARK_RECOVERY;
    }
    expect(starts && recovers, "of many records none starts, or none answers Recovery");
}

/* Starts with the boot image damaged and cut. */
static void start_damaged(void)
{
    slot = 2;
    for (size_t i = 0; i < 1660; i += i == 48 ? 1580 - 48 : 1) {
        image[i] ^= 0xFF;
        measure(slots_fresh);
        measure(start);
        image[i] ^= 0xFF;
    }
    for (; image_len > 0; image_len -= image_len < 200 ? 1 : 200) {
        measure(slots_fresh);
        measure(start);
    }
}

static void try_start(void)
{
    memset(line, 'l', sizeof line);
    for (uint32_t version = 0; version <= 4; version++) {
        make_lined(version);
        try_misc(version < 3);
        try_longest();
        start_records();
        start_damaged();
    }
}

/* Whether the calls got every refusal that the header names. */
static bool all_met(void)
{
    static const uint8_t spans[][2] = {{0, 18}, {21, 27}, {31, 33}, {41, 43}, {51, 52}, {61, 61}};
    bool all = true;

    for (size_t i = 0; i < sizeof spans / sizeof spans[0]; i++)
        for (unsigned n = spans[i][0]; n <= spans[i][1]; n++)
            if ((met >> n & 1) == 0) {
                printf("stack: no call got %u\n", n);
                all = false;
            }
    return all;
}

static bool report(void)
{
    const struct function *deepest = functions;
    size_t by_pass = 0;

    for (const struct function *f = functions; f < functions + FUNCTIONS; f++) {
        if (f->deepest >= PROMISED)
            printf("stack: tarpaulark_%s takes %zu bytes, not less than %d\n", f->name, f->deepest, PROMISED);
        if (f->deepest > deepest->deepest)
            deepest = f;
        if (f->is_pass && f->deepest > by_pass)
            by_pass = f->deepest;
    }
    printf("stack: %zu calls of %zu functions take at most %zu bytes (%s); a pass takes %zu with its state\n", calls,
           FUNCTIONS, deepest->deepest, deepest->name, by_pass + TARPAULARK_PASS);
    return deepest->deepest < PROMISED && by_pass + TARPAULARK_PASS < PROMISED;
}

int main(void)
{
    bool all;

    empty = depth_of(nothing);
    try_sparse();
    try_pairs();
    try_report();
    try_write();
    try_boot();
    try_slots();
    try_start();
    all = all_met();
    return report() && all ? 0 : 1;
}
