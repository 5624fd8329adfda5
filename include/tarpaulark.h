/*
 * Tarpaulark: judges and stores Android sparse images, whole or as they arrive in
 * pieces, compares two of them, joins two into one, writes them from flat bytes, adds
 * up what any number of them do in a report, finds the sections of a boot image, says
 * whether a board launched with a release takes it, keeps the slot record, and starts
 * a slot: picks it, finds the sections of its boot image and writes the kernel's
 * command line.
 *
 * Every function takes any input and always ends. It returns 0, or the number of
 * the first refusal that applies, and fills the lent array `answer`, if it takes one,
 * whose length is fixed; entries that do not apply are 0. A refusal stores nothing,
 * lists nothing, writes no image and no line and changes no slot record and no report,
 * with two exceptions: a storing pass that refuses late (see Passes, below), and
 * tarpaulark_start, which leaves the record as Start left it also where it refuses
 * after that.
 *
 * Nothing is allocated, nothing is kept between calls but in what is lent, and
 * nothing is read or written but what is lent. Calls on memory of their own may
 * run at one time.
 *
 * What the caller owes
 *
 * Bytes, and the numbers of a space for runs, are lent as a pointer and how many
 * there are. Lend the whole stretch; a pointer with 0 of them is never followed. An
 * answer, a record, a pass and a report are lent whole, in the lengths that are named
 * below, and must not be null. Numbers are lent aligned as C has arrays of their type;
 * bytes may begin anywhere. What is written (a partition, an output, a space for
 * runs or for a line, a record, a pass, a report, an answer) must not overlap anything
 * else that is lent to the call; what is only read may, so two images may be one and
 * the same, but two reports that are added may not. Nobody else writes to what is lent
 * meanwhile.
 *
 * From 0.3.0 to 0.4.0 the answers of judge, store and of finishing a pass grew from
 * 3 entries to 4, and a pass from 104 bytes to 112. From 0.4.0 to 0.5.0 a slot
 * record grew from 17 bytes to 21, and what stands after slot a's first three bytes
 * moved: use the names below (and see The slot record). 0.6.0 only adds to 0.5.0.
 * From 0.6.0 to 0.7.0 a slot record grew from 21 bytes to 22: the count of startable
 * slots stands at its end. Code compiled with a header before 0.7.0 lends too little:
 * compile it anew. 0.8.0 only adds to 0.7.0; 0.8.1 is smaller, and faster on short
 * data, and nothing else about it is new. From 0.8.1 to 0.9.0 one name went,
 * TARPAULARK_BAD_BOOT_POSITION, 28, which no image could get: take it out of code that
 * names it. Code that was compiled before works as it did, and 28 is never used again.
 * From 0.9.0 to 0.10.0 the answer of locate shrank from 19 entries to 17: it no longer
 * has the second-stage loader, what stood after that moved, and its last entry is new.
 * TARPAULARK_SECOND went, so code that names it no longer compiles: take it out. Header
 * and library go together: a library before 0.10.0 writes two numbers past an array of
 * 17, and code compiled with an older header, or with numbers in place of the names
 * below, looks for recovery, dtb and signature in the wrong entries and reads two that
 * no call fills: compile it anew, with the names. 0.11.0 only adds to 0.10.0, 0.12.0
 * only to 0.11.0, and 0.13.0 only to 0.12.0.
 *
 * Where it runs
 *
 * The library is x86-64 code for the System V calling convention. It needs no C
 * library and no other library: it has no undefined symbol. It uses the vector
 * registers xmm0 to xmm15 (SSE2), which a loader must have switched on and must
 * save if it interrupts a call, and the 128 bytes below the stack pointer that
 * the convention grants. No function calls itself; as compiled, a call takes less
 * than 2 KiB of stack.
 *
 * How long it takes
 *
 * Judging takes time in proportion to the image's length, whatever it says in its
 * header: every chunk takes at least 12 bytes of the image, and any but a raw one
 * costs at most a fixed number of steps, however many blocks it names. Storing
 * takes that, and time in proportion to the bytes that it stores. A pass takes the
 * same, and a fixed number of steps for each call. Writing takes time in proportion
 * to the flat bytes, which are read three times at most. Comparing takes what
 * judging both images takes, and time in proportion to their chunks and to the bytes
 * of the blocks that both write and at least one of them raw: it goes over these
 * twice at most, and once where the space has three numbers for each block. Any
 * other blocks cost nothing of their own, however many there are. Joining takes what
 * judging both images takes, and time in proportion to their chunks and to the bytes
 * of the raw blocks that come to be written, those of the second image and those of
 * the first that the second does not write. It goes over the chunks twice, to measure
 * the image and then to write it, and both times scans these blocks, each up to its
 * first word that differs, and twice where its kind is another than that of the block
 * before it. Those that stay raw are gone over twice more, to copy them and for the
 * checksum. Blocks of all other chunks cost nothing of their own. Counting an image in
 * a report takes what judging it takes, and a fixed number of steps, however many
 * images are counted there already; adding two reports takes a fixed number. Starting a
 * slot by tarpaulark_start takes time in proportion to the loader's line and to the
 * line that is written, and otherwise a fixed number of steps, however long the images
 * are. All else takes a fixed number of steps.
 *
 * What a restart assumes
 *
 * Power may fail any number of times while images are stored. Storing the same
 * images from the first on, on the partition as it was left, then leaves what it
 * would have left without the cuts, with the same answers, and bytes that no
 * accepted image stores are the original ones at every moment. That is proved, for
 * blocks that reach the medium in any order and of which any number is old, new or
 * torn, and it assumes: the list of images and the partition's length stay the
 * same; nobody else writes to the partition; and the medium changes no byte
 * outside the blocks that are written.
 */
#ifndef TARPAULARK_H
#define TARPAULARK_H

#include <stddef.h>
#include <stdint.h>

/* The version of the header, the library and the host tool; it stands only here. */
#define TARPAULARK_VERSION "0.13.0"

/* Lengths of the answers, of a slot record and each slot in it, of what is lent of the
   misc partition, of the state of a pass, and of a run and of a report in numbers. */
#define TARPAULARK_JUDGE_ANSWER 4
#define TARPAULARK_STORE_ANSWER 4
#define TARPAULARK_STORE_LIMITED_ANSWER 2
#define TARPAULARK_WRITE_ANSWER 2
#define TARPAULARK_HEADER_ANSWER 6
#define TARPAULARK_CHUNK_ANSWER 6
#define TARPAULARK_LOCATE_ANSWER 17
#define TARPAULARK_SLOTS_ANSWER 2
#define TARPAULARK_STARTABLE_ANSWER 1
#define TARPAULARK_START_ANSWER 20
#define TARPAULARK_RECORD 22
#define TARPAULARK_RECORD_SLOT 5
#define TARPAULARK_MISC 32
#define TARPAULARK_PIECE_ANSWER 1
#define TARPAULARK_FINISH_ANSWER 4
#define TARPAULARK_PASS 112
#define TARPAULARK_COMPARE_ANSWER 3
#define TARPAULARK_RUN 3
#define TARPAULARK_JOIN_ANSWER 3
#define TARPAULARK_REPORT 16

/* Where the state of a pass has the known fields of the file header, once they have come. */
#define TARPAULARK_PASS_HEADER 68

/* The most flat bytes that are written as an image, and the most that two images which
   are joined may name: total blocks x block size. */
#define TARPAULARK_MOST_FLAT 2147483648u

/* The most bytes that the image of flat bytes takes at a block size above 0. */
#define TARPAULARK_WRITE_BOUND(flat_len, block_size) \
    (28 + (uint64_t)(flat_len) + 12 * ((uint64_t)(flat_len) / (block_size)))

/* The most bytes that the joining of two images takes, by the blocks that they name and
   by the lengths of the two. Both are proved: an output of either length is never too
   short, so lend the lesser. Short images may name many blocks: for two of 44 bytes it
   is 352 by their lengths, and by their blocks up to 8,589,934,620. */
#define TARPAULARK_JOIN_BOUND(total_blocks, block_size) \
    (28 + (uint64_t)(total_blocks) * ((uint64_t)(block_size) + 12))
#define TARPAULARK_JOIN_LENGTH_BOUND(first_len, second_len) \
    (4 * ((uint64_t)(first_len) + (uint64_t)(second_len)))

/* The launch releases that there are rules for: these two, and those between. */
#define TARPAULARK_FIRST_RELEASE 8
#define TARPAULARK_LAST_RELEASE 13

/* The most bytes that the kernel's command line has. */
#define TARPAULARK_MOST_LINE 4096

/*
 * Refusals. Tests run in the order listed, but for 13 before 12, 27 before 26, and
 * for a pass 16, 14, 15 before all others; for compare and join the first image's
 * own, the second's own, 17, 18; for a launch release 41 before the boot image's own;
 * for tarpaulark_start 31, 51, the boot image's own, 52. For a report 61 is the only
 * one: an image's own is counted there. Chunks are tested in order, each fully before
 * the next.
 *
 * A sparse refusal carries a place: 0 for numbers 1 to 6, the chunk's offset for
 * 7, 8 and a passed total, the offset after the header and all chunks for a short
 * sum and 10, and 24 for 11. All other refusals carry 0.
 */
enum tarpaulark_refusal {
    /* sparse input under 28 bytes */
    TARPAULARK_BAD_LENGTH = 1,
    /* wrong magic */
    TARPAULARK_BAD_MAGIC = 2,
    /* major version not 1 */
    TARPAULARK_BAD_MAJOR = 3,
    /* a header size breaks its rule (file header at least 28, chunk header at
       least 12, both multiples of 4), or file header size exceeds the input */
    TARPAULARK_BAD_HEADER_SIZE = 4,
    /* block size not a multiple of 4 from 4 to 65,536 */
    TARPAULARK_BAD_BLOCK_SIZE = 5,
    /* total blocks x block size exceeds the partition */
    TARPAULARK_BAD_ROOM = 6,
    /* fewer bytes left than a chunk header, or (after 8) than the chunk's total
       size */
    TARPAULARK_BAD_CHUNK_END = 7,
    /* total size wrong for the chunk's type. It must be, for 0xCAC1 raw: chunk
       header size + blocks x block size; for 0xCAC2 fill: chunk header size + 4;
       for 0xCAC3 don't care: chunk header size; for any other type: a multiple
       of 4, and no less than the chunk header size */
    TARPAULARK_BAD_CHUNK_SIZE = 8,
    /* a chunk passes the total blocks, or the sum falls short at the end */
    TARPAULARK_BAD_TOTAL = 9,
    /* bytes remain after the last chunk */
    TARPAULARK_BAD_TAIL = 10,
    /* the stated checksum differs; a header checksum of 0 states none */
    TARPAULARK_BAD_CHECKSUM = 11,
    /* output too short for the image to be written (after 5 and 13) */
    TARPAULARK_BAD_OUTPUT = 12,
    /* flat length above 2,147,483,648 or not whole blocks (after 5) */
    TARPAULARK_BAD_FLAT = 13,
    /* a pass: more bytes than announced */
    TARPAULARK_BAD_MORE = 14,
    /* a pass: finished with fewer bytes than announced */
    TARPAULARK_BAD_FEWER = 15,
    /* a pass: the lent partition has another length than announced */
    TARPAULARK_BAD_PARTITION = 16,
    /* compare and join: block size or total blocks of the two images differ; join
       also: total blocks x block size above 2,147,483,648 */
    TARPAULARK_BAD_GEOMETRY = 17,
    /* compare: the runs need more numbers than the lent space has; join: output too
       short for the joined image */
    TARPAULARK_BAD_SPACE = 18,
    /* boot input under 44 bytes, or (after 23) under its header length */
    TARPAULARK_BAD_BOOT_LENGTH = 21,
    /* boot magic is not ANDROID! */
    TARPAULARK_BAD_BOOT_MAGIC = 22,
    /* boot header version above 4 */
    TARPAULARK_BAD_BOOT_VERSION = 23,
    /* header size field (versions 1 to 4) not the header length */
    TARPAULARK_BAD_BOOT_HEADER_SIZE = 24,
    /* page size not a number with a single one bit from 2,048 to 16,384 */
    TARPAULARK_BAD_BOOT_PAGE_SIZE = 25,
    /* a section that is not empty, a retired one too, ends past the input (after 27) */
    TARPAULARK_BAD_BOOT_END = 26,
    /* recovery size not 0 and its offset not the computed position */
    TARPAULARK_BAD_BOOT_RECOVERY = 27,
    /* invalid slot record, or bytes that are none; fresh record for a number of
       slots not 1 to 4 */
    TARPAULARK_BAD_RECORD = 31,
    /* slot past d or not in use (set active, modified, corrupted) */
    TARPAULARK_BAD_SLOT = 32,
    /* confirming an unbootable or corrupted slot */
    TARPAULARK_BAD_CONFIRM = 33,
    /* release not 8 to 13, kernel neither of the two, or the generic kernel before
       release 11 (before 21) */
    TARPAULARK_BAD_RELEASE = 41,
    /* the release, with that kernel, does not take the boot image's header version
       (after 21 to 27) */
    TARPAULARK_BAD_RELEASE_VERSION = 42,
    /* os version not 0 where the release, with that kernel, wants 0 (after 42) */
    TARPAULARK_BAD_RELEASE_OS = 43,
    /* of the misc partition not 32 bytes are lent (after 31, and before 21) */
    TARPAULARK_BAD_MISC = 51,
    /* the line needs more bytes than the lent space has, or than 4,096 (after 21 to
       27) */
    TARPAULARK_BAD_LINE = 52,
    /* a total of the report would pass 64 bits */
    TARPAULARK_BAD_REPORT = 61
};

/* Positions in the answers of judge, store, a pass, store_limited and write. The
   counts are those of judge, store and the finishing of a pass; see judge. */
enum {
    TARPAULARK_PLACE = 0,           /* of the refusal, in each of them, and chunk's, compare's, join's */
    TARPAULARK_COUNT_WRITTEN = 1,   /* blocks of raw and fill chunks */
    TARPAULARK_COUNT_DONT_CARE = 2, /* blocks of don't care chunks */
    TARPAULARK_COUNT_UNKNOWN = 3,   /* blocks of chunks of unknown type */
    TARPAULARK_STORED = 1,          /* store_limited: blocks stored */
    TARPAULARK_LENGTH = 1           /* write: the image's length */
};

/* Positions in the answer of header. */
enum {
    TARPAULARK_HEADER_BLOCK = 0,    /* block size in bytes */
    TARPAULARK_HEADER_TOTAL = 1,    /* total blocks */
    TARPAULARK_HEADER_CHUNKS = 2,   /* total chunks */
    TARPAULARK_HEADER_CHECKSUM = 3, /* the checksum that is stated, 0 where none is */
    TARPAULARK_HEADER_START = 4,    /* file header size: where the first chunk begins */
    TARPAULARK_HEADER_HEAD = 5      /* chunk header size */
};

/* Positions in the answer of chunk, after the place, and kinds of a chunk, which
   go by its type. */
enum {
    TARPAULARK_CHUNK_KIND = 1,   /* one of the four kinds below */
    TARPAULARK_CHUNK_BLOCKS = 2, /* its blocks */
    TARPAULARK_CHUNK_DATA = 3,   /* offset of its data in the image */
    TARPAULARK_CHUNK_NEXT = 4,   /* offset of the next chunk */
    TARPAULARK_CHUNK_FIRST = 5   /* first block of the next chunk */
};
enum {
    TARPAULARK_RAW = 0,       /* 0xCAC1 */
    TARPAULARK_FILL = 1,      /* 0xCAC2 */
    TARPAULARK_DONT_CARE = 2, /* 0xCAC3 */
    TARPAULARK_UNKNOWN = 3    /* any other */
};

/* Positions in the answers of compare and join, after the place; in a run; and kinds
   of a run. */
enum {
    TARPAULARK_IMAGE = 1, /* which image a refusal is of: 1, 2, or 0 (see compare) */
    TARPAULARK_RUNS = 2,  /* compare: how many runs; 0 after a refusal */
    TARPAULARK_JOINED = 2 /* join: the joined image's length; 0 after a refusal */
};
enum {
    TARPAULARK_RUN_FIRST = 0,  /* its first block */
    TARPAULARK_RUN_BLOCKS = 1, /* its blocks, 1 or more */
    TARPAULARK_RUN_KIND = 2    /* one of the five kinds below */
};
enum {
    TARPAULARK_NEITHER = 0,     /* neither image writes them */
    TARPAULARK_ONLY_FIRST = 1,  /* only the first does */
    TARPAULARK_ONLY_SECOND = 2, /* only the second does */
    TARPAULARK_EQUAL = 3,       /* both do, with the same bytes */
    TARPAULARK_DIFFERENT = 4    /* both do, each block with other bytes */
};

/* Positions in a report. Refusal number n, 1 to 11, is counted at
   TARPAULARK_REPORT_REFUSED + n - 1. */
enum {
    TARPAULARK_REPORT_ACCEPTED = 0, /* images that are accepted */
    TARPAULARK_REPORT_BLOCKS = 1,   /* blocks that these write */
    TARPAULARK_REPORT_BYTES = 2,    /* bytes that they write */
    TARPAULARK_REPORT_SKIPPED = 3,  /* blocks that they skip: don't care and unknown */
    TARPAULARK_REPORT_LARGEST = 4,  /* the largest total blocks x block size of one */
    TARPAULARK_REPORT_REFUSED = 5   /* images that are refused with 1; then with 2 to 11 */
};

/* Positions in the answers of locate and locate_for, and in that of start from
   TARPAULARK_START_SECTIONS on: the version; then section number s has its three numbers
   from TARPAULARK_SECTION(s) on; last, whether a retired section is present. */
enum {
    TARPAULARK_VERSION_AT = 0,
    TARPAULARK_RETIRED_AT = 16,
    TARPAULARK_SECTION_PRESENT = 0,
    TARPAULARK_SECTION_POSITION = 1,
    TARPAULARK_SECTION_SIZE = 2
};
enum {
    TARPAULARK_KERNEL = 0,
    TARPAULARK_RAMDISK = 1,
    TARPAULARK_RECOVERY_IMAGE = 2,
    TARPAULARK_DTB = 3,
    TARPAULARK_SIGNATURE = 4
};
#define TARPAULARK_SECTION(s) (1 + 3 * (s))

/* Kernels that a board is launched with. */
enum {
    TARPAULARK_PLAIN_KERNEL = 0,
    TARPAULARK_GENERIC_KERNEL = 1
};

/* Positions in a slot record: slot number k, 0 for a, has its five bytes from
   TARPAULARK_RECORD_SLOT * k on; after all four stand the current slot and the
   count of startable slots. */
enum {
    TARPAULARK_SLOT_USED = 0,
    TARPAULARK_SLOT_UNBOOTABLE = 1,
    TARPAULARK_SLOT_SUCCESSFUL = 2,
    TARPAULARK_SLOT_CORRUPTED = 3,
    TARPAULARK_SLOT_TRIES = 4
};
enum {
    TARPAULARK_RECORD_CURRENT = 20,
    TARPAULARK_RECORD_STARTABLE = 21
};

/* Positions in the answer of a slot operation, in that of slots_startable and in that
   of start, and kinds of an answer of an operation or of start. */
enum {
    TARPAULARK_SLOTS_KIND = 0,
    TARPAULARK_SLOTS_STARTED = 1,
    TARPAULARK_SLOTS_STARTABLE = 0 /* slots_startable: the count of startable slots */
};
enum {
    TARPAULARK_START_KIND = 0,
    TARPAULARK_START_SLOT = 1,    /* the started slot, 0 for a */
    TARPAULARK_START_LENGTH = 2,  /* the line's length */
    TARPAULARK_START_SECTIONS = 3 /* what locate answers for the slot's image begins here */
};
enum {
    TARPAULARK_DONE = 0,
    TARPAULARK_STARTS = 1,
    TARPAULARK_RECOVERY = 2,
    TARPAULARK_REFUSED = 3
};

#ifdef __cplusplus
extern "C" {
#endif

/*
 * Judges a sparse image for a partition of partition_len bytes. Reads the image.
 * Refusals: 1 to 11. Blocks that are not stored count as zeros in the checksum,
 * which depends on the image alone. A header checksum of 0 states none, and none is
 * worked out then: damage to what an image stores goes unnoticed, unless its
 * structure breaks.
 * answer: place; blocks written, which are those of raw and fill chunks; blocks of
 * don't care chunks; blocks of chunks of unknown type, which is any but 0xCAC1,
 * 0xCAC2 and 0xCAC3. The three counts add up to the header's total.
 *
 * A chunk of unknown type is no refusal. It is passed over with its data, and its
 * blocks are kept, as those of a don't care chunk are; but it is a sign that the
 * image holds what this library does not understand. One of 0 blocks adds nothing
 * to the count: a walk by tarpaulark_chunk shows it, a pass does not.
 */
uint32_t tarpaulark_judge(
    const uint8_t *image, size_t image_len, uint64_t partition_len,
    uint64_t answer[TARPAULARK_JUDGE_ANSWER]);

/*
 * Judges the whole image for the partition, then stores it there. Reads the
 * image; writes exactly the bytes of its raw and fill blocks, which lie in order
 * from byte 0 of the partition, and keeps every other byte. A refusal leaves the
 * partition as it was.
 * Refusals and answer: as for tarpaulark_judge. They are what the reader of the
 * image said last: were the image changed between judging and storing, which the
 * caller owes not to let happen, the refusal of the second reading is returned.
 */
uint32_t tarpaulark_store(
    const uint8_t *image, size_t image_len, uint8_t *partition, size_t partition_len,
    uint64_t answer[TARPAULARK_STORE_ANSWER]);

/*
 * Judges the whole image, then stores its first blocks, in order, up to the limit
 * or the number of blocks that it writes, the lesser. Only raw and fill blocks
 * count. Every byte of later blocks is kept. After any cut, storing the same
 * images from the first on leaves what it would have left without the cut.
 * Refusals: as for tarpaulark_judge.
 * answer: place; blocks stored.
 */
uint32_t tarpaulark_store_limited(
    const uint8_t *image, size_t image_len, uint8_t *partition, size_t partition_len,
    uint64_t limit, uint64_t answer[TARPAULARK_STORE_LIMITED_ANSWER]);

/*
 * Compares two sparse images of equal block size and total blocks, block by block.
 * Reads both, which may be one and the same memory; writes the list of runs to the
 * first numbers of runs. Each run is three numbers: its first block, its blocks, its
 * kind. The runs cover every block once, in order, and neighbours differ in kind, so
 * each is as long as it can be. Two images of 0 blocks have none.
 *
 * Kinds: 0 neither image writes the blocks; 1 only the first does; 2 only the second;
 * 3 both, and to each block the same bytes; 4 both, and to each block other bytes. Raw
 * and fill that give the same bytes are equal. A block of a don't care chunk, or of
 * one of unknown type, is not written: it is equal to nothing, not even to zeros.
 *
 * runs_len is how many numbers are lent, three for each run that there is room for. 18
 * comes exactly when three times the number of runs is more, so never where three
 * times the total blocks are lent. Numbers past the runs, and all of them after a
 * refusal, keep what they held.
 *
 * Refusals: the first image's own, 1 to 5 and 7 to 11; then the second's own; 17;
 * 18. Each image is judged as if the partition had room for it, so 6 does not come.
 * answer: place; which image the refusal is of, 1 or 2, but 0 for 17 and 18, whose
 * place is 0 too, and where nothing is refused; how many runs, 0 after a refusal.
 */
uint32_t tarpaulark_compare(
    const uint8_t *first, size_t first_len, const uint8_t *second, size_t second_len,
    uint32_t *runs, size_t runs_len, uint64_t answer[TARPAULARK_COMPARE_ANSWER]);

/*
 * Joins two sparse images of equal block size and total blocks into one that has the
 * effect of the first followed by the second. Reads both, which may be one and the
 * same memory; writes the joined image to the first bytes of out. It reads back as
 * one update: on every partition with room, storing it leaves what storing the first
 * and then the second leaves, and keeps what both keep.
 *
 * A block that the second image writes gets the second's bytes; one that only the
 * first writes gets the first's; one that neither writes is kept. Blocks of don't
 * care chunks and of chunks of unknown type are not written.
 *
 * The joined image is compact. A block that is written and whose 4-byte words are all
 * equal becomes fill, any other that is written raw, and a block that is kept don't
 * care, whatever chunks the two images have; neighbouring raw blocks share one chunk,
 * so do neighbouring fill blocks with the same word and neighbouring kept blocks, and
 * no chunk is empty. There are no chunks of unknown type, and no bytes but the known
 * fields in its headers. So two joined images of equal block size and total blocks
 * have equal effect on every partition with room exactly when their bytes are equal,
 * and of three images it does not matter which two are joined first, where every
 * joining is accepted.
 *
 * The header is as tarpaulark_write makes it: version 1.0, header sizes 28 and 12. It
 * states the true checksum, kept blocks counted as zeros, also where the two images
 * state none; where that is 0 it reads as none stated. Two images of 0 blocks give
 * the 28 bytes of a header.
 *
 * 18 comes exactly when out is shorter than the joined image, so never where
 * TARPAULARK_JOIN_BOUND or TARPAULARK_JOIN_LENGTH_BOUND bytes are lent, whichever are
 * fewer. Output bytes past the image, and all of them after a refusal, keep what they
 * held.
 *
 * Refusals: the first image's own, 1 to 5 and 7 to 11; then the second's own; 17,
 * where block size or total blocks differ, or total blocks x block size is above
 * 2,147,483,648; 18. Each image is judged as if the partition had room for it, so 6
 * does not come.
 * answer: place; which image the refusal is of, 1 or 2, but 0 for 17 and 18, whose
 * place is 0 too, and where nothing is refused; the joined image's length, 0 after a
 * refusal.
 */
uint32_t tarpaulark_join(
    const uint8_t *first, size_t first_len, const uint8_t *second, size_t second_len,
    uint8_t *out, size_t out_len, uint64_t answer[TARPAULARK_JOIN_ANSWER]);

/*
 * Writes the sparse image of flat bytes to the first bytes of out. Output bytes
 * past the image, and all of them after a refusal, keep what they held. A block
 * whose 4-byte words are all equal becomes fill, any other raw, in runs as long as
 * they can be; there are no other chunks. The header states the true checksum;
 * where that is 0 it reads as none stated.
 * Refusals, in this order: 5, 13, 12.
 * answer: place, which is always 0; the image's length.
 */
uint32_t tarpaulark_write(
    const uint8_t *flat, size_t flat_len, uint32_t block_size, uint8_t *out, size_t out_len,
    uint64_t answer[TARPAULARK_WRITE_ANSWER]);

/*
 * Reads the file header of a sparse image, for a partition of partition_len bytes.
 * Refusals: 1 to 6; it says nothing of the chunks or of the checksum.
 * answer: block size; total blocks; total chunks; the checksum that is stated, 0
 * where none is; file header size, which is the offset of the first chunk; chunk
 * header size. After a refusal all are 0.
 */
uint32_t tarpaulark_header(
    const uint8_t *image, size_t image_len, uint64_t partition_len,
    uint64_t answer[TARPAULARK_HEADER_ANSWER]);

/*
 * Reads the chunk at the offset `at` whose first block is `first`, by the header
 * that the image has, be it good or not. Walk an image from its file header size
 * and block 0, and go on from the offset and block that are answered, as many
 * times as there are chunks. Any offset and any block may be asked for.
 * Refusals: 7, 8, 9 (a passed total).
 * answer: place (`at` for a refusal, else 0); kind; blocks; offset of its data;
 * offset of the next chunk; first block of the next chunk. After a refusal all
 * but the place are 0. The kind says whether the type is known: it is
 * TARPAULARK_UNKNOWN exactly when it is not, and the type itself is the number in
 * the two bytes at `at`, low byte first.
 */
uint32_t tarpaulark_chunk(
    const uint8_t *image, size_t image_len, uint64_t at, uint32_t first,
    uint64_t answer[TARPAULARK_CHUNK_ANSWER]);

/*
 * Passes: an image that arrives in pieces.
 *
 * A judging pass, then a storing pass. Each is begun, which tells it the lengths
 * of the whole image and of the partition; is fed the image in pieces, cut
 * anywhere, of any lengths, 0 too; and is finished. Pieces are not kept: a pass
 * holds TARPAULARK_PASS bytes of state, which the caller lends to each call and
 * otherwise leaves alone. Only finishing accepts.
 *
 * Each test runs in the first call by which the bytes that it reads, and all that
 * stands before its chunk, have come; the announced length counts as the image's.
 * Before these, in this order: 16, 14, 15. A call refused with one of those takes
 * none of its bytes and stores nothing. A refusal that was given is given again
 * by every later call, before any test.
 *
 * Where the pieces together are exactly the announced length and no call gets 14,
 * 15 or 16, the judging pass answers what tarpaulark_judge answers for the whole
 * image. For an image that is accepted, fed to a storing pass of which each call
 * is lent the partition as the last left it, that pass answers and stores what
 * tarpaulark_store does; left at any moment before that, it has stored some first
 * blocks, as a cut has, and the next block may be stored in part. After a cut,
 * begin anew with the first image of the list, from its first byte.
 *
 * So judge the whole image by a judging pass first. A storing pass stores each
 * byte as it comes due: a raw block as far as it came, a fill chunk whole once its
 * fourth byte has come. Fed other bytes than those of an accepted image, it may
 * refuse late, and what came due before the refusal is then stored; nothing else
 * is, and nothing outside the lent partition.
 *
 * A call of either kind may follow on the same state. Bytes that came by a judging
 * call are not stored by a later storing call.
 *
 * The state is TARPAULARK_PASS bytes, numbers low byte first:
 *
 *    at 0 (8)    the announced length of the image
 *    at 8 (8)    the announced length of the partition
 *    at 16 (4)   the number of the refusal that was given, or 0
 *    at 20 (8)   its place
 *    at 28 (8)   how many bytes have come
 *    at 36 (4)   the checksum's state over the blocks that they give; it stays all
 *                ones where none is stated
 *    at 40 (8)   where the next chunk begins in the image
 *    at 48 (4)   its first block
 *    at 52 (4)   how many chunks are still to be read
 *    at 56 (4)   blocks of the raw and fill chunks that were read
 *    at 60 (4)   blocks of the don't care chunks that were
 *    at 64 (4)   blocks of the chunks of unknown type that were
 *    at 68 (28)  the known fields of the file header, as far as they have come
 *    at 96 (12)  those of the chunk header that came last
 *    at 108 (4)  the word of a fill chunk
 *
 * Any bytes at all are a state: no call does anything outside what is lent to it,
 * or fails to end, whatever the state holds.
 *
 * answer of a piece: place of the refusal, or 0; of finishing: as for
 * tarpaulark_judge.
 */

/*
 * Begins a pass over an image of image_len bytes for a partition of partition_len
 * bytes. Writes the state, whatever it held. Telling refuses nothing.
 */
void tarpaulark_pass_begin(uint64_t image_len, uint64_t partition_len, uint8_t pass[TARPAULARK_PASS]);

/*
 * A piece for the judging pass. Refusals: one given before; 14; 1 to 11.
 */
uint32_t tarpaulark_pass_judge_piece(
    uint8_t pass[TARPAULARK_PASS], const uint8_t *piece, size_t piece_len,
    uint64_t answer[TARPAULARK_PIECE_ANSWER]);

/*
 * Finishes the judging pass. Refusals: one given before; 15; 1 where a length of 0
 * was announced.
 */
uint32_t tarpaulark_pass_judge_finish(
    uint8_t pass[TARPAULARK_PASS], uint64_t answer[TARPAULARK_FINISH_ANSWER]);

/*
 * A piece for the storing pass. Writes exactly the bytes of the partition that
 * have come due since the last call. Refusals: one given before; 16; 14; 1 to 11.
 */
uint32_t tarpaulark_pass_store_piece(
    uint8_t pass[TARPAULARK_PASS], const uint8_t *piece, size_t piece_len,
    uint8_t *partition, size_t partition_len, uint64_t answer[TARPAULARK_PIECE_ANSWER]);

/*
 * Finishes the storing pass, which stores nothing more. Refusals: one given
 * before; 16; 15; 1 where a length of 0 was announced.
 */
uint32_t tarpaulark_pass_store_finish(
    uint8_t pass[TARPAULARK_PASS], const uint8_t *partition, size_t partition_len,
    uint64_t answer[TARPAULARK_FINISH_ANSWER]);

/*
 * Reports: what any number of sparse images do, added up.
 *
 * A report is TARPAULARK_REPORT numbers, which the caller lends to each call and keeps
 * between them:
 *
 *    at 0        images accepted
 *    at 1        blocks that they write, those of raw and fill chunks
 *    at 2        bytes that they write, each image's blocks x its block size
 *    at 3        blocks that they skip, those of don't care chunks and of chunks of
 *                unknown type together
 *    at 4        the largest total blocks x block size of an accepted image, 0 where
 *                there is none
 *    at 5 to 15  images refused with 1, with 2 and so on to 11
 *
 * A report of zeros is the empty one: begin with that. Any numbers at all are a report:
 * no call does anything outside what is lent to it, or fails to end, whatever they are.
 *
 * All but the largest are totals. From an empty report on they are the sums over the
 * images that were counted, and the largest is the largest of them. An image that is
 * counted twice counts twice.
 *
 * Images may also be counted in halves, or in any number of parts, each into a report
 * of its own that begins empty, in turn or at one time; added up, they are the report
 * of all images. Where all totals fit, it makes no difference in which order images
 * are counted and reports added, and which reports are added first.
 *
 * Refusal: 61, exactly when a total would pass 64 bits. The report then stays as it was
 * before the call, with what was counted until then: go on with an empty one, and keep
 * both. The largest is no total, so it never gives 61.
 */

/*
 * Judges a sparse image for a partition of partition_len bytes, as tarpaulark_judge
 * does, and counts it. Reads the image; writes the report. An accepted image adds to
 * the entries 0 to 3, and becomes the largest where it is larger; a refused one adds 1
 * to the entry of its number, and nothing else, and is no refusal here: the call
 * returns 0. Which of both it was is seen by comparing the report before and after.
 * Refusal: 61; then the image is not counted.
 */
uint32_t tarpaulark_report_count(
    uint64_t report[TARPAULARK_REPORT], const uint8_t *image, size_t image_len,
    uint64_t partition_len);

/*
 * Adds another report to a report: each total is the sum of the two, and the largest is
 * the larger of the two. Reads both; writes the first alone. The other one must not be
 * the same memory: copy a report that is to be added to itself.
 * Refusal: 61; then both stay as they were.
 */
uint32_t tarpaulark_report_add(
    uint64_t report[TARPAULARK_REPORT], const uint64_t other[TARPAULARK_REPORT]);

/*
 * Finds the sections of a boot image. Reads the image.
 *
 * The version says which sections are offered, empty or not:
 *
 *    0  kernel, ramdisk
 *    1  kernel, ramdisk, recovery
 *    2  kernel, ramdisk, recovery, dtb
 *    3  kernel, ramdisk
 *    4  kernel, ramdisk, signature
 *
 * Images of versions 0 to 2 may also carry a second-stage loader, between ramdisk and
 * recovery. It is a retired section, which is not offered: all that is said of it is
 * whether one is present, which is when its size is not 0. It still takes its room:
 * later sections stand where they stood, the recovery offset counts it, and a loader
 * that ends past the input is refused with 26. Versions 3 and 4 have no such section.
 *
 * Refusals, in this order: 21, 22, 23, 21, 24, 25, 27, 26.
 * answer: version; then for kernel, ramdisk, recovery, dtb and signature in turn 1 if
 * the version has that section (else 0), its position, its size; last, 1 if a retired
 * section is present, else 0. An empty section has the position where it would begin.
 * After a refusal all are 0.
 */
uint32_t tarpaulark_locate(
    const uint8_t *image, size_t image_len, uint64_t answer[TARPAULARK_LOCATE_ANSWER]);

/*
 * Finds the sections of a boot image for a board that was launched with a release, and
 * with one of the two kernels, TARPAULARK_PLAIN_KERNEL or TARPAULARK_GENERIC_KERNEL:
 * release and kernel say which header versions are taken. Reads the image.
 *
 *    release  plain kernel  generic kernel
 *     8       0             no such pair: 41
 *     9       1             no such pair: 41
 *    10       2             no such pair: 41
 *    11       3             3
 *    12       3 and 4       4
 *    13       3 and 4       4, with an os version of 0
 *
 * Release and kernel may be any numbers, and are taken whole, as 32 bits: a release that
 * is not 8 to 13, and a kernel that is neither of the two, give 41.
 *
 * The os version is the whole field of 32 bits, at 44 in an image of version 0 to 2 and at
 * 16 in one of version 3 or 4. Release 13 with the generic kernel wants 0 there; for all
 * others it may be anything.
 *
 * Refusals, in this order: 41; those of tarpaulark_locate, 21, 22, 23, 21, 24, 25, 27, 26;
 * 42; 43.
 * answer: as for tarpaulark_locate: where the image is taken, its sections are the same
 * and stand where they stand without a release. After a refusal all are 0.
 */
uint32_t tarpaulark_locate_for(
    const uint8_t *image, size_t image_len, uint32_t release, uint32_t kernel,
    uint64_t answer[TARPAULARK_LOCATE_ANSWER]);

/*
 * The slot record: TARPAULARK_RECORD bytes. For the slots a, b, c and d in turn
 *
 *    at 0, 5, 10, 15  used         0 or 1
 *    at 1, 6, 11, 16  unbootable   0 or 1
 *    at 2, 7, 12, 17  successful   0 or 1
 *    at 3, 8, 13, 18  corrupted    0 or 1
 *    at 4, 9, 14, 19  tries        0 to 7
 *
 * then at 20 the current slot, 0 for a to 3 for d, and at 21 the count of startable
 * slots, 0 to 4. A valid record has a current slot in use, no used slot with tries
 * above 7, none both unbootable and successful, and a count that is the number of
 * its startable slots; places that are not used are ignored and kept. Bytes with
 * another flag than 0 or 1 are no record. Both give 31, and the bytes stay as they
 * were.
 *
 * A slot is startable when it is in use and neither unbootable nor corrupted. That
 * says nothing of its tries: one that has none, and is not successful, is startable
 * until Start marks it unbootable. Every operation keeps the count right, so a
 * status lamp only reads it (tarpaulark_slots_startable). Whoever changes a flag by
 * hand must change the count with it, or the record is invalid.
 *
 * A corrupted slot is one whose system is damaged: the kernel's block checker finds
 * that, and whoever learns of it calls tarpaulark_slots_corrupted. Such a slot may
 * not start, successful or not. The flag may stand beside unbootable or successful,
 * and only set active and partition modified clear it. Start leaves such a slot
 * unbootable where it is current, which only set active clears.
 *
 * An unproven slot gives up. In a record that tarpaulark_slots_fresh made and that
 * only the functions here and tarpaulark_start changed, a slot that is never confirmed
 * between one set active or partition modified on it, or the making of the record, and
 * the next of these is started at most three times. Where, before four starts with no
 * other operation between, another used slot than the current one is successful and
 * neither unbootable nor corrupted, the fourth starts a successful slot. Refused
 * operations count as none; but tarpaulark_start is a start also where it refuses
 * after Start.
 *
 * Records of earlier versions are shorter. 0.5.0 and 0.6.0 had 21 bytes, without the
 * count; versions up to 0.4.0 had 17, four for each slot, without corrupted and
 * without the count. Only the length tells the three apart: the bytes of an old one,
 * and some more, may read as a valid new one. Where no length is kept, make the new
 * one before the first call of this version:
 *
 *    of 21 bytes  the same 21; then the number of startable slots
 *    of 17 bytes  for each slot its first three bytes, 0 for corrupted and its
 *                 tries; then the current slot; then the number of startable slots
 *
 * Each operation reads the record and, unless it is refused, writes the new one
 * in its place. A number of slots or a slot is taken whole, as 32 bits: one that
 * does not fit is refused, whatever its low bits say.
 * answer: kind (TARPAULARK_DONE, _STARTS, _RECOVERY, _REFUSED); the slot that
 * starts, or 0.
 */

/*
 * Whether TARPAULARK_RECORD bytes are a valid record: 0, or 31 where they are not.
 * Reads them.
 */
uint32_t tarpaulark_slots_valid(const uint8_t record[TARPAULARK_RECORD]);

/*
 * How many slots are startable: the count that a valid record keeps. Reads the
 * record.
 * Refusal: 31.
 * answer: the count, 0 after a refusal.
 */
uint32_t tarpaulark_slots_startable(
    const uint8_t record[TARPAULARK_RECORD], uint64_t answer[TARPAULARK_STARTABLE_ANSWER]);

/*
 * Makes a record for 1 to 4 slots, whatever the bytes held: the first so many in
 * use, current a, flags clear, tries 3, and that number as the count. Another number
 * gives 31, and the bytes stay as they were.
 */
uint32_t tarpaulark_slots_fresh(
    uint32_t slots, uint8_t record[TARPAULARK_RECORD], uint64_t answer[TARPAULARK_SLOTS_ANSWER]);

/*
 * Start. If the current slot is neither unbootable nor corrupted, and is successful
 * or has tries above 0, it starts. Otherwise it is marked unbootable, its successful
 * flag clears, and the first other used slot in letter order that is successful and
 * neither unbootable nor corrupted becomes current and starts; if none is, the
 * answer is Recovery, and the marks stay. A started slot that is not successful
 * loses one try.
 * Refusal: 31.
 */
uint32_t tarpaulark_slots_start(
    uint8_t record[TARPAULARK_RECORD], uint64_t answer[TARPAULARK_SLOTS_ANSWER]);

/*
 * Set active. The slot (0 for a) becomes current; unbootable, successful and
 * corrupted clear, tries 3. Refusals: 31, 32.
 */
uint32_t tarpaulark_slots_set_active(
    uint8_t record[TARPAULARK_RECORD], uint32_t slot, uint64_t answer[TARPAULARK_SLOTS_ANSWER]);

/*
 * Partition modified. The slot's flags successful and corrupted clear, tries 3.
 * Unbootable stays. Refusals: 31, 32.
 */
uint32_t tarpaulark_slots_modified(
    uint8_t record[TARPAULARK_RECORD], uint32_t slot, uint64_t answer[TARPAULARK_SLOTS_ANSWER]);

/*
 * Corrupted. Sets the slot's flag, whether it is set already or not, and changes
 * nothing else: the next Start goes by it, and Confirm refuses the slot from now on.
 * Refusals: 31, 32.
 */
uint32_t tarpaulark_slots_corrupted(
    uint8_t record[TARPAULARK_RECORD], uint32_t slot, uint64_t answer[TARPAULARK_SLOTS_ANSWER]);

/*
 * Confirm. The current slot, if neither unbootable nor corrupted, becomes
 * successful. The system calls this, never the loader. Refusals: 31, 33.
 */
uint32_t tarpaulark_slots_confirm(
    uint8_t record[TARPAULARK_RECORD], uint64_t answer[TARPAULARK_SLOTS_ANSWER]);

/*
 * Starts a slot: runs Start on the record once, as tarpaulark_slots_start does, finds the
 * sections of the started slot's boot image, as tarpaulark_locate does, and writes the
 * kernel's command line to the first bytes of space. Reads the record, misc, the loader's
 * line (line) and, of the images, the started slot's alone; writes the record and the line.
 *
 * An image is lent for each place of the record, a to d. For a place that is not in use
 * any bytes do, and none at all too, null with 0. Of the misc partition its first
 * TARPAULARK_MISC bytes are lent. Recovery is asked for when they begin with
 * "boot-recovery" and a zero byte. The loader's line is any bytes, and none at all too.
 *
 * The line is, one directly after the other:
 *
 *    the loader's line  as it is, a zero byte in it too
 *    a space            also where the loader's line is empty
 *    the image's line   its cmdline up to the first zero byte or its end, which is 512
 *                       bytes at 64 in versions 0 to 2 and 1,536 at 44 in versions 3
 *                       and 4; then in versions 0 to 2 the extra cmdline, 1,024 bytes at
 *                       608, read the same way, also where the cmdline ended early
 *    the slot           " androidboot.slot_suffix=_a", with the letter of the started slot
 *    how it starts      " skip_initramfs", unless recovery is asked for
 *
 * No zero byte is written at its end: the answer has its length, and a kernel that wants
 * one gets it from the caller. Bytes of space past the line keep what they held, and all of
 * them do after a refusal and where the answer is Recovery. The line has at most
 * TARPAULARK_MOST_LINE bytes, so more space than that is of no use.
 *
 * Where Start answers Recovery, so does this: no slot may start, no image is read and no
 * line is written. That recovery is asked for by misc is another thing: a slot starts then,
 * with its line.
 *
 * Refusals, in this order: 31; 51; then, after Start, those of tarpaulark_locate for the
 * started slot's image, 21, 22, 23, 21, 24, 25, 27, 26; 52, exactly when the line needs
 * more bytes than space has or than 4,096. 31 and 51 leave the record as it was. All others
 * leave it as Start left it: a slot that is not successful has lost a try, so one whose
 * image is damaged is given up after some starts.
 *
 * So write the record to its place before anything else is done by the answer, and before
 * the kernel is jumped to above all; also for Recovery, and for every refusal but 31 and
 * 51. A try that is not written down is not spent.
 *
 * answer: kind (TARPAULARK_STARTS, _RECOVERY, _REFUSED); the started slot; the line's
 * length; then the TARPAULARK_LOCATE_ANSWER entries that tarpaulark_locate answers for its
 * image, whether a retired section is present among them. All but the kind are 0 for
 * Recovery and after a refusal.
 */
uint32_t tarpaulark_start(
    uint8_t record[TARPAULARK_RECORD],
    const uint8_t *image_a, size_t image_a_len, const uint8_t *image_b, size_t image_b_len,
    const uint8_t *image_c, size_t image_c_len, const uint8_t *image_d, size_t image_d_len,
    const uint8_t *misc, size_t misc_len, const uint8_t *line, size_t line_len,
    uint8_t *space, size_t space_len, uint64_t answer[TARPAULARK_START_ANSWER]);

#ifdef __cplusplus
}
#endif

#endif
