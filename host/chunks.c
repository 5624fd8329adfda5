#include "chunks.h"

#include "answer.h"

#include <inttypes.h>
#include <stdio.h>

/* Room for what is remarked. */
enum { REMARK = 256 };

static const char changed[] = "changed while it was read; run the same command again";
static const char unchecked[] = "no checksum is stated: the data were not checked";

/* Begins to walk an image that was accepted for a partition of so many bytes. */
static void start_walk(struct walk *walk, const struct mapped *image, uint64_t room)
{
    *walk = (struct walk){.image = image};
    if (tarpaulark_header(image->at, image->length, room, walk->header) != 0)
        failed(image->path, changed, 0);
    walk->left = walk->header[TARPAULARK_HEADER_CHUNKS];
    walk->at = walk->header[TARPAULARK_HEADER_START];
    walk->remarks.checksum = walk->header[TARPAULARK_HEADER_CHECKSUM];
}

uint32_t begin_walk(
    struct walk *walk, const struct mapped *image, uint64_t room, uint64_t answer[TARPAULARK_JUDGE_ANSWER])
{
    uint32_t number = tarpaulark_judge(image->at, image->length, room, answer);

    if (number == 0)
        start_walk(walk, image, room);
    return number;
}

/* Counts the chunk of unknown type where the walk is. */
static void count_unknown(struct walk *walk, uint64_t blocks)
{
    const uint8_t *type = walk->image->at + walk->at;

    walk->remarks.blocks += blocks;
    if (walk->remarks.chunks++ != 0)
        return;
    walk->remarks.at = walk->at;
    walk->remarks.type = type[0] | (unsigned)type[1] << 8;
}

bool next_chunk(struct walk *walk, struct chunk *chunk)
{
    uint64_t answer[TARPAULARK_CHUNK_ANSWER];

    if (walk->left == 0)
        return false;
    if (tarpaulark_chunk(walk->image->at, walk->image->length, walk->at, walk->first, answer) != 0)
        failed(walk->image->path, changed, 0);
    chunk->kind = (unsigned)answer[TARPAULARK_CHUNK_KIND] % KINDS;
    chunk->first = walk->first;
    chunk->blocks = (uint32_t)answer[TARPAULARK_CHUNK_BLOCKS];
    chunk->data = answer[TARPAULARK_CHUNK_DATA];
    if (chunk->kind == TARPAULARK_UNKNOWN)
        count_unknown(walk, chunk->blocks);
    walk->at = answer[TARPAULARK_CHUNK_NEXT];
    walk->first = (uint32_t)answer[TARPAULARK_CHUNK_FIRST];
    walk->left--;
    return true;
}

uint32_t word_at(const uint8_t *at)
{
    return at[0] | (uint32_t)at[1] << 8 | (uint32_t)at[2] << 16 | (uint32_t)at[3] << 24;
}

void expect_read(const struct mapped *image)
{
    expect_unchanged(image, changed);
}

struct remarks remarks_on(const struct mapped *image)
{
    struct chunk chunk;
    struct walk walk;

    start_walk(&walk, image, UINT64_MAX);
    while (next_chunk(&walk, &chunk))
        continue;
    expect_read(image);
    return walk.remarks;
}

void say_counts(const uint64_t answer[TARPAULARK_JUDGE_ANSWER])
{
    say_number("written", answer[TARPAULARK_COUNT_WRITTEN]);
    say_number("skipped", answer[TARPAULARK_COUNT_DONT_CARE]);
    say_number("unknown", answer[TARPAULARK_COUNT_UNKNOWN]);
}

static const char *plural(uint64_t number)
{
    return number == 1 ? "" : "s";
}

static bool has_unknown(const struct remarks *remarks)
{
    return remarks->chunks != 0 || remarks->blocks != 0;
}

/* Puts in words what chunks of unknown type there are, and what becomes of their blocks. */
static void word_unknown(const struct remarks *remarks, const char *become, char text[REMARK])
{
    char blocks[64] = "no blocks";

    if (remarks->blocks != 0)
        snprintf(blocks, sizeof blocks, "%" PRIu64 " block%s %s", remarks->blocks, plural(remarks->blocks), become);
    if (remarks->chunks == 0)
        snprintf(text, REMARK, "chunks of unknown type: %s", blocks);
    else
        snprintf(text, REMARK, "%" PRIu64 " chunk%s of unknown type: %s; the first is 0x%04X at offset %" PRIu64,
                 remarks->chunks, plural(remarks->chunks), blocks, remarks->type, remarks->at);
}

void say_remarks(const struct remarks *remarks)
{
    char text[REMARK];

    if (remarks->checksum == 0)
        advise("unchecked", unchecked);
    if (!has_unknown(remarks))
        return;
    word_unknown(remarks, remarks->blocks == 1 ? "kept as it was" : "kept as they were", text);
    advise("foreign", text);
}

void say_remarks_of(const char *side, const struct remarks *remarks)
{
    bool is_unchecked = remarks->checksum == 0, is_foreign = has_unknown(remarks);
    char text[REMARK] = "", line[3 * REMARK];

    if (!is_unchecked && !is_foreign)
        return;
    if (is_foreign)
        word_unknown(remarks, "not written", text);
    snprintf(line, sizeof line, "%s image: %s%s%s", side, is_unchecked ? unchecked : "",
             is_unchecked && is_foreign ? "; " : "", text);
    advise(side, line);
}
