/* The chunks of a sparse image, one a line. */
#include "chunks.h"
#include "commands.h"

static void say_chunk(const struct mapped *image, const struct chunk *chunk, uint64_t block)
{
    static const char *const kinds[KINDS] = {
        [TARPAULARK_RAW] = "raw", [TARPAULARK_FILL] = "fill",
        [TARPAULARK_DONT_CARE] = "skip", [TARPAULARK_UNKNOWN] = "unknown"};

    open_item();
    say_column("first", 11, chunk->first);
    say_name_column("kind", 7, kinds[chunk->kind]);
    say_column("blocks", 10, chunk->blocks);
    say_column("from", 15, chunk->first * block);
    say_column("before", 15, (chunk->first + (uint64_t)chunk->blocks) * block);
    if (chunk->kind == TARPAULARK_FILL)
        say_hex("word", word_at(image->at + chunk->data));
    close_item();
}

static void say_header(const uint64_t *header)
{
    say_number("block", header[TARPAULARK_HEADER_BLOCK]);
    say_number("total", header[TARPAULARK_HEADER_TOTAL]);
    say_number("chunks", header[TARPAULARK_HEADER_CHUNKS]);
    say_hex_or_none("checksum", (uint32_t)header[TARPAULARK_HEADER_CHECKSUM]);
    end_line();
}

static void say_totals(const uint64_t totals[KINDS], const uint64_t *answer)
{
    say_word("blocks");
    say_number("raw", totals[TARPAULARK_RAW]);
    say_number("fill", totals[TARPAULARK_FILL]);
    say_number("skip", totals[TARPAULARK_DONT_CARE]);
    say_once_more("unknown", totals[TARPAULARK_UNKNOWN]);
    end_line();
    say_word("ok");
    say_counts(answer);
    end_line();
}

enum status list(const struct request *request)
{
    uint64_t answer[TARPAULARK_JUDGE_ANSWER], totals[KINDS] = {0};
    struct mapped image = read_image(request->words[0]);
    struct chunk chunk;
    struct walk walk;
    uint32_t number = begin_walk(&walk, &image, UINT64_MAX, answer);

    expect_read(&image);
    if (number != 0)
        return refuse(number, answer[TARPAULARK_PLACE]);
    say_header(walk.header);
    say_line("first block kind        blocks       from byte     before byte fill word");
    open_list("list");
    while (next_chunk(&walk, &chunk)) {
        say_chunk(&image, &chunk, walk.header[TARPAULARK_HEADER_BLOCK]);
        totals[chunk.kind] += chunk.blocks;
    }
    close_list();
    expect_read(&image);
    say_totals(totals, answer);
    say_remarks(&walk.remarks);
    return DONE;
}
