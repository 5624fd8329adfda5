/* Storing a sparse image on a partition, or saying what that would keep. */
#include "chunks.h"
#include "commands.h"
#include "passes.h"
#include "progress.h"

#include <errno.h>

static const char changed[] = "the image changed while it was stored; store it again";

/* Bytes of the partition that are kept, as stretches that do not touch. */
struct kept {
    uint64_t from, before;
};

static void say_kept(const struct kept *kept)
{
    if (kept->from == kept->before)
        return;
    open_item();
    say_word("kept");
    say_number("from", kept->from);
    say_number("before", kept->before);
    close_item();
}

/* Keeps bytes: more of the last stretch, or a new one after the last is said. */
static void keep(struct kept *kept, uint64_t from, uint64_t before)
{
    if (from == before)
        return;
    if (kept->before != from) {
        say_kept(kept);
        kept->from = from;
    }
    kept->before = before;
}

/* The blocks of a chunk that are stored where so many may be. */
static uint64_t stored_of(const struct chunk *chunk, uint64_t limit)
{
    if (chunk->kind != TARPAULARK_RAW && chunk->kind != TARPAULARK_FILL)
        return 0;
    return chunk->blocks < limit ? chunk->blocks : limit;
}

/* All bytes that storing so many blocks would keep, up to the partition's end. */
static void list_kept(struct walk *walk, uint64_t limit, uint64_t length)
{
    uint64_t block = walk->header[TARPAULARK_HEADER_BLOCK];
    struct kept kept = {0, 0};
    struct chunk chunk;

    open_list("kept");
    while (next_chunk(walk, &chunk)) {
        uint64_t stored = stored_of(&chunk, limit);

        limit -= stored;
        keep(&kept, (chunk.first + stored) * block, (chunk.first + (uint64_t)chunk.blocks) * block);
    }
    keep(&kept, walk->first * block, length);
    say_kept(&kept);
    close_list();
}

static void say_stored(const struct request *request, const uint64_t *answer)
{
    say_word("ok");
    if (request->has_limit)
        say_number("stored", answer[TARPAULARK_STORED]);
    else
        say_counts(answer);
    end_line();
}

static enum status try_dry(
    const struct request *request, const struct mapped *image, const struct mapped *partition)
{
    uint64_t answer[TARPAULARK_JUDGE_ANSWER], limit;
    struct walk walk;
    uint32_t number = begin_walk(&walk, image, partition->length, answer);

    expect_read(image);
    if (number != 0)
        return refuse(number, answer[TARPAULARK_PLACE]);
    limit = answer[TARPAULARK_COUNT_WRITTEN];
    if (request->has_limit && request->limit < limit)
        limit = answer[TARPAULARK_STORED] = request->limit;
    say_stored(request, answer);
    list_kept(&walk, limit, partition->length);
    expect_read(image);
    say_line("dry run: nothing is stored");
    say_only_json("note", "dry run: nothing is stored");
    say_remarks(&walk.remarks);
    return DONE;
}

static void put_on_disk(const struct mapped *partition)
{
    if (!is_synced(partition))
        failed(partition->path, "may not be on the disk; see to the disk, and run the same command again", errno);
}

static enum status store_now(
    const struct request *request, const struct mapped *image, const struct mapped *partition)
{
    uint64_t answer[TARPAULARK_STORE_ANSWER];
    struct remarks remarks;
    uint32_t number;

    if (request->has_limit)
        number = tarpaulark_store_limited(
            image->at, image->length, partition->at, partition->length, request->limit, answer);
    else
        number = tarpaulark_store(
            image->at, image->length, partition->at, partition->length, answer);
    if (number == 0)
        put_on_disk(partition);
    expect_unchanged(image, changed);
    if (number != 0)
        return refuse(number, answer[TARPAULARK_PLACE]);
    expect_in_place(partition);
    remarks = remarks_on(image);
    say_stored(request, answer);
    say_remarks(&remarks);
    return DONE;
}

/* Until the file header has passed its tests, nothing has come due. */
static enum status refuse_late(const struct pass *pass, uint32_t number)
{
    enum status status = refuse(number, pass->answer[TARPAULARK_PLACE]);

    if (number > TARPAULARK_BAD_ROOM)
        advise("partition", "what had come due before is stored; send the right image from its start: stored in full,"
                            " it makes good all that it stores, but not what it keeps");
    return status;
}

/* Judges an image that can be read again before any of it is stored; 0 or the refusal. */
static uint32_t judge_first(const struct source *source, const struct mapped *partition, struct pass *pass)
{
    uint32_t number;

    if (source->start < 0)
        return 0;
    number = judge_pieces(source, partition->length, pass);
    expect_unchanged(&source->file, changed);
    return number;
}

/* An image that was judged is refused only where it was changed. Another is stored as it comes, and what a
   refusal leaves is put on the disk too. */
static enum status store_by_passes(
    const struct request *request, const struct source *source, const struct mapped *partition)
{
    struct remarks remarks;
    struct pass pass;
    uint32_t number = judge_first(source, partition, &pass);

    if (number != 0)
        return refuse(number, pass.answer[TARPAULARK_PLACE]);
    number = store_pieces(source, partition, &pass);
    begin_progress("putting it on the disk", 0);
    put_on_disk(partition);
    end_progress();
    if (source->start >= 0)
        expect_unchanged(&source->file, changed);
    if (source->start >= 0 && number != 0)
        failed(source->file.path, changed, 0);
    if (number != 0)
        return refuse_late(&pass, number);
    expect_in_place(partition);
    remarks = remarks_by(source, &pass);
    say_stored(request, pass.answer);
    say_remarks(&remarks);
    return DONE;
}

static void expect_two_files(const struct mapped *image, const struct mapped *partition)
{
    if (is_same(&image->before, &partition->before))
        misused(NULL, "IMAGE and PARTITION are one file: name two");
}

static enum status store_input(const struct request *request)
{
    struct source source;
    struct mapped partition;

    if (request->has_limit)
        misused(NULL, "--limit is for an image in a file: a pass over standard input has no limit");
    if (request->dry_run)
        misused(NULL, "--dry-run is for an image in a file: judge what comes by standard input instead");
    source = input_source(request->length);
    partition = open_file(request->words[1], CHANGE_PARTITION);
    expect_two_files(&source.file, &partition);
    hold_file(&partition);
    return store_by_passes(request, &source, &partition);
}

static enum status store_file(const struct request *request)
{
    struct mapped image = open_file(request->words[0], READ_IMAGE);
    struct mapped partition =
        open_file(request->words[1], request->dry_run ? LOOK_AT_PARTITION : CHANGE_PARTITION);
    struct source source;

    expect_two_files(&image, &partition);
    hold_file(&image);
    hold_file(&partition);
    if (request->dry_run)
        return try_dry(request, &image, &partition);
    if (request->has_limit || !is_watched())
        return store_now(request, &image, &partition);
    source = file_source(&image);
    return store_by_passes(request, &source, &partition);
}

enum status store(const struct request *request)
{
    return is_input(request) ? store_input(request) : store_file(request);
}
