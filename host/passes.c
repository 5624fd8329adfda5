#include "passes.h"

#include "answer.h"
#include "progress.h"

#include <errno.h>
#include <poll.h>
#include <string.h>
#include <unistd.h>

/* The bytes of a piece at most, and where the state of a pass has the checksum that the file header states. */
enum { PIECE = 16384, CHECKSUM_AT = TARPAULARK_PASS_HEADER + 24 };

static const char unread[] = "cannot be read to its end; see to where it comes from, and run the same command again";

bool is_input(const struct request *request)
{
    bool input = strcmp(request->words[0], "-") == 0;

    if (input && !request->has_length)
        misused(NULL, "an image from standard input needs --length and its number of bytes");
    if (!input && request->has_length)
        misused(NULL, "--length is for an image from standard input, named -; leave it out for a file");
    return input;
}

struct source input_source(uint64_t length)
{
    struct source source = {.file = open_input(), .length = length};

    source.start = place_in(&source.file);
    return source;
}

struct source file_source(const struct mapped *file)
{
    struct source source = {.file = *file, .length = file->length, .start = 0, .in_memory = true};

    return source;
}

static void go_to_start(const struct source *source)
{
    if (source->start >= 0 && lseek(source->file.file, source->start, SEEK_SET) != source->start)
        failed(source->file.path, unread, errno);
}

/* The next bytes, as many as come at one time; 0 at the end. */
static size_t read_piece(const struct mapped *file, uint8_t piece[PIECE])
{
    struct pollfd awaited = {.fd = file->file, .events = POLLIN};
    ssize_t length;

    while ((length = read(file->file, piece, PIECE)) < 0 && (errno == EINTR || errno == EAGAIN))
        poll(&awaited, 1, -1);
    if (length < 0)
        failed(file->path, unread, errno);
    return (size_t)length;
}

static uint32_t give_piece(struct pass *pass, const uint8_t *piece, size_t length, const struct mapped *partition)
{
    if (partition == NULL)
        return tarpaulark_pass_judge_piece(pass->state, piece, length, pass->answer);
    return tarpaulark_pass_store_piece(
        pass->state, piece, length, partition->at, partition->length, pass->answer);
}

static uint32_t finish_pass(struct pass *pass, const struct mapped *partition)
{
    if (partition == NULL)
        return tarpaulark_pass_judge_finish(pass->state, pass->answer);
    return tarpaulark_pass_store_finish(pass->state, partition->at, partition->length, pass->answer);
}

/* Feeds a pass to the end of the image or to a refusal; it judges where there is no partition. */
static uint32_t run_pass(const struct source *source, struct pass *pass, const struct mapped *partition)
{
    static uint8_t piece[PIECE];
    uint32_t number = 0;
    size_t length;

    begin_progress(partition == NULL ? "judging" : "storing", source->length);
    go_to_start(source);
    while (number == 0 && (length = read_piece(&source->file, piece)) > 0) {
        number = give_piece(pass, piece, length, partition);
        add_progress(length);
    }
    if (number == 0)
        number = finish_pass(pass, partition);
    end_progress();
    return number;
}

uint32_t judge_pieces(const struct source *source, uint64_t room, struct pass *pass)
{
    tarpaulark_pass_begin(source->length, room, pass->state);
    return run_pass(source, pass, NULL);
}

uint32_t store_pieces(const struct source *source, const struct mapped *partition, struct pass *pass)
{
    tarpaulark_pass_begin(source->length, partition->length, pass->state);
    return run_pass(source, pass, partition);
}

struct remarks remarks_by(const struct source *source, const struct pass *pass)
{
    struct remarks remarks = {
        .checksum = word_at(pass->state + CHECKSUM_AT), .blocks = pass->answer[TARPAULARK_COUNT_UNKNOWN]};

    return source->in_memory ? remarks_on(&source->file) : remarks;
}
