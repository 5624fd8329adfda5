/* Judging a sparse image. */
#include "chunks.h"
#include "commands.h"
#include "passes.h"

static enum status say_accepted(const uint64_t *answer, struct remarks remarks)
{
    say_word("ok");
    say_counts(answer);
    end_line();
    say_remarks(&remarks);
    return DONE;
}

static enum status judge_file(const char *path, uint64_t room)
{
    uint64_t answer[TARPAULARK_JUDGE_ANSWER];
    struct mapped image = read_image(path);
    uint32_t number = tarpaulark_judge(image.at, image.length, room, answer);

    expect_read(&image);
    if (number != 0)
        return refuse(number, answer[TARPAULARK_PLACE]);
    return say_accepted(answer, remarks_on(&image));
}

static enum status judge_input(uint64_t length, uint64_t room)
{
    struct source source = input_source(length);
    struct pass pass;
    uint32_t number = judge_pieces(&source, room, &pass);

    if (source.start >= 0)
        expect_read(&source.file);
    if (number != 0)
        return refuse(number, pass.answer[TARPAULARK_PLACE]);
    return say_accepted(pass.answer, remarks_by(&source, &pass));
}

enum status judge(const struct request *request)
{
    uint64_t room;

    if (!as_number(request->words[1], UINT64_MAX, &room))
        misused(NULL, "PARTITION-LENGTH is a number of bytes");
    return is_input(request) ? judge_input(request->length, room) : judge_file(request->words[0], room);
}
