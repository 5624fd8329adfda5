#include "passes.h"

#include <stdio.h>

#define PIECES 4

static const size_t pieces[PIECES] = {64, 512, 4096, 65536};

static size_t piece_at(const struct work *work, size_t at)
{
    return work->image_len - at < work->piece ? work->image_len - at : work->piece;
}

/* A refusal of a piece is given again when the pass is finished. */
static double judging_pass(struct work *work)
{
    uint8_t pass[TARPAULARK_PASS];
    uint64_t answer[TARPAULARK_FINISH_ANSWER];
    double start = now();

    tarpaulark_pass_begin(work->image_len, work->flat_len, pass);
    for (size_t at = 0; at < work->image_len; at += work->piece)
        tarpaulark_pass_judge_piece(pass, work->image + at, piece_at(work, at), answer);
    expect(tarpaulark_pass_judge_finish(pass, answer) == 0, "the judging pass refused");
    return now() - start;
}

static double storing_pass(struct work *work)
{
    uint8_t pass[TARPAULARK_PASS];
    uint64_t answer[TARPAULARK_FINISH_ANSWER];
    double start = now();

    tarpaulark_pass_begin(work->image_len, work->flat_len, pass);
    for (size_t at = 0; at < work->image_len; at += work->piece)
        tarpaulark_pass_store_piece(pass, work->image + at, piece_at(work, at), work->partition, work->flat_len,
                                    answer);
    expect(tarpaulark_pass_store_finish(pass, work->partition, work->flat_len, answer) == 0,
           "the storing pass refused");
    return now() - start;
}

struct times {
    double judge, store, judging[PIECES], storing[PIECES];
};

static struct times time_passes(const struct data *data, struct work *work, size_t mib)
{
    struct times times;

    make_image(data, work, mib);
    times.judge = best(judge, work);
    times.store = best(store, work);
    for (size_t i = 0; i < PIECES; i++) {
        work->piece = pieces[i];
        times.judging[i] = best(judging_pass, work);
        clear_partition(work);
        times.storing[i] = best(storing_pass, work);
        expect_stored(work);
    }
    return times;
}

static void put_row(const struct data *data, const char *job, const struct work *work, size_t piece,
                    double seconds, double quarter, double whole)
{
    put_names(data, job, work);
    printf(" %6zu %9.4f", piece, seconds);
    put_ratio((double)work->flat_len / 1e9, seconds);
    put_ratio(whole, seconds);
    put_ratio(seconds, quarter);
    putchar('\n');
    fflush(stdout);
}

static void put_rows(const struct data *data, struct work *work, size_t mib)
{
    struct times quarter = time_passes(data, work, mib / 4), whole = time_passes(data, work, mib);

    for (size_t i = 0; i < PIECES; i++)
        put_row(data, "judge", work, pieces[i], whole.judging[i], quarter.judging[i], whole.judge);
    for (size_t i = 0; i < PIECES; i++)
        put_row(data, "store", work, pieces[i], whole.storing[i], quarter.storing[i], whole.store);
    for (size_t i = 0; i < PIECES; i++)
        put_row(data, "both", work, pieces[i], whole.judging[i] + whole.storing[i],
                quarter.judging[i] + quarter.storing[i], whole.store);
}

void put_passes(struct work *work, size_t mib)
{
    printf("%-17s  %-5s  %-8s %6s %9s %9s %9s %9s\n", "data", "pass", "checksum", "piece", "seconds", "GB/s",
           "of whole", "growth");
    for (size_t i = 0; i < KINDS; i++) {
        work->unstated = 0;
        put_rows(&kinds[i], work, mib);
        work->unstated = 1;
        if (i == RANDOM || i == SMALL_CHUNKS)
            put_rows(&kinds[i], work, mib);
    }
}
