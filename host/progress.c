#include "progress.h"

#include <errno.h>
#include <signal.h>
#include <stdatomic.h>
#include <stddef.h>
#include <string.h>
#include <sys/ioctl.h>
#include <sys/time.h>
#include <time.h>
#include <unistd.h>

enum { MOST_COLUMNS = 120, TICK = 250000 };

static struct {
    const char *what; /* null where nothing is shown */
    uint64_t total;
    _Atomic uint64_t done;
    struct timespec since;
    size_t drawn;   /* columns of the line that stands there */
    bool was_drawn; /* some line was, so the next need not wait */
} progress;

/* The line on the way. It is made by a signal handler, so without the functions of stdio. */
struct row {
    char text[MOST_COLUMNS];
    size_t length;
};

static void put_text(struct row *row, const char *text)
{
    while (*text != '\0' && row->length < sizeof row->text)
        row->text[row->length++] = *text++;
}

static void put_number(struct row *row, uint64_t number)
{
    char digits[21], *first = digits + sizeof digits - 1;

    *first = '\0';
    do {
        *--first = (char)('0' + number % 10);
        number /= 10;
    } while (number != 0);
    put_text(row, first);
}

/* Bytes in the unit that gives less than 1,000, with one place after the point. */
static void put_amount(struct row *row, double bytes)
{
    static const char *const units[] = {" B", " KiB", " MiB", " GiB", " TiB", " PiB", " EiB", " ZiB", " YiB"};
    size_t unit = 0;

    while (bytes >= 1000 && unit < sizeof units / sizeof units[0] - 1) {
        bytes /= 1024;
        unit++;
    }
    put_number(row, (uint64_t)bytes);
    if (unit > 0) {
        put_text(row, ".");
        put_number(row, (uint64_t)(bytes * 10) % 10);
    }
    put_text(row, units[unit]);
}

static void put_parts(struct row *row, uint64_t large, const char *unit, uint64_t small, const char *small_unit)
{
    put_number(row, large);
    put_text(row, unit);
    put_number(row, small);
    put_text(row, small_unit);
}

static void put_time(struct row *row, double seconds)
{
    uint64_t whole = seconds < 360000 ? (uint64_t)seconds : 360000;

    if (whole == 360000) {
        put_text(row, "more than 100 h");
    } else if (whole >= 3600) {
        put_parts(row, whole / 3600, " h ", whole / 60 % 60, " min");
    } else if (whole >= 60) {
        put_parts(row, whole / 60, " min ", whole % 60, " s");
    } else {
        put_number(row, whole);
        put_text(row, " s");
    }
}

static double seconds_since(const struct timespec *since)
{
    struct timespec now;

    clock_gettime(CLOCK_MONOTONIC, &now);
    return (double)(now.tv_sec - since->tv_sec) + (double)(now.tv_nsec - since->tv_nsec) / 1e9;
}

/* Bytes done, rate and time left in seconds begun; the rate is that since the beginning. */
static void put_bytes_done(struct row *row, double seconds)
{
    double done = (double)progress.done, left = (double)progress.total - done;

    put_text(row, " ");
    put_amount(row, done);
    put_text(row, " of ");
    put_amount(row, (double)progress.total);
    put_text(row, ", ");
    put_amount(row, seconds > 0 ? done / seconds : 0);
    put_text(row, "/s, ");
    if (done > 0)
        put_time(row, left > 0 ? left / done * seconds + 1 : 0);
    else
        put_text(row, "unknown time");
    put_text(row, " left");
}

/* A program in the background does not draw over what stands in the foreground. */
static bool is_in_front(void)
{
    pid_t front = tcgetpgrp(STDERR_FILENO);

    return front <= 0 || front == getpgrp();
}

/* The last column is left free: what is put there may begin a new line. */
static size_t columns(void)
{
    struct winsize size;

    if (ioctl(STDERR_FILENO, TIOCGWINSZ, &size) != 0 || size.ws_col == 0)
        return 79;
    return size.ws_col <= MOST_COLUMNS ? size.ws_col - 1u : MOST_COLUMNS;
}

static size_t least(size_t one, size_t other)
{
    return one < other ? one : other;
}

/* Puts a row in the place of the last one; one that is empty wipes it. */
static void put_row(const struct row *row)
{
    char out[1 + MOST_COLUMNS + 1];
    size_t most = columns(), length = least(row->length, most), before = least(progress.drawn, most);
    size_t end = length > before ? length : before;

    memset(out, ' ', sizeof out);
    memcpy(out + 1, row->text, length);
    out[0] = out[1 + end] = '\r';
    if (write(STDERR_FILENO, out, 1 + end + (length == 0)) < 0)
        progress.what = NULL;
    progress.drawn = length;
}

static void draw(void)
{
    struct row row = {.length = 0};
    double seconds = seconds_since(&progress.since);

    if (progress.what == NULL || !is_in_front())
        return;
    put_text(&row, progress.what);
    if (progress.total > 0)
        put_bytes_done(&row, seconds);
    else {
        put_text(&row, ", ");
        put_time(&row, seconds);
    }
    put_row(&row);
    progress.was_drawn = true;
}

static void on_tick(int number)
{
    int error = errno;

    (void)number;
    draw();
    errno = error;
}

static void set_clock(suseconds_t tick)
{
    struct itimerval every = {{0, tick}, {0, tick}};

    setitimer(ITIMER_REAL, &every, NULL);
}

bool is_watched(void)
{
    return isatty(STDERR_FILENO) == 1;
}

void begin_progress(const char *what, uint64_t total)
{
    struct sigaction action = {.sa_handler = on_tick, .sa_flags = SA_RESTART};

    if (!is_watched())
        return;
    progress.what = what;
    progress.total = total;
    progress.done = 0;
    clock_gettime(CLOCK_MONOTONIC, &progress.since);
    if (progress.was_drawn)
        draw();
    sigemptyset(&action.sa_mask);
    sigaction(SIGALRM, &action, NULL);
    set_clock(TICK);
}

void add_progress(uint64_t bytes)
{
    progress.done += bytes;
}

void end_progress(void)
{
    const struct row nothing = {.length = 0};

    if (progress.what == NULL)
        return;
    set_clock(0);
    progress.what = NULL;
    if (progress.drawn > 0 && is_in_front())
        put_row(&nothing);
}
