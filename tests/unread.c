/*
 * unread: shows that the judge and the judging pass read no raw data where no checksum is stated. The data of the
 * image lie in memory that cannot be read; that it cannot, a child shows, which ends by a signal where the image
 * states a checksum. Prints one line; ends with 1, or by the signal, where something else happens.
 */
#include "tarpaulark.h"

#include <signal.h>
#include <stdbool.h>
#include <stdio.h>
#include <stdlib.h>
#include <string.h>
#include <sys/mman.h>
#include <sys/resource.h>
#include <sys/wait.h>
#include <unistd.h>

#define HEADERS 40
#define BLOCK 65536
#define LENGTH (HEADERS + BLOCK)

/* A file header and a chunk header: one raw block of 65,536 bytes; the checksum at 24 is 0. */
static const uint8_t headers[HEADERS] = {
    0x3A, 0xFF, 0x26, 0xED, 1, 0, 0, 0, 28, 0, 12, 0, 0, 0, 1, 0, 1, 0, 0, 0, 1, 0, 0, 0, 0, 0, 0, 0,
    0xC1, 0xCA, 0,    0,    1, 0, 0, 0, 12, 0, 1,  0,
};

/* The headers at the end of a page, and after them pages that cannot be read. */
static uint8_t *make_image(void)
{
    size_t page = (size_t)sysconf(_SC_PAGESIZE);
    uint8_t *at = mmap(NULL, page + BLOCK, PROT_READ | PROT_WRITE, MAP_PRIVATE | MAP_ANONYMOUS, -1, 0);

    if (at == MAP_FAILED || mprotect(at + page, BLOCK, PROT_NONE) != 0) {
        perror("unread");
        exit(1);
    }
    return memcpy(at + page - HEADERS, headers, HEADERS);
}

static uint32_t judge(const uint8_t *image)
{
    uint64_t answer[TARPAULARK_JUDGE_ANSWER];

    return tarpaulark_judge(image, LENGTH, BLOCK, answer);
}

static uint32_t judge_by_pass(const uint8_t *image)
{
    uint8_t pass[TARPAULARK_PASS];
    uint64_t answer[TARPAULARK_FINISH_ANSWER];

    tarpaulark_pass_begin(LENGTH, BLOCK, pass);
    tarpaulark_pass_judge_piece(pass, image, LENGTH, answer);
    return tarpaulark_pass_judge_finish(pass, answer);
}

/* Whether a call on the image with a checksum of 1 reads its data, which ends the process. */
static bool reads_data(uint32_t (*call)(const uint8_t *), uint8_t *image)
{
    int status;
    pid_t child = fork();

    if (child == 0) {
        setrlimit(RLIMIT_CORE, &(struct rlimit){0, 0});
        image[24] = 1;
        _exit((int)call(image));
    }
    return child > 0 && waitpid(child, &status, 0) == child && WIFSIGNALED(status) && WTERMSIG(status) == SIGSEGV;
}

int main(void)
{
    uint8_t *image = make_image();

    if (!reads_data(judge, image) || !reads_data(judge_by_pass, image)) {
        puts("unread: a checksum is stated, and no data are read");
        return 1;
    }
    if (judge(image) != 0 || judge_by_pass(image) != 0) {
        puts("unread: no checksum is stated, and the image is refused");
        return 1;
    }
    puts("unread: raw data are read where a checksum is stated, and not where none is");
    return 0;
}
