#include "files.h"

#include "answer.h"

#include <errno.h>
#include <fcntl.h>
#include <linux/fs.h>
#include <sys/file.h>
#include <sys/ioctl.h>
#include <sys/mman.h>
#include <unistd.h>

static const char busy[] = "is busy: another program works on it; run the same command again when that has ended";
static uint8_t no_bytes[1];

static bool is_file_or_device(const struct stat *status)
{
    return S_ISREG(status->st_mode) || S_ISBLK(status->st_mode);
}

static void expect_kind(const char *path, const struct stat *status)
{
    if (!is_file_or_device(status))
        misused(path, "is no file and no block device; name one");
}

/* A pipe or another device is refused before it is opened, and does not hold up the opening of what may have
   taken its place. A block device that is mounted or in use elsewhere cannot be opened by O_EXCL. */
static int open_kind(const char *path, enum use use, struct stat *status)
{
    int flags = O_CLOEXEC | O_NOCTTY | O_NONBLOCK | (use == CHANGE_PARTITION ? O_RDWR : O_RDONLY);
    int file;

    if (stat(path, status) != 0)
        failed(path, "cannot be opened; see that it is there and that you may use it", errno);
    expect_kind(path, status);
    if (S_ISBLK(status->st_mode) && use != READ_IMAGE)
        flags |= O_EXCL;
    file = open(path, flags);
    if (file < 0 && errno == EBUSY)
        failed(path, "is busy: it is mounted, or another program works on it; unmount it first", 0);
    if (file < 0 || fstat(file, status) != 0)
        failed(path, "cannot be opened; see that it is there and that you may use it", errno);
    expect_kind(path, status);
    return file;
}

bool is_same(const struct stat *one, const struct stat *other)
{
    if (S_ISBLK(one->st_mode) || S_ISBLK(other->st_mode))
        return S_ISBLK(one->st_mode) && S_ISBLK(other->st_mode) && one->st_rdev == other->st_rdev;
    return one->st_dev == other->st_dev && one->st_ino == other->st_ino;
}

/* A descriptor that is the file itself is closed, so that these words do not land there. */
void expect_apart(const char *path, const struct stat *status)
{
    struct stat out;
    bool apart = true;

    for (int i = STDOUT_FILENO; i <= STDERR_FILENO; i++) {
        if (fstat(i, &out) != 0 || !is_same(&out, status))
            continue;
        close(i);
        apart = false;
    }
    if (!apart)
        misused(path, "is also where the answer would be printed; print it elsewhere");
}

struct mapped open_file(const char *path, enum use use)
{
    struct mapped file = {.path = path, .use = use, .at = no_bytes};

    file.file = open_kind(path, use, &file.before);
    expect_apart(path, &file.before);
    return file;
}

struct mapped open_input(void)
{
    struct mapped file = {.path = "standard input", .file = STDIN_FILENO, .use = READ_IMAGE, .at = no_bytes};

    if (fstat(file.file, &file.before) != 0)
        failed(file.path, "cannot be read; see to where it comes from", errno);
    if (is_file_or_device(&file.before))
        expect_apart(file.path, &file.before);
    return file;
}

off_t place_in(const struct mapped *file)
{
    return is_file_or_device(&file->before) ? lseek(file->file, 0, SEEK_CUR) : -1;
}

void lock_file(const char *path, int file, bool alone)
{
    if (flock(file, (alone ? LOCK_EX : LOCK_SH) | LOCK_NB) == 0)
        return;
    if (errno == EWOULDBLOCK)
        failed(path, busy, 0);
    failed(path, "cannot be locked; see that its file system has locks", errno);
}

static uint64_t length_of(const struct mapped *file)
{
    uint64_t length = 0;
    uint8_t byte;

    if (S_ISREG(file->before.st_mode) && file->before.st_size == 0 && pread(file->file, &byte, 1, 0) > 0)
        misused(file->path, "does not tell its length; copy it to a file on a disk first");
    if (S_ISREG(file->before.st_mode))
        return (uint64_t)file->before.st_size;
    if (ioctl(file->file, BLKGETSIZE64, &length) != 0)
        failed(file->path, "does not tell its size; see that it is a whole block device", errno);
    return length;
}

uint8_t *map_bytes(const char *path, int file, size_t length, bool writing)
{
    void *at;

    if (length == 0)
        return no_bytes;
    at = mmap(NULL, length, writing ? PROT_READ | PROT_WRITE : PROT_READ, MAP_SHARED, file, 0);
    if (at == MAP_FAILED)
        failed(path, "cannot be mapped; see that there is memory for it", errno);
    return at;
}

void hold_file(struct mapped *file)
{
    lock_file(file->path, file->file, file->use != READ_IMAGE);
    if (fstat(file->file, &file->before) != 0)
        failed(file->path, "cannot be read; see to the disk", errno);
    file->length = length_of(file);
    file->at = map_bytes(file->path, file->file, file->length, file->use == CHANGE_PARTITION);
}

struct mapped read_image(const char *path)
{
    struct mapped file = open_file(path, READ_IMAGE);

    hold_file(&file);
    return file;
}

void release_file(struct mapped *file)
{
    if (file->length != 0)
        munmap(file->at, file->length);
    close(file->file);
    *file = (struct mapped){.path = file->path, .file = -1, .at = no_bytes, .use = file->use};
}

static bool is_same_time(struct timespec one, struct timespec other)
{
    return one.tv_sec == other.tv_sec && one.tv_nsec == other.tv_nsec;
}

void expect_unchanged(const struct mapped *file, const char *what)
{
    struct stat now;

    if (fstat(file->file, &now) != 0)
        failed(file->path, "cannot be read; see to the disk", errno);
    if (now.st_size != file->before.st_size || !is_same_time(now.st_mtim, file->before.st_mtim)
        || !is_same_time(now.st_ctim, file->before.st_ctim))
        failed(file->path, what, 0);
}

void expect_in_place(const struct mapped *file)
{
    struct stat now;

    if (stat(file->path, &now) != 0 || !is_same(&now, &file->before) || now.st_size != file->before.st_size)
        failed(file->path, "was replaced or cut while it was stored on; store the image again", 0);
}

/* The clock of the progress line may interrupt this on some file systems. */
bool is_synced(const struct mapped *file)
{
    bool synced;

    do {
        synced = (file->length == 0 || msync(file->at, file->length, MS_SYNC) == 0) && fsync(file->file) == 0;
    } while (!synced && errno == EINTR);
    return synced;
}
