/* Loaded before the C library under the host tool, to bring about what a test cannot wait for. Each fault is
   asked for by a variable of the environment. */
#define _GNU_SOURCE
#include <dlfcn.h>
#include <errno.h>
#include <fcntl.h>
#include <signal.h>
#include <stdarg.h>
#include <stdio.h>
#include <stdlib.h>
#include <sys/file.h>
#include <sys/mman.h>
#include <sys/stat.h>
#include <time.h>
#include <unistd.h>

/* NO_NAMELESS: a file system without nameless files. */
int openat(int folder, const char *path, int flags, ...)
{
    int (*next)(int, const char *, int, ...) = (int (*)(int, const char *, int, ...))dlsym(RTLD_NEXT, "openat");
    va_list more;
    mode_t mode;

    va_start(more, flags);
    mode = (flags & (O_CREAT | O_TMPFILE)) != 0 ? va_arg(more, mode_t) : 0;
    va_end(more);
    if ((flags & O_TMPFILE) == O_TMPFILE && getenv("NO_NAMELESS") != NULL) {
        errno = EOPNOTSUPP;
        return -1;
    }
    return next(folder, path, flags, mode);
}

/* BAD_FOLDER, BAD_FILE: a folder, or a file, that cannot be synced. WAIT=FILE: a first sync that makes the file
   and waits until it is gone. */
int fsync(int file)
{
    int (*next)(int) = (int (*)(int))dlsym(RTLD_NEXT, "fsync");
    static int syncs;
    const char *wait = getenv("WAIT");
    struct stat status;

    if (fstat(file, &status) == 0 && getenv(S_ISDIR(status.st_mode) ? "BAD_FOLDER" : "BAD_FILE") != NULL) {
        errno = EIO;
        return -1;
    }
    if (wait != NULL && syncs++ == 0) {
        close(open(wait, O_WRONLY | O_CREAT, 0600));
        while (access(wait, F_OK) == 0)
            usleep(1000);
    }
    return next(file);
}

/* FULL: a disk without room. */
ssize_t pwrite(int file, const void *bytes, size_t length, off_t at)
{
    ssize_t (*next)(int, const void *, size_t, off_t) =
        (ssize_t (*)(int, const void *, size_t, off_t))dlsym(RTLD_NEXT, "pwrite");

    return next(file, bytes, getenv("FULL") != NULL ? length / 2 : length, at);
}

static int readings;

/* Counts how often something is read from its start. */
off_t lseek(int file, off_t at, int whence)
{
    off_t (*next)(int, off_t, int) = (off_t (*)(int, off_t, int))dlsym(RTLD_NEXT, "lseek");

    readings += whence == SEEK_SET;
    return next(file, at, whence);
}

/* SLOW_END, BAD_END: input whose end takes a while to come, or is an error in its place. SPOILED: input that holds
   other bytes when it is read again, and no times that tell. */
ssize_t read(int file, void *bytes, size_t length)
{
    ssize_t (*next)(int, void *, size_t) = (ssize_t (*)(int, void *, size_t))dlsym(RTLD_NEXT, "read");
    ssize_t came = next(file, bytes, length);
    struct timespec left = {0, 300000000};

    while (came == 0 && getenv("SLOW_END") != NULL && nanosleep(&left, &left) != 0)
        continue;
    if (came == 0 && getenv("BAD_END") != NULL) {
        errno = EIO;
        return -1;
    }
    if (came > 0 && readings > 1 && getenv("SPOILED") != NULL)
        ((char *)bytes)[came - 1] ^= 1;
    return came;
}

/* SIGNAL_NAMED=NUMBER: a signal just after a file without a name has been given one. */
int linkat(int from, const char *file, int folder, const char *name, int flags)
{
    int (*next)(int, const char *, int, const char *, int) =
        (int (*)(int, const char *, int, const char *, int))dlsym(RTLD_NEXT, "linkat");
    const char *number = getenv("SIGNAL_NAMED");
    int given = next(from, file, folder, name, flags);

    if (number != NULL)
        raise(atoi(number));
    return given;
}

/* SWAP=FILE: a file that another takes the place of before it is locked. */
int flock(int file, int operation)
{
    int (*next)(int, int) = (int (*)(int, int))dlsym(RTLD_NEXT, "flock");
    const char *swapped = getenv("SWAP");

    if (swapped != NULL)
        rename("another", swapped);
    return next(file, operation);
}

/* TOUCH=FILE: a file that is changed after it was judged; its time is set, since a clock may stand still so long. */
int msync(void *at, size_t length, int flags)
{
    int (*next)(void *, size_t, int) = (int (*)(void *, size_t, int))dlsym(RTLD_NEXT, "msync");
    const struct timespec times[2] = {{1, 0}, {1, 0}};
    const char *touched = getenv("TOUCH");

    if (touched != NULL)
        utimensat(AT_FDCWD, touched, times, 0);
    return next(at, length, flags);
}

static int resize(const char *path, off_t length)
{
    return path == NULL ? 0 : truncate(path, length);
}

/* CUT=FILE, GROW=FILE: a file that loses its bytes, or gets more, once it is mapped. */
void *mmap(void *at, size_t length, int protection, int flags, int file, off_t from)
{
    void *(*next)(void *, size_t, int, int, int, off_t) =
        (void *(*)(void *, size_t, int, int, int, off_t))dlsym(RTLD_NEXT, "mmap");
    void *mapped = next(at, length, protection, flags, file, from);

    if (file >= 0 && (resize(getenv("CUT"), 0) != 0 || resize(getenv("GROW"), 99) != 0))
        return MAP_FAILED;
    return mapped;
}
