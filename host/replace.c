#include "replace.h"

#include <errno.h>
#include <fcntl.h>
#include <signal.h>
#include <stdio.h>
#include <stdlib.h>
#include <string.h>
#include <sys/file.h>
#include <unistd.h>

enum { MOST_TURNS = 100 };

static const char cannot_make[] = "cannot be made there; name a folder that is there and that you may write to";
static const char cannot_open[] = "cannot be opened; see that you may use it";
static const char no_room[] =
    "nothing is changed: the new file cannot be put on the disk; see to the disk and its room";

/* The new file's name for as long as it has one of its own, and the folder it stands in. */
static char new_name[NAME_MAX + 1];
static volatile sig_atomic_t is_named;
static int new_folder = -1;

static void drop_new(void)
{
    if (is_named)
        unlinkat(new_folder, new_name, 0);
    is_named = 0;
}

static void on_signal(int number)
{
    drop_new();
    raise(number);
}

/* The new file goes when the program ends before it is in its place, by a signal too; a signal that is
   ignored stays ignored. */
static void drop_at_end(void)
{
    static const int numbers[] = {SIGHUP, SIGINT, SIGQUIT, SIGTERM, SIGALRM, SIGUSR1, SIGUSR2, SIGXCPU};
    struct sigaction action = {.sa_handler = on_signal, .sa_flags = (int)SA_RESETHAND | SA_NODEFER}, old;

    atexit(drop_new);
    sigemptyset(&action.sa_mask);
    for (size_t i = 0; i < sizeof numbers / sizeof numbers[0]; i++)
        if (sigaction(numbers[i], NULL, &old) == 0 && old.sa_handler != SIG_IGN)
            sigaction(numbers[i], &action, NULL);
}

/* The path with links followed; where nothing stands there yet, that of its folder, and then its name. */
static void resolve(const char *path, char real[PATH_MAX])
{
    const char *slash = strrchr(path, '/'), *name = slash == NULL ? path : slash + 1;
    char folder[PATH_MAX] = ".";
    struct stat status;

    if (realpath(path, real) != NULL)
        return;
    if (errno != ENOENT)
        failed(path, cannot_make, errno);
    if (lstat(path, &status) == 0)
        misused(path, "is a link to nothing; name the file itself");
    if (strlen(path) >= sizeof folder)
        failed(path, cannot_make, ENAMETOOLONG);
    if (slash != NULL)
        snprintf(folder, sizeof folder, "%.*s", (int)(name - path), path);
    if (*name == '\0' || realpath(folder, real) == NULL)
        failed(path, cannot_make, errno);
    if (strlen(real) + 1 + strlen(name) >= PATH_MAX)
        failed(path, cannot_make, ENAMETOOLONG);
    strcat(strcat(real, "/"), name);
}

/* Opens and locks the file that stands in the place; false where another took its place meanwhile. */
static bool hold_old(struct place *place)
{
    struct stat now;

    place->held = -1;
    if (fstatat(place->folder, place->name, &now, AT_SYMLINK_NOFOLLOW) != 0) {
        if (errno == ENOENT)
            return true;
        failed(place->path, cannot_open, errno);
    }
    if (!S_ISREG(now.st_mode))
        misused(place->path, "is there already and is no file; name a file, or a name that is free");
    if (now.st_nlink > 1)
        misused(place->path, "has more than one name (hard links), and the other names would keep the old file;"
                             " remove them, or name a file that has one");
    place->held = openat(place->folder, place->name, O_RDONLY | O_NOFOLLOW | O_NONBLOCK | O_CLOEXEC);
    if (place->held < 0 || fstat(place->held, &place->old) != 0)
        failed(place->path, cannot_open, errno);
    expect_apart(place->path, &place->old);
    lock_file(place->path, place->held, true);
    return fstatat(place->folder, place->name, &now, AT_SYMLINK_NOFOLLOW) == 0 && is_same(&now, &place->old);
}

struct place hold_place(const char *path)
{
    struct place place = {.path = path, .held = -1};
    char real[PATH_MAX], *last;

    resolve(path, real);
    last = strrchr(real, '/');
    if (last[1] == '\0')
        misused(path, "is no file; name one");
    if (strlen(last + 1) > NAME_MAX)
        failed(path, cannot_make, ENAMETOOLONG);
    strcpy(place.name, last + 1);
    last[last == real ? 1 : 0] = '\0';
    place.folder = open(real, O_RDONLY | O_DIRECTORY | O_CLOEXEC);
    if (place.folder < 0)
        failed(path, "nothing is changed: its folder cannot be opened; see that you may read it", errno);
    for (int turn = 0; !hold_old(&place); turn++) {
        if (turn == MOST_TURNS)
            failed(path, "is busy: others replace it again and again; run the same command again", 0);
        close(place.held);
    }
    return place;
}

void expect_other(const struct place *place, const struct mapped *file, const char *what)
{
    if (place->held >= 0 && is_same(&file->before, &place->old))
        misused(NULL, what);
}

/* Gives a file a name in a folder, or makes one by that name; less than 0 where that cannot be. */
typedef int giver(int folder, const char *name, int file);

/* A name in the folder that was free, given by `give`. */
static int give_name(const struct place *place, giver *give, int file)
{
    int given = -1;

    new_folder = place->folder;
    for (int turn = 0; given < 0 && turn < MOST_TURNS; turn++) {
        snprintf(new_name, sizeof new_name, ".tarpaulark.%ld.%d", (long)getpid(), turn);
        given = give(place->folder, new_name, file);
        is_named = given >= 0;
        if (given < 0 && errno != EEXIST)
            break;
    }
    return given;
}

/* As `give_name`; no signal comes between the name and the note of it. */
static int give_safely(const struct place *place, giver *give, int file)
{
    sigset_t all, old;
    int given, error;

    sigfillset(&all);
    sigprocmask(SIG_BLOCK, &all, &old);
    given = give_name(place, give, file);
    error = errno;
    sigprocmask(SIG_SETMASK, &old, NULL);
    errno = error;
    return given;
}

static int make_named(int folder, const char *name, int file)
{
    (void)file;
    return openat(folder, name, O_RDWR | O_CREAT | O_EXCL | O_NOFOLLOW | O_CLOEXEC, 0600);
}

static int link_named(int folder, const char *name, int file)
{
    char open_file[64];

    snprintf(open_file, sizeof open_file, "/proc/self/fd/%d", file);
    return linkat(AT_FDCWD, open_file, folder, name, AT_SYMLINK_FOLLOW);
}

/* A file without a name needs /proc to be given one later. */
static int open_new(const struct place *place)
{
    int file = -1;

    if (access("/proc/self/fd", X_OK) == 0)
        file = openat(place->folder, ".", O_TMPFILE | O_RDWR | O_CLOEXEC, 0600);
    return file >= 0 ? file : give_safely(place, make_named, -1);
}

/* The mode that a new file gets anyhow, or the old one's; then its owner is kept too. */
static void keep_owner(const struct place *place, int file)
{
    mode_t mask = umask(0), mode = 0666 & ~mask;
    struct stat made;

    umask(mask);
    if (fstat(file, &made) != 0)
        failed(place->path, no_room, errno);
    if (place->held >= 0) {
        mode = place->old.st_mode & 07777;
        if ((made.st_uid != place->old.st_uid || made.st_gid != place->old.st_gid)
            && fchown(file, place->old.st_uid, place->old.st_gid) != 0)
            failed(place->path, "nothing is changed: the new file cannot have the owner of the old one; run this as"
                                " that owner", errno);
    }
    if (fchmod(file, mode) != 0)
        failed(place->path, no_room, errno);
}

struct mapped make_new(const struct place *place, uint64_t length)
{
    struct mapped file = {.path = place->path, .length = length};

    drop_at_end();
    file.file = open_new(place);
    if (file.file < 0)
        failed(place->path, cannot_make, errno);
    keep_owner(place, file.file);
    if (ftruncate(file.file, (off_t)length) != 0)
        failed(place->path, no_room, errno);
    file.at = map_bytes(place->path, file.file, file.length, true);
    return file;
}

/* Gives the new file its place: a name that is free at once, else by a rename, which alone replaces. A file
   system that cannot rename to a free name alone is not asked to. */
static int take_place(const struct place *place, int file)
{
    if (place->held < 0 && !is_named)
        return link_named(place->folder, place->name, file);
    if (!is_named && give_safely(place, link_named, file) < 0)
        return -1;
    if (place->held >= 0)
        return renameat(place->folder, new_name, place->folder, place->name);
    if (renameat2(place->folder, new_name, place->folder, place->name, RENAME_NOREPLACE) == 0)
        return 0;
    if (errno != EINVAL && errno != ENOSYS)
        return -1;
    return renameat(place->folder, new_name, place->folder, place->name);
}

int put_in_place(const struct place *place, const struct mapped *file, size_t length)
{
    if (!is_synced(file) || ftruncate(file->file, (off_t)length) != 0 || fsync(file->file) != 0)
        failed(place->path, no_room, errno);
    if (take_place(place, file->file) != 0)
        failed(place->path, errno == EEXIST ? "is busy: another program has just made it; look at that first"
                                            : "nothing is changed: it cannot be put there; see that you may write"
                                              " there", errno);
    is_named = 0;
    return fsync(place->folder) == 0 ? 0 : errno;
}

int put_bytes(const struct place *place, const void *bytes, size_t length)
{
    struct mapped file = make_new(place, length);

    errno = ENOSPC;
    if (pwrite(file.file, bytes, length, 0) != (ssize_t)length)
        failed(place->path, no_room, errno);
    return put_in_place(place, &file, length);
}

enum status stands(const struct place *place, int error)
{
    if (error == 0)
        return DONE;
    return troubled(place->path, "is in its place, but that may not be on the disk; see to the disk, and run the"
                                 " same command again", error);
}
