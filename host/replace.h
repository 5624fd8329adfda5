/* Files that are made, or made anew: whole, in the place of the old one, or not at all. */
#ifndef REPLACE_H
#define REPLACE_H

#include "answer.h"
#include "files.h"

#include <limits.h>

/* Where a file is to stand: its folder and its name there, links followed, and the file that stands there
   already, which is locked until the program ends. */
struct place {
    const char *path;
    int folder;
    char name[NAME_MAX + 1];
    int held; /* -1 where there is no file yet */
    struct stat old;
};

/* A place that holds a regular file of one name, or nothing; anything else is bad usage. */
struct place hold_place(const char *path);

/* Bad usage, in these words, where the file in the place is this one. */
void expect_other(const struct place *place, const struct mapped *file, const char *what);

/* A new file of so many bytes in memory, without a name where the file system can do that, else with one that
   is removed when the program ends. It takes its place only by put_in_place. */
struct mapped make_new(const struct place *place, uint64_t length);

/* Cuts the new file to its length, puts it on the disk and then in its place, with the owner and mode of the
   old one. 0, or the errno that says why the folder is perhaps not on the disk: the file then stands in its
   place, and only a power cut can take it away again. */
int put_in_place(const struct place *place, const struct mapped *file, size_t length);

/* All of this for bytes that are at hand. */
int put_bytes(const struct place *place, const void *bytes, size_t length);

/* Says, after the answer, where that is not 0; the status to leave with. */
enum status stands(const struct place *place, int error);

#endif
