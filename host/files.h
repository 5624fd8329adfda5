/* Files that stand already: opened, held against others, mapped for the library. */
#ifndef FILES_H
#define FILES_H

#include <stdbool.h>
#include <stddef.h>
#include <stdint.h>
#include <sys/stat.h>

/* What a file is opened for: an image is read, and others may read it too; a partition is looked at or
   changed, by one program at a time. */
enum use { READ_IMAGE, LOOK_AT_PARTITION, CHANGE_PARTITION };

/* A file in memory; `at` is never null, also where `length` is 0. */
struct mapped {
    const char *path;
    int file;
    uint8_t *at;
    size_t length;
    enum use use;
    struct stat before;
};

/* Opens a regular file or a block device, apart from what is printed; anything else is bad usage. */
struct mapped open_file(const char *path, enum use use);

/* Standard input, of which nothing is locked or mapped; where it is a file, it is apart from what is printed. */
struct mapped open_input(void);

/* Where an open file stands that can be read again; less than 0 for a pipe and the like. */
off_t place_in(const struct mapped *file);

/* Whether both are one file, by whatever names. */
bool is_same(const struct stat *one, const struct stat *other);

/* A file that the answer would be printed to is bad usage. */
void expect_apart(const char *path, const struct stat *status);

/* Locks an open file until it is released or the program ends, and maps it. */
void hold_file(struct mapped *file);

/* An image to read, opened and held. */
struct mapped read_image(const char *path);

/* Closes an open file, which then is neither locked nor mapped. */
void release_file(struct mapped *file);

/* Fails where a file was changed since it was held. */
void expect_unchanged(const struct mapped *file, const char *what);

/* Fails where the path of a file that was changed leads to another by now, or the file has another length. */
void expect_in_place(const struct mapped *file);

/* Maps so many bytes of an open file; never null. */
uint8_t *map_bytes(const char *path, int file, size_t length, bool writing);

/* Locks an open file; fails where another program holds it. */
void lock_file(const char *path, int file, bool alone);

/* Puts what was changed in memory on the disk; where that fails, errno says why. */
bool is_synced(const struct mapped *file);

#endif
