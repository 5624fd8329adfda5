/* Images that are read in pieces, through the passes of the library. */
#ifndef PASSES_H
#define PASSES_H

#include "chunks.h"
#include "commands.h"
#include "files.h"
#include "tarpaulark.h"

#include <stdbool.h>
#include <stdint.h>

/* An image that is read in pieces: standard input, or a file that is held. */
struct source {
    struct mapped file;
    uint64_t length; /* as announced */
    off_t start;     /* where it begins; less than 0 where it can be read only once */
    bool in_memory;  /* it is mapped as well */
};

/* A pass: its state, and what it answered last. */
struct pass {
    uint8_t state[TARPAULARK_PASS];
    uint64_t answer[TARPAULARK_FINISH_ANSWER];
};

/* Whether the image is standard input. That its length is not announced, or that of another, is bad usage. */
bool is_input(const struct request *request);

/* Standard input, of an announced length. */
struct source input_source(uint64_t length);

/* A file that is held. */
struct source file_source(const struct mapped *file);

/* Reads an image and judges it for a partition of so many bytes; 0 or the refusal. */
uint32_t judge_pieces(const struct source *source, uint64_t room, struct pass *pass);

/* Reads an image and stores it on a partition as it comes; 0 or the refusal, before which some may be stored. */
uint32_t store_pieces(const struct source *source, const struct mapped *partition, struct pass *pass);

/* What to remark on an image that a pass accepted. Of unknown chunks a pass counts the blocks alone; where the image
   is in memory too, that is walked. */
struct remarks remarks_by(const struct source *source, const struct pass *pass);

#endif
