/*
 * The checksum by itself: images of raw or fill chunks of one block each are judged with their
 * checksum stated and with none, where none is worked out; the difference is the checksum's,
 * with a walk over the chunks that only it needs.
 */
#ifndef SUMS_H
#define SUMS_H

#include "work.h"

/* Prints the table, for so many MiB of flat bytes. */
void put_sums(struct work *work, size_t mib);

#endif
