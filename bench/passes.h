/*
 * The passes on pieces of some lengths, against the whole form on the same images:
 * with a checksum stated on all kinds of data, with none where the checksum costs most.
 */
#ifndef PASSES_H
#define PASSES_H

#include "work.h"

/* Prints the table, for so many MiB of flat bytes. */
void put_passes(struct work *work, size_t mib);

#endif
