/*
 * Two images joined, against memcpy and zlib's checksum on the flat bytes of one: a first
 * image of raw blocks, and a second that writes all of them or every other one raw, fills
 * all, or keeps all; with checksums and without. Then, without, one that writes all raw
 * in small blocks, and two short images that name many large ones.
 */
#ifndef JOIN_H
#define JOIN_H

#include "work.h"

/* Prints the table, for so many MiB of flat bytes. */
void put_joinings(struct work *work, size_t mib);

#endif
