/*
 * Two images compared, against memcmp on the flat bytes that they give: equal ones, ones
 * that differ in every block or in every other, with a checksum and without.
 */
#ifndef COMPARE_H
#define COMPARE_H

#include "work.h"

/* Prints the table, for so many MiB of flat bytes. */
void put_comparisons(struct work *work, size_t mib);

#endif
