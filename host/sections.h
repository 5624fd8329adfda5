/* What is said of the sections of a boot image. */
#ifndef SECTIONS_H
#define SECTIONS_H

#include "tarpaulark.h"

/* Says the version, then name, position and size of each section that is offered; last, whether a retired one is
   present. */
void say_sections(const uint64_t answer[TARPAULARK_LOCATE_ANSWER]);

#endif
