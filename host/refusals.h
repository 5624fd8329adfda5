/* What the refusal numbers mean, in words. */
#ifndef REFUSALS_H
#define REFUSALS_H

#include <stdint.h>

const char *refusal_meaning(uint32_t number);

#endif
