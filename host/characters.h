/* Text as UTF-8. */
#ifndef CHARACTERS_H
#define CHARACTERS_H

#include <stdbool.h>

/* How many bytes the character at `text` takes as UTF-8; 0 where the bytes there are none. */
int character_length(const char *text);

/* Whether the character at `text` shows nothing and may steer a terminal. */
bool is_control(const char *text);

#endif
