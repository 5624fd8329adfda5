/* How far a pass is, where a terminal watches: one line on standard error, drawn in its place again and again. */
#ifndef PROGRESS_H
#define PROGRESS_H

#include <stdbool.h>
#include <stdint.h>

/* Whether standard error is a terminal. */
bool is_watched(void);

/* Begins to show how far something is of so many bytes, or for 0 bytes how long it takes; nothing where no
   terminal watches. A clock draws the line, also while a call of the library or of the system takes its time. */
void begin_progress(const char *what, uint64_t total);

/* So many bytes more are done. */
void add_progress(uint64_t bytes);

/* Wipes the line, if there is one. */
void end_progress(void);

#endif
