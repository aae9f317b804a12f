/*
 * Progress on standard error, for work that takes over a second, and only on a
 * terminal.
 */
#ifndef DLM_PROGRESS_H
#define DLM_PROGRESS_H

#include <stddef.h>

/* Begins some work, says how far it is, and takes the line away again. */
void progress_begin(const char *what);
void progress_at(size_t done, size_t all);
void progress_end(void);

#endif
