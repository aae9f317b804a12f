/*
 * A text that is written piece by piece in memory.
 */
#ifndef DLM_TEXT_H
#define DLM_TEXT_H

#include <stddef.h>

/* A text of `length` bytes with a 0 after the last; all 0 where it is empty. */
struct text {
    char *bytes;
    size_t length, room;
};

/* Adds a string, and as printf has it. Without memory the program ends. */
void text_put(struct text *text, const char *string);
void text_format(struct text *text, const char *format, ...)
    __attribute__((format(printf, 2, 3)));

/* What was written. */
const char *text_string(const struct text *text);

/* Takes all back, and keeps the memory. */
void text_clear(struct text *text);

void text_free(struct text *text);

#endif
