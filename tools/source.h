/*
 * A file that is read, text or image: its bytes, the lines and columns of a
 * text, and messages about a place in it.
 */
#ifndef DLM_SOURCE_H
#define DLM_SOURCE_H

#include <stddef.h>

struct source {
    const char *name; /* as messages have it */
    char *bytes;      /* `length` of them, and a 0 after the last */
    size_t length;
    int errors; /* how many were told */
};

/* Reads a file, or standard input where the name is "-". Answers whether it
 * could be read; where not, that is told. */
int source_read(struct source *source, const char *name);

void source_free(struct source *source);

/* Whether the file is an image: it has a byte 0. No text has one, and every
 * image that the check accepts does. */
int source_is_image(const struct source *source);

/* Where a text begins: behind the byte order mark that some editors put before
 * it. */
size_t source_begin(const struct source *source);

/* A place in a text: a line and a column, which count from 1. A column is a
 * character, of one byte or more. */
struct position {
    size_t line, column;
};

struct position source_position(const struct source *source, size_t at);

/*
 * Tells an error at a place: file, line and column, what is wrong, and the line
 * itself with a mark under the place. After MOST_ERRORS of them no more are
 * told.
 */
enum { MOST_ERRORS = 20 };
void source_error(struct source *source, size_t at, const char *format, ...)
    __attribute__((format(printf, 3, 4)));

/* The line of a place, with a mark under the place. */
void source_show(const struct source *source, size_t at);

#endif
