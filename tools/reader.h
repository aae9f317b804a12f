/*
 * The reader of the text: the grammar of docs/TEXT.md, and what each name
 * stands for.
 */
#ifndef DLM_READER_H
#define DLM_READER_H

#include "library.h"
#include "source.h"

/*
 * Reads a library from a text. Answers whether it is one; each error is told.
 * The library is freed by library_free in either case.
 */
int read_text(struct source *source, struct library *library);

#endif
