/*
 * A file as the commands take it: a text or an image, with its library, its
 * image and its cards.
 */
#ifndef DLM_LOADED_H
#define DLM_LOADED_H

#include "library.h"
#include "source.h"
#include "writer.h"

struct loaded {
    struct source source;
    int is_text;
    struct library library;
    struct image image;
    uint64_t cards[DULIMOVEN_MOST_CARD_WORDS];
};

/* Loads a file; "-" is standard input. Answers NULL where that fails, which is
 * told. */
struct loaded *load(const char *name);

void unload(struct loaded *loaded);

/* The card of a sequence. */
const uint64_t *card_of(const struct loaded *loaded, size_t sequence);

/* The sum word, which tells images apart. */
uint32_t sum_word(const struct loaded *loaded);

#endif
