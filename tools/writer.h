/*
 * The writer of words: a library as an image, sealed and checked by the
 * engine's own calls.
 */
#ifndef DLM_WRITER_H
#define DLM_WRITER_H

#include "library.h"
#include "source.h"

/* An image, and for each word the place in the text that it comes from. */
struct image {
    size_t length;
    uint32_t words[DULIMOVEN_MOST_IMAGE_WORDS];
    size_t places[DULIMOVEN_MOST_IMAGE_WORDS];
};

/* The parts of a word. */
uint32_t word_kind(uint32_t word);
uint32_t word_payload(uint32_t word);

/* A word put behind an image that has room for it, with its place. */
void image_put(struct image *image, uint32_t kind, size_t payload, size_t at);

/* The head of a library that counts so many. */
uint32_t head_of(size_t facts, size_t steps, size_t sequences);

/*
 * Writes the image of a library that was read from a text. Answers whether the
 * check accepts it; what it refuses is told at the place in the text, in the
 * text's words.
 */
int write_image(struct source *source, const struct library *library,
                struct image *image);

#endif
