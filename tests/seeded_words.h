/*
 * The generator's libraries (second/seeded.h) as plain words, for the tests of
 * tools/, whose headers have some of the names of image.h for other things.
 * C11 and C++17.
 */
#ifndef DULIMOVEN_TESTS_SEEDED_WORDS_H
#define DULIMOVEN_TESTS_SEEDED_WORDS_H

#include <stddef.h>
#include <stdint.h>

/* How many kinds there are, and how many words an image has at the most. */
enum { SEEDED_WORDS_KINDS = 17, SEEDED_WORDS_MOST = 8192 };

/* The state of the random numbers, which is not 0, and a number below `below`,
 * or 0 where there is none. */
uint32_t seeded_below(uint64_t *state, uint32_t below);

/* Writes a library of a kind, with another number of facts where it is wide.
 * Answers how many words it has. */
size_t seeded_words(uint64_t *state, unsigned kind, int wide, uint32_t *words);

/*
 * Makes a library with a sequence longer, up to a number of words: the last
 * sequence has alternatives more, of random entries. Answers how many words it
 * has then.
 */
size_t seeded_fill(uint64_t *state, uint32_t *words, size_t length,
                   size_t filled);

const char *seeded_kind(unsigned kind);

#endif
