/*
 * Libraries made from a seed, of several kinds: a shape is drawn, and an image
 * is written that has it; and the same with a pulse, which is refused. C11 and
 * C++17.
 */
#ifndef DULIMOVEN_TESTS_SEEDED_H
#define DULIMOVEN_TESTS_SEEDED_H

#include "../image.h"

/*
 * Small and large libraries; such as call themselves, each other, the next
 * sequence or the one before; endless and deep ones; with many empty
 * alternatives, or with alternatives of hundreds of entries; with one fact and
 * with 64 of them; with steps that need and set, or need and clear, the same
 * fact; with many checks; with many sequences that have no run and reach each
 * other. No step clears a fact that it sets.
 */
enum { SEEDED_KINDS = 17 };

const char *seeded_name(unsigned kind);

/* The state of the random numbers, which is not 0. */
struct seed {
    uint64_t state;
};

/* A number below `below`, or 0 where there is none. */
uint32_t draw(struct seed *seed, uint32_t below);

/* Writes a library of a kind. */
void make_library(struct seed *seed, unsigned kind, struct image *image);

/*
 * The same with another number of facts, up to as many as there can be, and
 * often one beside a multiple of 64.
 */
void make_wide_library(struct seed *seed, unsigned kind, struct image *image);

/*
 * Writes a library with a pulse: a copy in which a step also clears a fact that
 * it sets. The clear word stands where the order of the fact words wants it,
 * and breaks no other rule. Answers its position, or 0 where the library has no
 * set word, or no room for another word, and none is written.
 */
size_t make_pulse(struct seed *seed, const struct image *library,
                  struct image *pulse);

#endif
