/*
 * What the benchmark's files share: the shapes, and the engines that are
 * measured beside the library. All engines have the library's calls, so that
 * each can be called in another's place. The second engine is that of the
 * tests.
 */
#ifndef BENCH_H
#define BENCH_H

#include "../tests/image.h"
#include "../tests/second/second.h"
#include "dulimoven.h"

enum {
    CARD = DULIMOVEN_CARD_WORDS,
    SHAPES = 15,
    GROWTH = 6,
    RINGS = 2,
    FACT_SHAPES = 6
};

/* An image of the generator. */
struct shape {
    const char *name;
    size_t length;
    uint32_t words[MOST_WORDS];
};

/* Writes the shapes, images like the everyday one of 256 to 8,192 words, rings
 * of 256 sequences without a way out, in 770 and in 8,192 words, or some of the
 * shapes with so many facts. */
void write_shapes(struct shape shapes[SHAPES]);
void write_growth(struct shape shapes[GROWTH]);
void write_rings(struct shape shapes[RINGS]);
void write_facts(struct shape shapes[FACT_SHAPES], uint32_t facts);

/* The calls as the library has them. */
typedef uint64_t check_call(const uint32_t *image, size_t image_len);
typedef uint64_t cards_call(const uint32_t *image, size_t image_len,
                            uint64_t *area, size_t area_len);
typedef uint64_t chain_call(const uint32_t *image, size_t image_len,
                            uint64_t sequence, uint64_t question, uint64_t fact,
                            uint32_t *area, size_t area_len);
typedef uint64_t list_call(uint64_t facts, uint64_t sequences,
                           const uint64_t *cards, size_t cards_len,
                           const uint32_t *list, size_t list_len,
                           uint64_t *card);
typedef uint64_t endless_call(const uint32_t *image, size_t image_len,
                              uint64_t sequence, uint32_t *area,
                              size_t area_len);

check_call tuned_check;
cards_call plain_cards, tuned_cards;
chain_call plain_chain, tuned_chain;
list_call plain_list;
endless_call plain_endless, tuned_endless;

#endif
