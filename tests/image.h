/*
 * The words of documents 01 and 02 for tests: kinds, the fields of the head and
 * of a link, the sum word, and an image that is written word by word. What
 * builds images and what reads them takes the format from here, and nothing
 * from the library: a new head or a new sum changes this file, beside the
 * samples that document 01 prints (samples.h). C11 and C++17.
 */
#ifndef DULIMOVEN_TESTS_IMAGE_H
#define DULIMOVEN_TESTS_IMAGE_H

#include <stddef.h>
#include <stdint.h>
#include <string.h>

/* Bounds of an image's length, and of what its head counts. */
enum {
    LEAST_WORDS = 2,
    MOST_WORDS = 8192,
    LEAST_FACTS = 1,
    MOST_FACTS = 256,
    MOST_STEPS = 1023,
    MOST_SEQUENCES = 256
};

/* Bits 31 to 28 of a word are its kind, the low 28 bits its payload. */
enum {
    PAYLOAD_BITS = 28,
    KIND_HEAD = 1,
    KIND_NEEDS = 2,
    KIND_SETS = 3,
    KIND_CLEARS = 4,
    KIND_STEP = 5,
    KIND_SEQUENCE = 6,
    KIND_ALTERNATIVE = 7,
    KIND_STEP_ENTRY = 8,
    KIND_SEQUENCE_ENTRY = 9,
    KIND_CHOICE = 10,
    KIND_POSITION = 11,
    KIND_UNTOUCHED = 12,
    KIND_CHECK = 13,
    KIND_SUM = 15
};

enum { PAYLOAD_MASK = (1 << PAYLOAD_BITS) - 1 };

/* A word, as a constant too. */
#define WORD(kind, payload) \
    ((uint32_t)(kind) << PAYLOAD_BITS | (uint32_t)(payload))

static inline uint32_t word_of(uint32_t kind, uint32_t payload)
{
    return WORD(kind, payload);
}

static inline uint32_t kind_of(uint32_t word)
{
    return word >> PAYLOAD_BITS;
}

static inline uint32_t payload_of(uint32_t word)
{
    return word & PAYLOAD_MASK;
}

/* A word that says what a step needs, sets or clears. */
static inline int is_fact(uint32_t word)
{
    return kind_of(word) >= KIND_NEEDS && kind_of(word) <= KIND_CLEARS;
}

static inline int is_entry(uint32_t word)
{
    return kind_of(word) == KIND_STEP_ENTRY ||
           kind_of(word) == KIND_SEQUENCE_ENTRY || kind_of(word) == KIND_CHECK;
}

/* The low `bits` bits of a word from bit `from` on. */
static inline uint32_t field_of(uint32_t word, unsigned from, unsigned bits)
{
    return word >> from & ((UINT32_C(1) << bits) - 1);
}

/*
 * The head: bits 0 to 8 hold F, the number of facts, bits 9 to 18 hold A,
 * steps, bits 19 to 27 hold C, sequences. No bit of the payload is left.
 */
enum {
    HEAD_FACTS = 0,
    HEAD_FACTS_BITS = 9,
    HEAD_STEPS = HEAD_FACTS + HEAD_FACTS_BITS,
    HEAD_STEPS_BITS = 10,
    HEAD_SEQUENCES = HEAD_STEPS + HEAD_STEPS_BITS,
    HEAD_SEQUENCES_BITS = 9
};

/* A head, as a constant too. */
#define HEAD(facts, steps, sequences)                          \
    WORD(KIND_HEAD, (uint32_t)(facts) << HEAD_FACTS |          \
                        (uint32_t)(steps) << HEAD_STEPS |      \
                        (uint32_t)(sequences) << HEAD_SEQUENCES)

static inline uint32_t head_word(uint32_t facts, uint32_t steps,
                                 uint32_t sequences)
{
    return HEAD(facts, steps, sequences);
}

static inline uint32_t facts_of(uint32_t head)
{
    return field_of(head, HEAD_FACTS, HEAD_FACTS_BITS);
}

static inline uint32_t steps_of(uint32_t head)
{
    return field_of(head, HEAD_STEPS, HEAD_STEPS_BITS);
}

static inline uint32_t sequences_of(uint32_t head)
{
    return field_of(head, HEAD_SEQUENCES, HEAD_SEQUENCES_BITS);
}

/* "A word now counts as its payload plus 1,024 times its kind." */
static inline uint32_t counts_as(uint32_t word)
{
    return payload_of(word) + 1024 * kind_of(word);
}

/*
 * The sum word after these words. "Keep the running sum of these with wrap at
 * 2^32, and let b be the wrapping sum of its values after each earlier word.
 * The sum word's payload is now b mod 2^28."
 *
 * The word at p is in the running sums after p and after each later word, which
 * are count - p. So b is the sum of (count - p) * counts_as(words[p]), and is
 * worked out so: the engine and the second one add up running sums.
 */
static inline uint32_t sum_word_after(const uint32_t *words, size_t count)
{
    uint32_t b = 0;
    size_t p;
    for (p = 0; p < count; p++)
        b += (uint32_t)(count - p) * counts_as(words[p]);
    return word_of(KIND_SUM, payload_of(b));
}

/*
 * The first word of a link: bits 0 to 7 hold the sequence, bits 8 to 20 the
 * alternative. The second is of kind 11 with a position, or of kind 12 with 0.
 */
enum {
    CHOICE_SEQUENCE = 0,
    CHOICE_SEQUENCE_BITS = 8,
    CHOICE_ALTERNATIVE = CHOICE_SEQUENCE + CHOICE_SEQUENCE_BITS,
    CHOICE_ALTERNATIVE_BITS = 13
};

static inline uint32_t choice_word(uint32_t sequence, uint32_t alternative)
{
    return word_of(KIND_CHOICE, sequence << CHOICE_SEQUENCE |
                                    alternative << CHOICE_ALTERNATIVE);
}

static inline uint32_t chosen_alternative(uint32_t choice)
{
    return field_of(choice, CHOICE_ALTERNATIVE, CHOICE_ALTERNATIVE_BITS);
}

/* An image that is written word by word. */
struct image {
    size_t length;
    uint32_t words[MOST_WORDS];
};

static inline void image_put(struct image *image, uint32_t kind,
                             uint32_t payload)
{
    if (image->length < MOST_WORDS)
        image->words[image->length++] = word_of(kind, payload);
}

static inline void image_begin(struct image *image, uint32_t facts,
                               uint32_t steps, uint32_t sequences)
{
    image->length = 1;
    image->words[0] = head_word(facts, steps, sequences);
}

static inline void image_end(struct image *image)
{
    uint32_t sum = sum_word_after(image->words, image->length);
    image_put(image, KIND_SUM, payload_of(sum));
}

static inline void image_copy(struct image *to, const struct image *from)
{
    to->length = from->length;
    memcpy(to->words, from->words, from->length * sizeof from->words[0]);
}

#endif
