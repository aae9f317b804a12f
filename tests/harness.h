/*
 * What the tests of the C side share: words and answers by name, an image that
 * is built from them, and the count of what ran and what failed. C11 and C++17.
 */
#ifndef DULIMOVEN_TESTS_HARNESS_H
#define DULIMOVEN_TESTS_HARNESS_H

#include "dulimoven.h"
#include "image.h"

#include <inttypes.h>
#include <stdio.h>
#include <string.h>

#define COUNT(array) (sizeof(array) / sizeof((array)[0]))

/* The words of a full image, and the greatest counts in a head. */
enum {
    FULL = DULIMOVEN_MOST_IMAGE_WORDS,
    MOST_F = DULIMOVEN_MOST_FACTS,
    MOST_A = DULIMOVEN_MOST_STEPS,
    MOST_C = DULIMOVEN_MOST_SEQUENCES
};

/*
 * The words of a library after its HEAD: STEP(0), NEEDS(0), SETS(1) is a step
 * and SEQUENCE(0), ALTERNATIVE, DO(0), CALL(1), CHECK(2) a sequence with one
 * alternative: step 0, then sequence 1, then a check of fact 2.
 */
#define STEP(number) WORD(KIND_STEP, number)
#define NEEDS(fact) WORD(KIND_NEEDS, fact)
#define SETS(fact) WORD(KIND_SETS, fact)
#define CLEARS(fact) WORD(KIND_CLEARS, fact)
#define SEQUENCE(number) WORD(KIND_SEQUENCE, number)
#define ALTERNATIVE WORD(KIND_ALTERNATIVE, 0)
#define DO(step) WORD(KIND_STEP_ENTRY, step)
#define CALL(sequence) WORD(KIND_SEQUENCE_ENTRY, sequence)
#define CHECK(fact) WORD(KIND_CHECK, fact)

/* The words of a link: CHOICE and then AT or UNTOUCHED. */
#define CHOICE(sequence, alternative) \
    WORD(KIND_CHOICE, (uint32_t)(sequence) | (uint32_t)(alternative) << 8)
#define AT(position) WORD(KIND_POSITION, position)
#define UNTOUCHED WORD(KIND_UNTOUCHED, 0)

/* Answers: a refusal, and the check's answer, which is the head's payload. */
#define REFUSED(number, position) \
    (((uint64_t)(number) << 32) + (uint64_t)(position))
#define ACCEPTED(f, a, c) ((uint64_t)(HEAD(f, a, c) & PAYLOAD_MASK))

static unsigned ran;
static unsigned failed;

static inline void hold(const char *name, int right)
{
    ran++;
    if (right)
        return;
    failed++;
    printf("%s: does not hold\n", name);
}

/*
 * The image under test, with guard words on both sides. The area is compared
 * with a copy after each call.
 */
enum { GUARD = 16, LONGEST = FULL + 1, AREA = GUARD + LONGEST + GUARD };
static uint32_t area[AREA];
static uint32_t copy[AREA];
static size_t words;

static inline void start(void)
{
    size_t i;
    for (i = 0; i < AREA; i++)
        area[i] = UINT32_C(0x5afe0000) + (uint32_t)i;
    words = 0;
}

static inline void put(uint32_t word)
{
    if (words < LONGEST)
        area[GUARD + words++] = word;
}

static inline void put_all(const uint32_t *given, size_t count)
{
    size_t i;
    for (i = 0; i < count; i++)
        put(given[i]);
}

#define PUT(...)                                \
    do {                                        \
        const uint32_t given[] = {__VA_ARGS__}; \
        put_all(given, COUNT(given));           \
    } while (0)

/* The word again and again, until there are so many words. */
static inline void fill(uint32_t word, size_t count)
{
    while (words < count)
        put(word);
}

/* The sum word of the words that are there. */
static inline void put_sum(void)
{
    put(sum_word_after(area + GUARD, words));
}

/* The words given, and after them the sum word. */
static inline void build(const uint32_t *given, size_t count)
{
    start();
    put_all(given, count);
    put_sum();
}

#define BUILD(...)                              \
    do {                                        \
        const uint32_t given[] = {__VA_ARGS__}; \
        build(given, COUNT(given));             \
    } while (0)

static inline uint32_t *word_at(size_t position)
{
    return area + GUARD + position;
}

/* The sum word is right again, after a change of other words. */
static inline void sum_again(void)
{
    words--;
    put_sum();
}

/* The payload of the sum word is so much greater than the right one. */
static inline void miss_sum(int by)
{
    uint32_t *last = word_at(words - 1);
    *last = word_of(KIND_SUM, payload_of(*last + (uint32_t)by));
}

/* Before a call, and after it: no word of the image or beside it is changed. */
static inline void keep(void)
{
    memcpy(copy, area, sizeof area);
}

static inline void kept(const char *name)
{
    if (memcmp(copy, area, sizeof area) == 0)
        return;
    failed++;
    printf("%s: the call changed the image or a word beside it\n", name);
}

#endif
