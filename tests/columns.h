/*
 * Columns and cards for tests, by document 02, request 8: "Each column takes
 * four words, facts 0 to 63 first, so a card is 49 words". A card is thirteen
 * numbers, as the printing program has them: the flags, and twelve columns of
 * 256 bits, of which fact f is bit f. Where its words stand is worked out here
 * and taken from nothing of the library. C11 and C++17.
 */
#ifndef DULIMOVEN_TESTS_COLUMNS_H
#define DULIMOVEN_TESTS_COLUMNS_H

#include <stddef.h>
#include <stdint.h>
#include <string.h>

enum {
    WORD_FACTS = 64,
    COLUMN_WORDS = 4,
    COLUMN_FACTS = WORD_FACTS * COLUMN_WORDS,
    COLUMNS = 12,
    NUMBERS = 1 + COLUMNS,
    CARD_WORDS = 1 + COLUMNS * COLUMN_WORDS
};

/* A set of facts: fact f is bit f % 64 of word f / 64. */
struct column {
    uint64_t word[COLUMN_WORDS];
};

/* A column by its four words, facts 0 to 63 first, as a constant too. */
#define COLUMN(first, second, third, fourth) {{first, second, third, fourth}}

/* Where a card has the word of a column in which a fact stands, the column by
 * its number, from 1 on. */
static inline size_t place_of(int column, uint32_t fact)
{
    return (size_t)(1 + COLUMN_WORDS * (column - 1)) + fact / WORD_FACTS;
}

/* Facts below 64, by their bits. */
static inline struct column low_facts(uint64_t word)
{
    struct column made = COLUMN(word, 0, 0, 0);
    return made;
}

static inline struct column one_fact(uint32_t fact)
{
    struct column made = COLUMN(0, 0, 0, 0);
    made.word[fact / WORD_FACTS] = UINT64_C(1) << fact % WORD_FACTS;
    return made;
}

/* The facts from `from` up to and without `to`. */
static inline struct column facts_from(uint32_t from, uint32_t to)
{
    struct column made = COLUMN(0, 0, 0, 0);
    for (; from < to; from++)
        made.word[from / WORD_FACTS] |= UINT64_C(1) << from % WORD_FACTS;
    return made;
}

static inline struct column facts_below(uint32_t to)
{
    return facts_from(0, to);
}

static inline struct column union_of(struct column x, struct column y)
{
    int i;
    for (i = 0; i < COLUMN_WORDS; i++)
        x.word[i] |= y.word[i];
    return x;
}

/* The facts of x that are not in y. */
static inline struct column without(struct column x, struct column y)
{
    int i;
    for (i = 0; i < COLUMN_WORDS; i++)
        x.word[i] &= ~y.word[i];
    return x;
}

static inline int is_in(uint32_t fact, struct column x)
{
    return (int)(x.word[fact / WORD_FACTS] >> fact % WORD_FACTS & 1);
}

static inline int is_none(struct column x)
{
    return (x.word[0] | x.word[1] | x.word[2] | x.word[3]) == 0;
}

/* Whether x has no fact but those of y. */
static inline int is_within(struct column x, struct column y)
{
    return is_none(without(x, y));
}

static inline int is_same(struct column x, struct column y)
{
    return memcmp(&x, &y, sizeof x) == 0;
}

static inline uint64_t count_facts(struct column x)
{
    uint64_t count = 0;
    uint32_t fact;
    for (fact = 0; fact < COLUMN_FACTS; fact++)
        count += (uint64_t)is_in(fact, x);
    return count;
}

/* A column of a card. */
static inline struct column column_of(const uint64_t *card, int column)
{
    struct column read;
    memcpy(&read, card + place_of(column, 0), sizeof read);
    return read;
}

/* The words of a card by its numbers; of the first only the low word counts. */
static inline void lay_out(const struct column *numbers, uint64_t *card)
{
    int column;
    card[0] = numbers[0].word[0];
    for (column = 1; column < NUMBERS; column++)
        memcpy(card + place_of(column, 0), &numbers[column],
               sizeof numbers[column]);
}

/* The same where no fact is above 63, so that each number is of one word. */
static inline void lay_out_low(const uint64_t *numbers, uint64_t *card)
{
    struct column wide[NUMBERS];
    int i;
    for (i = 0; i < NUMBERS; i++)
        wide[i] = low_facts(numbers[i]);
    lay_out(wide, card);
}

#endif
