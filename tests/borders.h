/*
 * A library with facts at the borders of a column's words: examples/
 * borders.image. Step 0 sets the facts 0, 63, 64 and 255; step 1 needs 64 and
 * 255 and clears 63. Sequence 0 is <0>; 1 is <0, 1>; 2 is <1>, <>; 3 is <check
 * 255>, <sequence 0>; 4 calls itself. C11 and C++17.
 *
 * The sum word: taken 29 times for the head, 28 times for the next word and so
 * on to once for the last, the payloads after the head's add up to 19037, and
 * the kinds to 2128: 29 * 0x280500 + 19037 + 1024 * 2128 = 0x4aa1b5d.
 */
#ifndef DULIMOVEN_TESTS_BORDERS_H
#define DULIMOVEN_TESTS_BORDERS_H

#include "columns.h"
#include "harness.h"

enum { BORDERS = 5, BORDERS_SUM = 29 };
static const uint32_t borders[] = {
    0x10280500, 0x50000000, 0x30000000, 0x3000003f, 0x30000040, 0x300000ff,
    0x50000001, 0x20000040, 0x200000ff, 0x4000003f, 0x60000000, 0x70000000,
    0x80000000, 0x60000001, 0x70000000, 0x80000000, 0x80000001, 0x60000002,
    0x70000000, 0x80000001, 0x70000000, 0x60000003, 0x70000000, 0xd00000ff,
    0x70000000, 0x90000000, 0x60000004, 0x70000000, 0x90000004, 0xf4aa1b5d};

/* The same words by name, without the sum word. */
#define BORDERS_WORDS                                               \
    HEAD(256, 2, BORDERS),                                          \
        STEP(0), SETS(0), SETS(63), SETS(64), SETS(255),            \
        STEP(1), NEEDS(64), NEEDS(255), CLEARS(63),                 \
        SEQUENCE(0), ALTERNATIVE, DO(0),                            \
        SEQUENCE(1), ALTERNATIVE, DO(0), DO(1),                     \
        SEQUENCE(2), ALTERNATIVE, DO(1), ALTERNATIVE,               \
        SEQUENCE(3), ALTERNATIVE, CHECK(255), ALTERNATIVE, CALL(0), \
        SEQUENCE(4), ALTERNATIVE, CALL(4)

/*
 * Its columns, by their four words: A has the facts 0, 63, 64 and 255, N all
 * others; A_63 is A without fact 63, which is F_63; P has 64 and 255, Q has
 * 255, R all others; U has all 256 facts.
 */
#define HIGH UINT64_C(0x8000000000000000)
#define ONES UINT64_C(0xffffffffffffffff)
#define COLUMN_0 COLUMN(0, 0, 0, 0)
#define COLUMN_A COLUMN(HIGH | 1, 1, 0, HIGH)
#define COLUMN_N COLUMN(ONES >> 1 ^ 1, ONES ^ 1, ONES, ONES >> 1)
#define COLUMN_A_63 COLUMN(1, 1, 0, HIGH)
#define COLUMN_F_63 COLUMN(HIGH, 0, 0, 0)
#define COLUMN_P COLUMN(0, 1, 0, HIGH)
#define COLUMN_Q COLUMN(0, 0, 0, HIGH)
#define COLUMN_R COLUMN(ONES, ONES, ONES, ONES >> 1)
#define COLUMN_U COLUMN(ONES, ONES, ONES, ONES)

/* Flags, of a run, of an empty one too, and of so many facts that can change,
 * as a number of a card. */
#define FLAGS(word) COLUMN(word, 0, 0, 0)

static const struct column borders_cards[BORDERS][NUMBERS] = {
    /* sets the four facts first and last, after which they stand; no item
       names the others */
    {FLAGS(0x401), COLUMN_0, COLUMN_0, COLUMN_A, COLUMN_0, COLUMN_A, COLUMN_0,
     COLUMN_A, COLUMN_A, COLUMN_N, COLUMN_N, COLUMN_0, COLUMN_N},
    /* and fact 63 is cleared after that; the needs of 64 and 255 come after
       their sets */
    {FLAGS(0x401), COLUMN_0, COLUMN_0, COLUMN_A_63, COLUMN_F_63, COLUMN_A_63,
     COLUMN_F_63, COLUMN_A_63, COLUMN_A, COLUMN_N, COLUMN_N, COLUMN_F_63,
     COLUMN_N},
    /* needs 64 and 255 and clears 63, or nothing */
    {FLAGS(0x103), COLUMN_0, COLUMN_P, COLUMN_0, COLUMN_F_63, COLUMN_0,
     COLUMN_0, COLUMN_0, COLUMN_0, COLUMN_U, COLUMN_U, COLUMN_F_63, COLUMN_U},
    /* checks 255 and names no other, or sets the four: 255 stands after both */
    {FLAGS(0x403), COLUMN_0, COLUMN_Q, COLUMN_A, COLUMN_0, COLUMN_0, COLUMN_0,
     COLUMN_Q, COLUMN_A, COLUMN_R, COLUMN_U, COLUMN_0, COLUMN_R},
    /* no run */
    {COLUMN_0, COLUMN_0, COLUMN_0, COLUMN_0, COLUMN_0, COLUMN_0, COLUMN_0,
     COLUMN_0, COLUMN_0, COLUMN_0, COLUMN_0, COLUMN_0, COLUMN_0}};

/*
 * The words of sequence 0's card, each in its place: document 02, request 8,
 * "Each column takes four words, facts 0 to 63 first".
 */
#define WORDS_0 0, 0, 0, 0
#define WORDS_A HIGH | 1, 1, 0, HIGH
#define WORDS_N                                                           \
    UINT64_C(0x7ffffffffffffffe), UINT64_C(0xfffffffffffffffe),           \
        UINT64_C(0xffffffffffffffff), UINT64_C(0x7fffffffffffffff)
static const uint64_t borders_words_of_0[49] = {
    0x401,   WORDS_0, WORDS_0, WORDS_A, WORDS_0, WORDS_A, WORDS_0,
    WORDS_A, WORDS_A, WORDS_N, WORDS_N, WORDS_0, WORDS_N};

/* The image under test is this library, by the builder. */
static inline void build_borders(void)
{
    BUILD(BORDERS_WORDS);
    hold("the words of the borders",
         words == COUNT(borders) &&
             memcmp(word_at(0), borders, sizeof borders) == 0);
}

#endif
