/*
 * Libraries with checks, and their cards. Document 02, request 4: "Kind 13, an
 * entry, checks that its fact stands; its payload is below F under 5. A run
 * holds its checks in their places; a check is no step, changes nothing and has
 * depth 0, and a run without steps is still called empty. [..] On the first
 * side a check counts as a need [..]" On the last side it touches nothing.
 * "Always stands" is "a run exists, and in every run the last item that sets,
 * clears, needs or checks the fact is there and does not clear it. A step that
 * needs and clears counts as clearing." Request 5 goes on with five columns:
 * "some run first sets it; some run leaves it untouched on the first side; on
 * the last side; some run's last item under Item 4's rule clears it; some run
 * has no such item." C11 and C++17.
 */
#ifndef DULIMOVEN_TESTS_CHECKS_H
#define DULIMOVEN_TESTS_CHECKS_H

#include "columns.h"
#include "harness.h"
#include "setup.h"

/*
 * A library with its sum word, and the numbers of its sequences' cards, one
 * after the other: `cards` has them where no fact is above 63, `wide` where one
 * is.
 */
struct checks {
    const char *name;
    const uint32_t *words;
    size_t count;
    const uint64_t (*cards)[NUMBERS];
    const struct column (*wide)[NUMBERS];
    size_t sequences;
};

/*
 * One alternative each, over one fact. Step 0 sets it, 1 clears it, 2 needs it,
 * 3 neither, 4 needs and clears it.
 *
 * The sum word: taken 43 times for the head, 42 times for the next word and so
 * on to once for the last, the payloads after the head's add up to 888, and the
 * kinds to 5898: 43 * 0x480a01 + 888 + 1024 * 5898 = 0xc75d9a3.
 */
static const uint32_t single_words[] = {
    HEAD(1, 5, 9),
    STEP(0), SETS(0),
    STEP(1), CLEARS(0),
    STEP(2), NEEDS(0),
    STEP(3),
    STEP(4), NEEDS(0), CLEARS(0),
    SEQUENCE(0), ALTERNATIVE, CHECK(0),
    SEQUENCE(1), ALTERNATIVE, DO(0), CHECK(0),
    SEQUENCE(2), ALTERNATIVE, DO(1), CHECK(0),
    SEQUENCE(3), ALTERNATIVE, CHECK(0), DO(1),
    SEQUENCE(4), ALTERNATIVE, CHECK(0), DO(0),
    SEQUENCE(5), ALTERNATIVE, DO(4),
    SEQUENCE(6), ALTERNATIVE, DO(2),
    SEQUENCE(7), ALTERNATIVE, CHECK(0), DO(3),
    SEQUENCE(8), ALTERNATIVE, DO(3),
    0xfc75d9a3};

static const uint64_t single_cards[][NUMBERS] = {
    /* <check>: the run has no step, so it is empty; the check is a need on the
       first side and no touch on the last, and the fact stands after it */
    {3, 1, 1, 0, 0, 0, 0, 1, 0, 0, 1, 0, 0},
    /* <set, check>: the set is the first touch and the last one */
    {0x101, 0, 0, 1, 0, 1, 0, 1, 1, 0, 0, 0, 0},
    /* <clear, check>: a clear is no touch on the first side, so the check is
       first; last the clear. The check is the last item that names the fact:
       no run executes. */
    {0x101, 1, 1, 0, 1, 0, 1, 1, 0, 0, 0, 0, 0},
    /* <check, clear>: the same sides, and the clear is the last item */
    {0x101, 1, 1, 0, 1, 0, 1, 0, 0, 0, 0, 1, 0},
    /* <check, set>: first the need, last the set */
    {0x101, 1, 1, 1, 0, 1, 0, 1, 0, 0, 0, 0, 0},
    /* <needs and clears>: counts as clearing */
    {0x101, 1, 1, 0, 1, 0, 1, 0, 0, 0, 0, 1, 0},
    /* <need>: no touch on the last side, and the fact stands after it */
    {1, 1, 1, 0, 0, 0, 0, 1, 0, 0, 1, 0, 0},
    /* <check, other>: it has a step, so it is not empty */
    {1, 1, 1, 0, 0, 0, 0, 1, 0, 0, 1, 0, 0},
    /* <other>: no item names the fact, which both sides leave */
    {1, 0, 0, 0, 0, 0, 0, 0, 0, 1, 1, 0, 1}};

/*
 * Two facts; step 0 sets 0, step 1 needs 0 and sets 1. Sequence 0 is <step 0>,
 * <check 0>; 1 is <0, step 1>; 2 is <0>, <check 1>; 3 is <itself, check 0>,
 * <check 0, check 0>; 4 is <>, <check 1, itself>.
 *
 * The sum word: so taken, 32 times for the head, the payloads add up to 234,
 * the kinds to 3421: 32 * 0x280402 + 234 + 1024 * 3421 = 0x535f52a.
 */
static const uint32_t nested_words[] = {
    HEAD(2, 2, 5),
    STEP(0), SETS(0),
    STEP(1), NEEDS(0), SETS(1),
    SEQUENCE(0), TAKES(DO(0)), TAKES(CHECK(0)),
    SEQUENCE(1), TAKES(CALL(0), DO(1)),
    SEQUENCE(2), TAKES(CALL(0)), TAKES(CHECK(1)),
    SEQUENCE(3), TAKES(CALL(3), CHECK(0)), TAKES(CHECK(0), CHECK(0)),
    SEQUENCE(4), ALTERNATIVE, TAKES(CHECK(1), CALL(4)),
    0xf535f52a};

static const uint64_t nested_cards[][NUMBERS] = {
    /* fact 0 is set or checked, so it may be needed and set, and stands; the
       check leaves it on the last side. Fact 1 is not named. */
    {0x103, 0, 1, 1, 0, 0, 0, 1, 1, 2, 3, 0, 2},
    /* after either step 1 needs fact 0, which stands then, and sets fact 1. The
       first touch of fact 0 is sequence 0's, a set or a need; where it is the
       check's, nothing touches fact 0 on the last side. */
    {0x201, 0, 1, 3, 0, 2, 0, 3, 3, 0, 1, 0, 0},
    /* fact 0 is not named in <check 1>, and fact 1 not in sequence 0 */
    {0x103, 0, 3, 1, 0, 0, 0, 0, 1, 3, 3, 0, 3},
    /* two checks of fact 0 and more: runs without number, and all are empty */
    {3, 1, 1, 0, 0, 0, 0, 1, 0, 2, 3, 0, 2},
    /* any number of checks of fact 1, none among them */
    {3, 0, 2, 0, 0, 0, 0, 0, 0, 3, 3, 0, 3}};

/*
 * 64 facts. Sequence 0 is <check 63>, <set 63>; 1 is <check 0, check 63>.
 *
 * The sum word: so taken, 12 times for the head, the payloads add up to 1138,
 * the kinds to 464: 12 * 0x100240 + 1138 + 1024 * 464 = 0xc75f72.
 */
static const uint32_t word_words[] = {
    HEAD(64, 1, 2),
    STEP(0), SETS(63),
    SEQUENCE(0), TAKES(CHECK(63)), TAKES(DO(0)),
    SEQUENCE(1), TAKES(CHECK(0), CHECK(63)),
    0xf0c75f72};

#define FACT_63 UINT64_C(0x8000000000000000)
#define ALL_FACTS UINT64_C(0xffffffffffffffff)

static const uint64_t word_cards[][NUMBERS] = {
    /* fact 63 is needed and not touched last, or set; it stands after both.
       The others are not named. */
    {0x103, 0, FACT_63, FACT_63, 0, 0, 0, FACT_63,
     FACT_63, UINT64_C(0x7fffffffffffffff), ALL_FACTS, 0,
     UINT64_C(0x7fffffffffffffff)},
    /* facts 0 and 63 are needed and stand, and the run is empty */
    {3, FACT_63 | 1, FACT_63 | 1, 0, 0, 0, 0, FACT_63 | 1,
     0, UINT64_C(0x7ffffffffffffffe), ALL_FACTS, 0,
     UINT64_C(0x7ffffffffffffffe)}};

/*
 * 256 facts. Sequence 0 is <check 255>, <set 255>; 1 is <check 0, check 255>.
 *
 * The sum word: so taken, 12 times for the head, the payloads add up to 4594,
 * the kinds to 464: 12 * 0x100300 + 4594 + 1024 * 464 = 0xc775f2.
 */
static const uint32_t widest_words[] = {
    HEAD(256, 1, 2),
    STEP(0), SETS(255),
    SEQUENCE(0), TAKES(CHECK(255)), TAKES(DO(0)),
    SEQUENCE(1), TAKES(CHECK(0), CHECK(255)),
    0xf0c775f2};

#define NO_FACT COLUMN(0, 0, 0, 0)
#define EVERY_FACT COLUMN(ALL_FACTS, ALL_FACTS, ALL_FACTS, ALL_FACTS)
#define FACT_255 COLUMN(0, 0, 0, FACT_63)
#define BUT_255 COLUMN(ALL_FACTS, ALL_FACTS, ALL_FACTS, ALL_FACTS >> 1)
#define FACTS_0_255 COLUMN(1, 0, 0, FACT_63)
#define BUT_0_255 COLUMN(ALL_FACTS ^ 1, ALL_FACTS, ALL_FACTS, ALL_FACTS >> 1)

static const struct column widest_cards[][NUMBERS] = {
    /* fact 255 is needed and not touched last, or set; it stands after both.
       The others are not named. */
    {COLUMN(0x103, 0, 0, 0), NO_FACT, FACT_255, FACT_255, NO_FACT, NO_FACT,
     NO_FACT, FACT_255, FACT_255, BUT_255, EVERY_FACT, NO_FACT, BUT_255},
    /* facts 0 and 255 are needed and stand, and the run is empty */
    {COLUMN(3, 0, 0, 0), FACTS_0_255, FACTS_0_255, NO_FACT, NO_FACT, NO_FACT,
     NO_FACT, FACTS_0_255, NO_FACT, BUT_0_255, EVERY_FACT, NO_FACT,
     BUT_0_255}};

/*
 * The library of examples/skip.image. Request sets fact 0, unit needs 0 and
 * sets 1, release needs and clears 0, measure needs 0 and 1 and sets 2.
 *
 * The sum word: so taken, 37 times for the head, the payloads add up to 516,
 * the kinds to 3618: 37 * 0x200803 + 516 + 1024 * 3618 = 0x4d9b273.
 */
static const uint32_t skip_words[] = {SKIP, 0xf4d9b273};

static const uint64_t skip_cards[][NUMBERS] = {
    /* <request, unit, release> sets fact 1 and clears 0; <check 1> is empty,
       needs fact 1 and touches none on the last side. Fact 1 is set or checked
       last, and fact 0 is cleared or not named. The first run sets facts 0
       and 1 first and does not name 2, the second names neither 0 nor 2. */
    {0x203, 0, 2, 2, 1, 0, 0, 2, 3, 5, 7, 1, 5},
    /* the first of these runs alone */
    {0x201, 0, 0, 2, 1, 2, 1, 2, 3, 4, 4, 1, 4},
    /* after either request, measure, release: measure needs fact 1 and sets 2,
       which nothing names after it, and release clears fact 0. Fact 1 is first
       touched in sequence 0, by a need or a set. Its last touch is there too:
       set or none. */
    {0x301, 0, 2, 6, 1, 4, 1, 6, 7, 0, 2, 1, 0},
    /* the same after sequence 1, which sets fact 1 */
    {0x301, 0, 0, 6, 1, 6, 1, 6, 7, 0, 0, 1, 0}};

/*
 * Checks before, between and after the other entries of an alternative that
 * calls its own sequence: no run, so that the card is blank.
 *
 * The sum word: so taken, 9 times for the head, the payloads add up to 4, the
 * kinds to 300: 9 * 0x80202 + 4 + 1024 * 300 = 0x4cc216.
 */
static const uint32_t around_words[] = {
    HEAD(2, 1, 1),
    STEP(0),
    SEQUENCE(0), TAKES(CHECK(0), DO(0), CHECK(1), CALL(0), CHECK(1)),
    0xf04cc216};

static const uint64_t around_cards[][NUMBERS] = {
    {0, 0, 0, 0, 0, 0, 0, 0, 0, 0, 0, 0, 0}};

#define CHECKS(title, words, cards) \
    {title, words, COUNT(words), cards, NULL, COUNT(cards)}
#define WIDE_CHECKS(title, words, cards) \
    {title, words, COUNT(words), NULL, cards, COUNT(cards)}

/* The libraries, by name in their order. */
enum { SINGLE, NESTED, ONE_WORD, WIDEST, SKIPPED, AROUND };
static const struct checks checks[] = {
    CHECKS("one alternative each", single_words, single_cards),
    CHECKS("checks in sequences", nested_words, nested_cards),
    CHECKS("64 facts", word_words, word_cards),
    WIDE_CHECKS("256 facts", widest_words, widest_cards),
    CHECKS("skip", skip_words, skip_cards),
    CHECKS("checks around a call of itself", around_words, around_cards)};

/* One of these, with the sum word that the builder gives it. */
static inline void build_checks(const struct checks *library)
{
    build(library->words, library->count - 1);
    hold(library->name,
         *word_at(library->count - 1) == library->words[library->count - 1]);
}

/* The words of a sequence's card. */
static inline void checks_card(const struct checks *library, size_t sequence,
                               uint64_t *card)
{
    if (library->wide != NULL)
        lay_out(library->wide[sequence], card);
    else
        lay_out_low(library->cards[sequence], card);
}

#endif
