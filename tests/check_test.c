/*
 * dulimoven_check from the C side: every refusal with its position, images at
 * the bounds of length, and that a call leaves the image as it was. A refused
 * image gets the same answer from dulimoven_endless, asked about a sequence
 * that no library has, and an accepted one gets 9. C11 and C++17. Prints a line
 * for each answer that differs, then a count; the exit status is 0 where
 * nothing differs.
 *
 * The name of a row says which rule of documents 01 and 02 its answer follows
 * from. A refusal is said with its number and position; words count from 0, the
 * head.
 *
 * Tried: an engine in C that finds 13 by a word of 64 bits for the sets and one
 * for the clears, and where these have a bit in common by a merge of the two
 * runs of words, stood in the library's place. Breaks of it were all reported:
 * the word of the last set or of the last clear alone, or by five bits of a
 * fact; of the merge that the first or the last word of either run is left out,
 * that both runs go on at a time, that only one does, or that no fact is ever
 * found in both.
 */
#include "borders.h"
#include "checks.h"
#include "harness.h"
#include "pulses.h"
#include "samples.h"
#include "ten.h"

static void print_answer(uint64_t answer)
{
    if (dulimoven_refusal_of(answer) != 0)
        printf("refusal %" PRIu32 " at %" PRIu32, dulimoven_refusal_of(answer),
               dulimoven_position_of(answer));
    else
        printf("accepted with F %" PRIu32 ", A %" PRIu32 ", C %" PRIu32
               " (payload %" PRIu64 ")",
               dulimoven_facts(answer), dulimoven_steps(answer),
               dulimoven_sequences(answer), answer);
}

static void compare(const char *name, uint64_t answer, uint64_t expected)
{
    ran++;
    if (answer == expected)
        return;
    failed++;
    printf("%s: expected ", name);
    print_answer(expected);
    printf(", answered ");
    print_answer(answer);
    printf("\n");
}

/* A sequence that no library has, asked about with an empty area. */
static uint64_t ask_far(void)
{
    return dulimoven_endless(area + GUARD, words, 300, NULL, 0);
}

/* The image under test is accepted with the payload of its head. */
static void accepts(const char *name)
{
    keep();
    compare(name, dulimoven_check(area + GUARD, words),
            payload_of(*word_at(0)));
    compare(name, ask_far(), REFUSED(9, 0));
    kept(name);
}

/* It gets refusal `number` at `position`. */
static void refuses(uint64_t number, uint64_t position, const char *name)
{
    keep();
    compare(name, dulimoven_check(area + GUARD, words),
            REFUSED(number, position));
    compare(name, ask_far(), REFUSED(number, position));
    kept(name);
}

/* The same of the words given and the sum word. */
#define ACCEPTS(name, ...)  \
    do {                    \
        BUILD(__VA_ARGS__); \
        accepts(name);      \
    } while (0)
#define REFUSES(number, position, name, ...) \
    do {                                     \
        BUILD(__VA_ARGS__);                  \
        refuses(number, position, name);     \
    } while (0)

/* The words given and no more. */
static void take(const uint32_t *given, size_t count)
{
    start();
    put_all(given, count);
}

static void samples(void)
{
    uint64_t answer = dulimoven_check(library_l, L_WORDS);
    compare("L", answer, 0x180603);
    hold("L has 3 facts", dulimoven_facts(answer) == 3);
    hold("L has 3 steps", dulimoven_steps(answer) == 3);
    hold("L has 3 sequences", dulimoven_sequences(answer) == 3);
    hold("L is not refused", dulimoven_refusal_of(answer) == 0);

    /* the builder's head and sum word are the printed ones */
    hold("L's head", HEAD(3, 3, 3) == library_l[0]);
    build(library_l, L_SUM);
    hold("L's sum word", *word_at(L_SUM) == library_l[L_SUM]);
    accepts("L with a sum word from the builder");

    /* 10000001 with its sum word is accepted, 10000000 gets 3 */
    take(no_sequence, COUNT(no_sequence));
    accepts("the empty library: A and C are 0, so nothing is missing");
    take(no_fact, COUNT(no_fact));
    refuses(3, 0, "F = 0: at least one fact is asked for");

    /* "256 and 257 replace the sample of 64 and 65" */
    ACCEPTS("F = 256", HEAD(256, 0, 0));
    REFUSES(3, 0, "F = 257", HEAD(257, 0, 0));
    ACCEPTS("F = 64", HEAD(64, 0, 0));
    ACCEPTS("F = 65", HEAD(65, 0, 0));

    build_borders();
    accepts("facts at the borders of a column's words");
}

/* Steps that keep every rule. */
static void accepted_steps(void)
{
    ACCEPTS("a step without a fact word", HEAD(1, 1, 0), STEP(0));
    ACCEPTS("three steps without a fact word", HEAD(1, 3, 0), STEP(0), STEP(1),
            STEP(2));
    ACCEPTS("a fact needed and set: kind 2 is below kind 3", HEAD(1, 1, 0),
            STEP(0), NEEDS(0), SETS(0));
    ACCEPTS("a fact needed and cleared: kind 2 is below kind 4", HEAD(1, 1, 0),
            STEP(0), NEEDS(0), CLEARS(0));
    ACCEPTS("one set, another cleared: kind 3 is below kind 4", HEAD(2, 1, 0),
            STEP(0), SETS(1), CLEARS(0));
    ACCEPTS("as 32-bit numbers 0x20000001 is below 0x30000000", HEAD(2, 1, 0),
            STEP(0), NEEDS(1), SETS(0));
    ACCEPTS("facts 0, 1, 2 ascend", HEAD(3, 1, 0), STEP(0), NEEDS(0), NEEDS(1),
            NEEDS(2));
    ACCEPTS("the highest fact, needed and set", HEAD(MOST_F, 1, 0), STEP(0),
            NEEDS(MOST_F - 1), SETS(MOST_F - 1));
    ACCEPTS("the highest fact, needed and cleared", HEAD(MOST_F, 1, 0),
            STEP(0), NEEDS(MOST_F - 1), CLEARS(MOST_F - 1));
    ACCEPTS("a step that begins below the last fact word of the one before",
            HEAD(1, 2, 0), STEP(0), CLEARS(0), STEP(1), NEEDS(0));
    ACCEPTS("a step that begins below it, with two facts", HEAD(2, 2, 0),
            STEP(0), CLEARS(1), STEP(1), NEEDS(0));
    ACCEPTS("the same fact word in two steps: the order is within a step",
            HEAD(1, 2, 0), STEP(0), CLEARS(0), STEP(1), CLEARS(0));
    ACCEPTS("facts 0, 64, 128 and 192 ascend", HEAD(256, 1, 0), STEP(0),
            SETS(0), SETS(64), SETS(128), SETS(192));
    ACCEPTS("facts 63 and 64, needed, set and cleared by turns",
            HEAD(256, 2, 0), STEP(0), NEEDS(63), NEEDS(64), SETS(63),
            CLEARS(64), STEP(1), NEEDS(64), SETS(64), CLEARS(63));
}

/* Sequences that do. */
static void accepted_sequences(void)
{
    ACCEPTS("A = 0, so a sequence comes at once; it has no alternative",
            HEAD(1, 0, 1), SEQUENCE(0));
    ACCEPTS("an alternative without entry", HEAD(1, 0, 1), SEQUENCE(0),
            ALTERNATIVE);
    ACCEPTS("two empty alternatives", HEAD(1, 0, 1), SEQUENCE(0), ALTERNATIVE,
            ALTERNATIVE);
    ACCEPTS("an entry names its own sequence", HEAD(1, 0, 1), SEQUENCE(0),
            ALTERNATIVE, CALL(0));
    ACCEPTS("an entry names a later sequence: 1 is below C", HEAD(1, 0, 2),
            SEQUENCE(0), ALTERNATIVE, CALL(1), SEQUENCE(1), ALTERNATIVE);
    ACCEPTS("an entry names a later sequence without alternative",
            HEAD(1, 0, 2), SEQUENCE(0), ALTERNATIVE, CALL(1), SEQUENCE(1));
    ACCEPTS("an entry names an earlier sequence, without alternative",
            HEAD(1, 0, 2), SEQUENCE(0), SEQUENCE(1), ALTERNATIVE, CALL(0));
    ACCEPTS("an entry stands after an entry, of either kind", HEAD(1, 1, 1),
            STEP(0), SEQUENCE(0), ALTERNATIVE, DO(0), CALL(0), DO(0));
    ACCEPTS("a kind 7 word stands after an entry; 1 is below A = 2",
            HEAD(2, 2, 1), STEP(0), NEEDS(0), STEP(1), CLEARS(1), SEQUENCE(0),
            ALTERNATIVE, DO(1), ALTERNATIVE, DO(0), DO(1));
    ACCEPTS("a sequence's opener stands right after another", HEAD(1, 1, 3),
            STEP(0), SETS(0), SEQUENCE(0), SEQUENCE(1), SEQUENCE(2),
            ALTERNATIVE, DO(0));
}

/* Checks that do. */
static void accepted_checks(void)
{
    size_t i;
    for (i = 0; i < COUNT(checks); i++) {
        build_checks(&checks[i]);
        accepts(checks[i].name);
    }
    ACCEPTS("a check alone, without a step", HEAD(1, 0, 1), SEQUENCE(0),
            ALTERNATIVE, CHECK(0));
    ACCEPTS("a check twice, and in the next alternative and sequence",
            HEAD(1, 0, 2), SEQUENCE(0), ALTERNATIVE, CHECK(0), CHECK(0),
            ALTERNATIVE, CHECK(0), SEQUENCE(1), ALTERNATIVE, CHECK(0));
    ACCEPTS("checks in falling order: no rule of steps", HEAD(3, 0, 1),
            SEQUENCE(0), ALTERNATIVE, CHECK(2), CHECK(1), CHECK(0));
    ACCEPTS("fact 2 of 3, with A = 0 and C = 1", HEAD(3, 0, 1), SEQUENCE(0),
            ALTERNATIVE, CHECK(2));
    ACCEPTS("the highest fact", HEAD(MOST_F, 0, 1), SEQUENCE(0), ALTERNATIVE,
            CHECK(MOST_F - 1));
}

/* 1: "The image has fewer than 2 or more than 8,192 words, position 0." */
static void length(void)
{
    static const struct {
        const char *name;
        uint32_t word;
    } alone[] = {
        {"a right head alone", HEAD(1, 0, 0)},
        {"L's head alone", HEAD(3, 3, 3)},
        {"a head with F = 0 alone: 1 comes before 3", HEAD(0, 0, 0)},
        {"a sum word alone, right for no words", WORD(KIND_SUM, 0)},
        {"a wrong sum word alone: 1 comes before 2", WORD(KIND_SUM, 1)},
        {"a zero word alone", WORD(0, 0)},
        {"a word of ones alone", WORD(15, PAYLOAD_MASK)},
        {"a step's opener alone", STEP(0)},
        {"a fact word alone", NEEDS(0)},
        {"a sequence's opener alone", SEQUENCE(0)},
        {"an alternative alone", ALTERNATIVE},
        {"an entry that names a step alone", DO(0)},
        {"an entry that names a sequence alone", CALL(0)},
        {"a check alone", CHECK(0)}};
    size_t i;
    compare("no word, a null pointer", dulimoven_check(NULL, 0), REFUSED(1, 0));
    start();
    refuses(1, 0, "no word");
    for (i = 0; i < COUNT(alone); i++) {
        take(&alone[i].word, 1);
        refuses(1, 0, alone[i].name);
    }
}

/* One sequence with empty alternatives, in an image of so many words. */
static void build_long(size_t count)
{
    start();
    PUT(HEAD(1, 0, 1), SEQUENCE(0));
    fill(ALTERNATIVE, count - 1);
    put_sum();
}

/* The same with another word before the sum word. */
static void build_long_ending(size_t count, uint32_t word)
{
    build_long(count);
    *word_at(count - 2) = word;
    sum_again();
}

static void longest(void)
{
    build_long(FULL);
    hold("8,192 words are built", words == 8192);
    accepts("8,192 words");
    miss_sum(-1);
    refuses(2, FULL - 1, "8,192 words with a wrong sum");
    build_long_ending(FULL, WORD(0, 0));
    refuses(4, FULL - 2, "kind 0 right before the sum word");
    build_long_ending(FULL, CALL(1));
    refuses(5, FULL - 2, "1 is not below C = 1, right before the sum word");
    build_long_ending(FULL, CHECK(0));
    accepts("a check right before the sum word");
    build_long_ending(FULL, CHECK(1));
    refuses(5, FULL - 2, "1 is not below F = 1, right before the sum word");
    start();
    PUT(HEAD(1, 0, 1), SEQUENCE(0), ALTERNATIVE);
    fill(CHECK(0), FULL - 1);
    put_sum();
    accepts("8,188 checks");

    build_long(FULL + 1);
    hold("8,193 words are built", words == 8193);
    refuses(1, 0, "8,193 words");
    miss_sum(1);
    refuses(1, 0, "8,193 words with a wrong sum: 1 comes before 2");
    start();
    put(HEAD(0, 0, 0));
    fill(ALTERNATIVE, FULL);
    put_sum();
    refuses(1, 0, "8,193 words with F = 0: 1 comes before 3");

    start();
    fill(WORD(0, 0), FULL);
    refuses(2, FULL - 1, "8,192 zero words: the last is of kind 0");
    start();
    fill(WORD(0, 0), FULL + 1);
    refuses(1, 0, "8,193 zero words: 1 comes before 2");
}

/* A head, and so many steps and sequences, without the sum word. */
static void put_counted(uint32_t head, uint32_t steps, uint32_t sequences)
{
    uint32_t i;
    start();
    put(head);
    for (i = 0; i < steps; i++)
        put(STEP(i));
    for (i = 0; i < sequences; i++)
        put(SEQUENCE(i));
}

static void build_counted(uint32_t head, uint32_t steps, uint32_t sequences)
{
    put_counted(head, steps, sequences);
    put_sum();
}

/*
 * Step i stands at 1 + i, and after A steps sequence i at 1 + A + i. The sum
 * word of 1,023 steps: the head counts 0x7fe01 + 1024, 1,024 times, and the
 * opener of step i counts i + 5120, 1,023 - i times: 1024 * 0x80201 + 178433024
 * + 1024 * 2618880 = 0xca82b000, of which 28 bits are a82b000.
 */
static void most_steps(void)
{
    build_counted(HEAD(1, MOST_A, 0), MOST_A, 0);
    hold("1,023 steps in 1,025 words",
         words == 1025 && *word_at(0) == 0x1007fe01 &&
             *word_at(1024) == 0xfa82b000);
    accepts("as many steps as there can be");
    build_counted(HEAD(1, MOST_A, 0), MOST_A + 1, 0);
    refuses(5, 1 + MOST_A, "a step more: the next number, but not below A");
    build_counted(HEAD(1, MOST_A, 0), MOST_A - 1, 0);
    refuses(7, MOST_A, "a step less");
    build_counted(HEAD(1, MOST_A, 1), MOST_A - 1, 0);
    refuses(7, MOST_A, "a step less, and no sequence of one");
    build_counted(HEAD(1, MOST_A, 1), MOST_A - 1, 1);
    refuses(4, MOST_A, "a step less, and then a sequence");
    put_counted(HEAD(1, MOST_A, 1), MOST_A, 1);
    PUT(ALTERNATIVE, DO(MOST_A));
    put_sum();
    refuses(5, 1 + MOST_A + 2, "an entry names step A");
}

static void most_sequences(void)
{
    build_counted(HEAD(1, 0, MOST_C), 0, MOST_C);
    accepts("as many sequences as there can be");
    build_counted(HEAD(1, 0, MOST_C), 0, MOST_C + 1);
    refuses(5, 1 + MOST_C, "a sequence more: the next, but not below C");
    build_counted(HEAD(1, 0, MOST_C), 0, MOST_C - 1);
    refuses(7, MOST_C, "a sequence less");
}

static void most_of_all(void)
{
    static const uint32_t most = HEAD(MOST_F, MOST_A, MOST_C);
    build_counted(most, MOST_A, MOST_C);
    accepts("the greatest counts");
    build_counted(most, MOST_A, MOST_C - 1);
    refuses(7, MOST_A + MOST_C, "the greatest counts, a sequence less");
    build_counted(most, MOST_A - 1, 0);
    refuses(7, MOST_A, "the greatest counts, a step less");
    build_counted(most, MOST_A - 1, 1);
    refuses(4, MOST_A, "the greatest counts, a sequence before the last step");
    build_counted(most, MOST_A + 1, 0);
    refuses(5, 1 + MOST_A, "the greatest counts, a step more");
    build_counted(most, MOST_A, MOST_C + 1);
    refuses(5, 1 + MOST_A + MOST_C, "the greatest counts, a sequence more");

    /* the last sequence has an alternative up to the sum word, half of it
       steps */
    put_counted(most, MOST_A, MOST_C);
    put(ALTERNATIVE);
    fill(DO(MOST_A - 1), (words + FULL - 1) / 2);
    fill(CALL(MOST_C - 1), FULL - 1);
    put_sum();
    accepts("the greatest counts in 8,192 words");
}

/* Fact words of a kind, for the facts from `from` up to and without `to`. */
static void put_facts(uint32_t kind, uint32_t from, uint32_t to)
{
    for (; from < to; from++)
        put(WORD(kind, from));
}

/*
 * A step that needs all facts, sets those below `set` and clears those from
 * `cleared` up, without the sum word. Its fact words stand from 2 on.
 */
static void put_step(uint32_t set, uint32_t cleared)
{
    start();
    PUT(HEAD(MOST_F, 1, 0), STEP(0));
    put_facts(KIND_NEEDS, 0, MOST_F);
    put_facts(KIND_SETS, 0, set);
    put_facts(KIND_CLEARS, cleared, MOST_F);
}

static void all_facts(void)
{
    enum { HALF = MOST_F / 2 };
    put_step(HALF, HALF);
    put_sum();
    accepts("all facts needed, half of them set and the others cleared");
    put_step(HALF, HALF);
    put(CLEARS(MOST_F - 1));
    put_sum();
    refuses(6, 2 + 2 * MOST_F, "the same, and the last fact word twice");
    put_step(MOST_F, MOST_F);
    put_sum();
    accepts("all facts needed and set");
    put_step(0, 0);
    put_sum();
    accepts("all facts needed and cleared");
    put_step(MOST_F, 0);
    put_sum();
    refuses(13, 2 + 2 * MOST_F, "all fact words: the first clear word");
    put_step(HALF, HALF - 1);
    put_sum();
    refuses(13, 2 + MOST_F + HALF, "half set, and the last of them cleared");
    put_step(MOST_F, MOST_F - 1);
    put_sum();
    refuses(13, 2 + 2 * MOST_F, "all facts set, and the last one cleared");
}

/*
 * Steps whose sets and clears agree in their last six bits, so that a word of
 * 64 bits for the facts of each would not tell them apart: 13 exactly where a
 * clear word names a fact that is set, at the first such word. `kinds` says of
 * each fact whether it is set, cleared, both or neither.
 */
enum { NEITHER, SET_ONLY, CLEARED_ONLY, SET_AND_CLEARED };

static void build_kinds(uint32_t facts, const unsigned char *kinds)
{
    uint32_t f;
    start();
    PUT(HEAD(facts, 2, 0), STEP(0), NEEDS(0), STEP(1), NEEDS(facts - 1));
    for (f = 0; f < facts; f++)
        if (kinds[f] & SET_ONLY)
            put(SETS(f));
    for (f = 0; f < facts; f++)
        if (kinds[f] & CLEARED_ONLY)
            put(CLEARS(f));
    put_sum();
}

static void judge_kinds(const char *name, uint32_t facts,
                        const unsigned char *kinds)
{
    /* the step's first set word stands at 5 */
    size_t at = 5;
    uint32_t f;
    build_kinds(facts, kinds);
    for (f = 0; f < facts; f++)
        at += kinds[f] & SET_ONLY;
    for (f = 0; f < facts && kinds[f] != SET_AND_CLEARED; f++)
        at += kinds[f] == CLEARED_ONLY;
    if (f < facts)
        refuses(13, at, name);
    else
        accepts(name);
}

/* The blocks of 64 facts by turns set and cleared; then in addition one that is
 * set is cleared, each in turn: the first clear word, any, and the last. */
static void clash_in_blocks(uint32_t set_first)
{
    unsigned char kinds[MOST_F];
    uint32_t f;
    for (f = 0; f < MOST_F; f++)
        kinds[f] = f / 64 % 2 == set_first ? SET_ONLY : CLEARED_ONLY;
    judge_kinds("blocks of 64 facts set and cleared by turns", MOST_F, kinds);
    for (f = 0; f < MOST_F; f++) {
        unsigned char before = kinds[f];
        kinds[f] = SET_AND_CLEARED;
        judge_kinds("the same, and one fact more is set or cleared", MOST_F,
                    kinds);
        kinds[f] = before;
    }
}

/* A few facts with the same last six bits: set, cleared, both or neither, in
 * all 256 ways for four of them. */
static void clash_in_four(uint32_t fact)
{
    unsigned ways;
    for (ways = 0; ways < 256; ways++) {
        unsigned char kinds[MOST_F] = {0};
        uint32_t block;
        for (block = 0; block < 4; block++)
            kinds[64 * block + fact] = ways >> 2 * block & 3;
        judge_kinds("four facts with the same last six bits", MOST_F, kinds);
    }
}

/* Facts set and cleared at random, so many of 64 of each, and then two of them
 * both: the earlier decides. */
static void clash_at_random(void)
{
    unsigned char kinds[MOST_F];
    uint32_t state = 8, n, f;
    for (n = 0; n < 600; n++) {
        uint32_t of = 1 + n % 32, facts = n % 3 == 0 ? 256 : 65 + n % 191;
        for (f = 0; f < facts; f++) {
            state = state * 1664525u + 1013904223u;
            kinds[f] = state >> 26 < of       ? SET_ONLY
                       : state >> 26 < 2 * of ? CLEARED_ONLY
                                              : NEITHER;
        }
        judge_kinds("facts at random", facts, kinds);
        kinds[n * 37 % facts] = SET_AND_CLEARED;
        judge_kinds("facts at random, and one set and cleared", facts, kinds);
        kinds[n * 101 % facts] = SET_AND_CLEARED;
        judge_kinds("facts at random, and two set and cleared", facts, kinds);
    }
}

static void clashes(void)
{
    unsigned char kinds[MOST_F] = {0};
    clash_in_blocks(0);
    clash_in_blocks(1);
    clash_in_four(0);
    clash_in_four(31);
    clash_in_four(63);
    clash_at_random();

    /* the first set and the last cleared, and the other way round */
    kinds[0] = SET_ONLY;
    kinds[192] = CLEARED_ONLY;
    judge_kinds("0 set, 192 cleared", 256, kinds);
    kinds[0] = CLEARED_ONLY;
    kinds[192] = SET_ONLY;
    judge_kinds("0 cleared, 192 set", 256, kinds);

    /* with another fault beside it: the earliest word decides */
    REFUSES(6, 6, "64 cleared where 0 is set, then 64 once more",
            HEAD(256, 1, 0), STEP(0), SETS(0), SETS(128), CLEARS(64),
            CLEARS(192), CLEARS(64));
    REFUSES(13, 5, "128 cleared, which is set, then a word out of order",
            HEAD(256, 1, 0), STEP(0), SETS(0), SETS(128), CLEARS(64),
            CLEARS(128), CLEARS(64));
    REFUSES(5, 5, "64 cleared where 0 is set, then a fact not below F",
            HEAD(200, 1, 0), STEP(0), SETS(0), SETS(128), CLEARS(64),
            CLEARS(200));
    REFUSES(13, 5, "in the second step, after one that sets another fact",
            HEAD(256, 2, 0), STEP(0), SETS(64), STEP(1), SETS(0), CLEARS(0));
    ACCEPTS("a step clears what the one before it sets, modulo 64 too",
            HEAD(256, 2, 0), STEP(0), SETS(64), SETS(191), STEP(1), SETS(0),
            SETS(63), CLEARS(64), CLEARS(191));
}

/* The sum word's payload is so much greater than the right one. */
#define WRONG_SUM(by, name, ...)     \
    do {                             \
        BUILD(__VA_ARGS__);          \
        miss_sum(by);                \
        refuses(2, words - 1, name); \
    } while (0)

/*
 * 2: "The last word is not of kind 15 or has another payload than the rule
 * gives, its position." The builder's sum word is the right one, and the rows
 * say how far the one that is tried is from it.
 */
static void wrong_sums(void)
{
    /* the head counts 1 + 1024, so the right payload is 0x401 */
    WRONG_SUM(-1, "one too low: 1,023 for 1,024", HEAD(1, 0, 0));
    WRONG_SUM(1, "one too high", HEAD(1, 0, 0));
    WRONG_SUM(-0x400, "without the kind", HEAD(1, 0, 0));
    WRONG_SUM(-0x401, "the payload for no earlier words", HEAD(1, 0, 0));
    WRONG_SUM(0x10000, "wrong in bit 16", HEAD(1, 0, 0));
    WRONG_SUM(0x8000000, "wrong in the highest payload bit", HEAD(1, 0, 0));
    /* the words count 0x80401, 0x1800, 0x1c00 and 0x1c00; the running sums are
       0x80401, 0x81c01, 0x83801 and 0x85401, so b is 0x20ac04 */
    WRONG_SUM(0x85401 - 0x20ac04, "the running sum and not those before it",
              HEAD(1, 0, 1), SEQUENCE(0), ALTERNATIVE, ALTERNATIVE);
    WRONG_SUM(-0x85401, "the running sums before each word", HEAD(1, 0, 1),
              SEQUENCE(0), ALTERNATIVE, ALTERNATIVE);
    WRONG_SUM(0x8f801 - 0x20ac04, "the words from the last to the first",
              HEAD(1, 0, 1), SEQUENCE(0), ALTERNATIVE, ALTERNATIVE);
    /* 0xfffffff + 0x400 is 0x100003ff, so 0x3ff is right */
    WRONG_SUM(1, "2^28 is reached, and 1 is kept of it",
              WORD(KIND_HEAD, PAYLOAD_MASK));
    /* 0x3c00 is right */
    WRONG_SUM(-0x3c00, "a sum word twice: 2 comes before 3", WORD(KIND_SUM, 0));
    WRONG_SUM(-1, "F = 0: 2 comes before 3", HEAD(0, 0, 0));
    WRONG_SUM(-1, "a head in the middle: 2 comes before 4", HEAD(1, 0, 0),
              HEAD(1, 0, 0));
    WRONG_SUM(-1, "no step of one: 2 comes before 7", HEAD(1, 1, 0));
}

/* L's sum word is f1d65e90. */
static void wrong_sums_of_l(void)
{
    static const struct {
        const char *name;
        uint32_t sum;
    } wrong[] = {{"L with a sum one too low", 0xf1d65e8f},
                 {"L with a sum one too high", 0xf1d65e91},
                 {"L with the right payload under kind 14", 0xe1d65e90},
                 {"L with the right payload under kind 7", 0x71d65e90},
                 {"L with a sum that differs in bit 20", 0xf1c65e90},
                 {"L with its sum word of the rule before", 0xf018061a},
                 {"L with the sum word that it had with another head",
                  0xf0f20910}};
    size_t i;
    for (i = 0; i < COUNT(wrong); i++) {
        take(library_l, L_SUM);
        put(wrong[i].sum);
        refuses(2, L_SUM, wrong[i].name);
    }
    take(library_l, L_SUM);
    refuses(2, L_SUM - 1, "L without its sum word: the last word is an entry");
    take(library_l, L_WORDS);
    *word_at(2) = SETS(1);
    refuses(2, L_SUM, "L under its own sum word, but step 0 sets fact 1");
}

/* Two words change places. */
static void exchange(size_t i, size_t j)
{
    uint32_t word = *word_at(i);
    *word_at(i) = *word_at(j);
    *word_at(j) = word;
}

/* They do, the image gets 2, and once they are back it is as it was. */
static void exchanged(size_t i, size_t j, const char *name)
{
    exchange(i, j);
    refuses(2, words - 1, name);
    exchange(i, j);
    accepts(name);
}

/*
 * "An accepted image in which two different entries change places then gets 2".
 * Where the one at j counts d more than the one at i, b is (j - i) * d more.
 */
static void exchanged_entries(void)
{
    take(library_l, L_WORDS);
    /* 8193 - 9216 is -1023, so b would be 0x1d65a91 */
    exchanged(14, 15, "L with 90000000 and 80000001 exchanged");
    /* 4 * (9216 - 8192) is 0x1000, so b would be 0x1d66e90 */
    exchanged(10, 14, "L with 80000000 and 90000000 exchanged");
    /* 8 * (9218 - 8192) is 0x2010, so b would be 0x1d67ea0 */
    exchanged(10, 18, "L with 80000000 and 90000002 exchanged");
    exchange(9, 13);
    accepts("L with its openers at 9 and 13 exchanged, which are equal");

    /* the words count 526338, 5120, 5121, 6144, 7168, 8193, 9216 and 13313,
       taken 8 times, 7 times and so on: 4392986, which is 0x43081a */
    start();
    PUT(0x10080402, 0x50000000, 0x50000001, 0x60000000, 0x70000000, 0x80000001,
        0x90000000, 0xd0000001, 0xf043081a);
    accepts("an entry of each kind");
    exchanged(5, 6, "a step and a sequence exchanged");
    exchanged(5, 7, "a step and a check exchanged");
    exchanged(6, 7, "a sequence and a check exchanged");

    /* 8186 * (13567 - 8192) is 43999750, below 2^28 */
    start();
    PUT(HEAD(MOST_F, 1, 1), STEP(0), SEQUENCE(0), ALTERNATIVE);
    fill(DO(0), FULL - 2);
    put(CHECK(MOST_F - 1));
    put_sum();
    hold("a check stands at 8,190", words == FULL);
    exchanged(4, FULL - 2, "entries at both ends of 8,192 words exchanged");
    exchanged(FULL - 3, FULL - 2, "the last two of them exchanged");
}

/* Entries in two alternatives, of one sequence or of two. */
static void exchanged_far(void)
{
    enum { FIRST_ENTRY = 5 };
    BUILD(HEAD(2, 2, 2), STEP(0), STEP(1),
          SEQUENCE(0), ALTERNATIVE, DO(0), DO(1), ALTERNATIVE, CALL(0), CALL(1),
          SEQUENCE(1), ALTERNATIVE, CHECK(0), CHECK(1));
    exchanged(FIRST_ENTRY, FIRST_ENTRY + 1, "two steps");
    exchanged(FIRST_ENTRY, FIRST_ENTRY + 3, "in two alternatives");
    exchanged(FIRST_ENTRY + 3, FIRST_ENTRY + 4, "two sequences");
    exchanged(FIRST_ENTRY + 1, FIRST_ENTRY + 7, "in two sequences");
    exchanged(FIRST_ENTRY + 7, FIRST_ENTRY + 8, "two checks");
}

/*
 * The images that were issued again, and some whose sum is past 2^28. A word
 * of ones counts 0xfffffff + 15 * 1024, which is 0x10003bff.
 */
static void issued_again(void)
{
    static const struct {
        const char *name;
        uint64_t number, position;
        size_t count;
        uint32_t words[19];
    } rows[] = {
        {"one fact and nothing else", 0, 0, 2, {0x10000001, 0xf0000401}},
        {"no fact", 3, 0, 2, {0x10000000, 0xf0000400}},
        {"256 facts", 0, 0, 2, {0x10000100, 0xf0000500}},
        {"257 facts", 3, 0, 2, {0x10000101, 0xf0000501}},
        {"511 facts", 3, 0, 2, {0x100001ff, 0xf00005ff}},
        {"<itself>, <>", 0, 0, 6,
         {0x10080001, 0x60000000, 0x70000000, 0x90000000, 0x70000000,
          0xf0292c05}},
        {"<set, endless>, <clear>", 0, 0, 15,
         {0x10100401, 0x50000000, 0x30000000, 0x50000001, 0x40000000,
          0x60000000, 0x70000000, 0x80000000, 0x90000001, 0x70000000,
          0x80000001, 0x60000001, 0x70000000, 0x90000001, 0xf0e8a027}},
        {"<clear, need>", 0, 0, 10,
         {0x10080401, 0x50000000, 0x40000000, 0x50000001, 0x20000000,
          0x60000000, 0x70000000, 0x80000000, 0x80000001, 0xf04b0c10}},
        {"a step sets and clears a fact", 13, 3, 8,
         {0x10080201, 0x50000000, 0x30000000, 0x40000000, 0x60000000,
          0x70000000, 0x80000000, 0xf039be07}},
        {"fact 256 of 256", 5, 2, 4,
         {0x10000300, 0x50000000, 0x30000100, 0xf0004a00}},
        {"fact 65 of 65", 5, 2, 4,
         {0x10000241, 0x50000000, 0x30000041, 0xf0004704}},
        {"fact 64 of 65", 0, 0, 4,
         {0x10000241, 0x50000000, 0x30000040, 0xf0004703}},
        {"a check of fact 200 of 200", 5, 3, 5,
         {0x100800c8, 0x60000000, 0x70000000, 0xd00000c8, 0xf020c7e8}},
        {"fact 191 set and cleared", 13, 3, 5,
         {0x10000300, 0x50000000, 0x300000bf, 0x400000bf, 0xf000823d}},
        {"fact 127 set, 191 cleared", 0, 0, 5,
         {0x10000300, 0x50000000, 0x3000007f, 0x400000bf, 0xf00081bd}},
        {"fact 191 set, 255 cleared", 0, 0, 5,
         {0x10000300, 0x50000000, 0x300000bf, 0x400000ff, 0xf000827d}},
        /* 0x10000000 + 0x3ff */
        {"a head with every payload bit", 3, 0, 2, {0x1fffffff, 0xf00003ff}},
        /* 0x8000001 + 0x400: bit 27 is the highest of C */
        {"256 sequences, and none is there", 7, 1, 2, {0x18000001, 0xf8000401}},
        {"257 sequences", 3, 0, 2, {0x18080001, 0xf8080401}},
        /* 2 * 0x401 + 0x10003bff is 0x10004401 */
        {"a word of ones", 4, 1, 3, {0x10000001, 0xffffffff, 0xf0004401}},
        /* 4 * 0x401 + 6 * 0x10003bff is 0x600177fe, past 2^28 */
        {"three words of ones", 4, 1, 5,
         {0x10000001, 0xffffffff, 0xffffffff, 0xffffffff, 0xf00177fe}},
        /* 7 * 0x401 + 21 * 0x10003bff is 0x1500507f2, the first past 2^32 */
        {"six words of ones", 4, 1, 8,
         {0x10000001, 0xffffffff, 0xffffffff, 0xffffffff, 0xffffffff,
          0xffffffff, 0xffffffff, 0xf00507f2}},
        /* 18 * 0x401 + 153 * 0x10003bff is 0x990242379; the running sum is
           past 2^32 from the sixteenth of them on */
        {"17 words of ones", 4, 1, 19,
         {0x10000001, 0xffffffff, 0xffffffff, 0xffffffff, 0xffffffff,
          0xffffffff, 0xffffffff, 0xffffffff, 0xffffffff, 0xffffffff,
          0xffffffff, 0xffffffff, 0xffffffff, 0xffffffff, 0xffffffff,
          0xffffffff, 0xffffffff, 0xffffffff, 0xf0242379}}};
    size_t i;
    for (i = 0; i < COUNT(rows); i++) {
        take(rows[i].words, rows[i].count);
        if (rows[i].number == 0)
            accepts(rows[i].name);
        else
            refuses(rows[i].number, rows[i].position, rows[i].name);
        sum_again();
        hold(rows[i].name,
             *word_at(words - 1) == rows[i].words[rows[i].count - 1]);
        miss_sum(1);
        refuses(2, words - 1, rows[i].name);
    }

    /* 8191 * 8192 / 2 times 0x10003bff is 0x1fff77fa401000 */
    start();
    fill(WORD(15, PAYLOAD_MASK), FULL - 1);
    put(0xfa401000);
    refuses(3, 0, "8,191 words of ones");
    miss_sum(-1);
    refuses(2, FULL - 1, "8,191 words of ones, one too low");
    /* the head counts 525313, a sequence 6144 and an alternative 7168. Taken
       8191, 8190, and 8189 times and so on to once: 525313 * 8191 + 6144 * 8190
       + 7168 * 8189 * 8190 / 2 is 0x38fab83fff */
    build_long(FULL);
    hold("8,192 words, the sum word", *word_at(FULL - 1) == 0xfab83fff);
    accepts("8,192 words with this sum word");
}

/*
 * Images as they were before request 8, with a head that held F in bits 0 to 6,
 * A in bits 7 to 17 and C in bits 18 to 26: their sum words are right, and the
 * head is read as any other.
 */
static void old_heads(void)
{
    static const struct {
        const char *name;
        uint64_t number, position;
        size_t count;
        uint32_t words[20];
    } rows[] = {
        {"one fact", 0, 0, 2, {0x10000001, 0xf0000401}},
        {"64 facts", 0, 0, 2, {0x10000040, 0xf0000440}},
        {"65 facts, which were refused", 0, 0, 2, {0x10000041, 0xf0000441}},
        {"no fact", 3, 0, 2, {0x10000000, 0xf0000400}},
        /* F = 387 */
        {"L", 3, 0, 20,
         {0x100c0183, 0x50000000, 0x30000000, 0x50000001, 0x20000000,
          0x30000001, 0x50000002, 0x40000001, 0x60000000, 0x70000000,
          0x80000000, 0x70000000, 0x60000001, 0x70000000, 0x90000000,
          0x80000001, 0x60000002, 0x70000000, 0x90000002, 0xf0f20910}},
        /* F = 1, A = 512, C = 0: a sequence before the steps are there */
        {"<itself>, <>", 4, 1, 6,
         {0x10040001, 0x60000000, 0x70000000, 0x90000000, 0x70000000,
          0xf0152c05}},
        /* F = 257 */
        {"<set, endless>, <clear>", 3, 0, 15,
         {0x10080101, 0x50000000, 0x30000000, 0x50000001, 0x40000000,
          0x60000000, 0x70000000, 0x80000000, 0x90000001, 0x70000000,
          0x80000001, 0x60000001, 0x70000000, 0x90000001, 0xf0787627}},
        {"<clear, need>", 3, 0, 10,
         {0x10040101, 0x50000000, 0x40000000, 0x50000001, 0x20000000,
          0x60000000, 0x70000000, 0x80000000, 0x80000001, 0xf026f110}},
        /* F = 129, A = 512, C = 0 */
        {"a step sets and clears a fact", 13, 3, 8,
         {0x10040081, 0x50000000, 0x30000000, 0x40000000, 0x60000000,
          0x70000000, 0x80000000, 0xf01db387}}};
    size_t i;
    for (i = 0; i < COUNT(rows); i++) {
        take(rows[i].words, rows[i].count);
        if (rows[i].number == 0)
            accepts(rows[i].name);
        else
            refuses(rows[i].number, rows[i].position, rows[i].name);
    }
    /* 10100203 is F = 3, A = 1 and C = 2: step 1, at 3, is not below A */
    BUILD(SETUP);
    *word_at(0) = 0x10100203;
    sum_again();
    hold("the old sum word of setup", *word_at(words - 1) == 0xf273d251);
    refuses(5, 3, "setup with its old head");
    BUILD(SKIP);
    *word_at(0) = 0x10100203;
    sum_again();
    hold("the old sum word of skip", *word_at(words - 1) == 0xf288d473);
    refuses(5, 3, "skip with its old head");
    /* 10280081 is F = 129, A = 0 and C = 5: step 0 is not below A */
    build(ten, TEN_SUM);
    *word_at(0) = 0x10280081;
    sum_again();
    hold("the old sum word of ten sequences",
         *word_at(words - 1) == 0xf74ba05b);
    refuses(5, 1, "ten sequences with their old head");
}

/*
 * An image of so many words: a head, a step, a sequence, an alternative, and
 * entries of each kind by turns.
 */
static void build_mixed(size_t count)
{
    start();
    put(HEAD(MOST_F, count > 2, count > 3));
    if (count > 2)
        put(STEP(0));
    if (count > 3)
        put(SEQUENCE(0));
    if (count > 4)
        put(ALTERNATIVE);
    while (words + 1 < count) {
        uint32_t turn = (uint32_t)(words % 7);
        put(turn == 0   ? CALL(0)
            : turn == 3 ? DO(0)
                        : CHECK((uint32_t)(words * 5 % MOST_F)));
    }
    put_sum();
}

/*
 * The word at `position` becomes one that counts `more`. It is in so many
 * running sums as there are words from it up to the sum word, so the payload of
 * that is so many times `more` greater: with it the image does not get 2, with
 * the one before and with one that is wrong by one word's turn it does.
 */
static void counts_more(size_t position, uint32_t by, uint32_t more)
{
    uint32_t word = *word_at(position), sum = *word_at(words - 1);
    uint32_t turns = (uint32_t)(words - 1 - position);
    *word_at(position) = word + by;
    refuses(2, words - 1, "a word is changed");
    *word_at(words - 1) = WORD(KIND_SUM, payload_of(sum + (turns + 1) * more));
    refuses(2, words - 1, "a word is changed, and counts once too often");
    *word_at(words - 1) = WORD(KIND_SUM, payload_of(sum + (turns - 1) * more));
    if (turns > 1)
        refuses(2, words - 1, "a word is changed, and counts once too seldom");
    *word_at(words - 1) = WORD(KIND_SUM, payload_of(sum + turns * more));
    keep();
    hold("a word is changed, and the sum word is right again",
         dulimoven_refusal_of(dulimoven_check(area + GUARD, words)) !=
             DULIMOVEN_SUM_WORD);
    kept("a word is changed, and the sum word is right again");
    *word_at(position) = word;
    *word_at(words - 1) = sum;
}

/*
 * Every length up to 40 and the four greatest: words that are summed up four at
 * a time leave each rest. The payload of a word is 1 greater, or its kind, or
 * its payload is greater by 2^20 - 1, which a few turns take past 2^28; in long
 * images that is done to words at both ends and to some between.
 */
static void each_rest(void)
{
    enum { SHORT = 40, ENDS = 16, BETWEEN = 61, MUCH = 0xfffff };
    size_t count, i;
    for (count = 2; count <= FULL; count++) {
        if (count == SHORT + 1)
            count = FULL - 3;
        build_mixed(count);
        hold("so many words are built", words == count);
        accepts("a length with each rest");
        miss_sum(1);
        refuses(2, count - 1, "a length with each rest, a wrong sum");
        miss_sum(-1);
        for (i = 0; i + 1 < count; i++) {
            if (i >= ENDS && i + ENDS < count && i % BETWEEN != 0)
                continue;
            counts_more(i, 1, 1);
            counts_more(i, UINT32_C(1) << PAYLOAD_BITS, 1024);
            counts_more(i, MUCH, MUCH);
        }
        accepts("a length with each rest, as it was");
    }
}

static void wrong_kind_of_sum(void)
{
    uint32_t kind;
    for (kind = 0; kind < KIND_SUM; kind++) {
        BUILD(HEAD(1, 0, 0));
        *word_at(1) = WORD(kind, payload_of(*word_at(1)));
        refuses(2, 1, "the right payload under another kind");
    }
    start();
    PUT(WORD(0, 0), WORD(0, 0));
    refuses(2, 1, "two zero words: kind 0 in place of 15");
    BUILD(HEAD(1, 0, 0));
    put(WORD(0, 0));
    refuses(2, 2, "a zero word after a right image: the last word decides");
}

/* 3: "The first word breaks the rule for the head, position 0." */
static void head(void)
{
    uint32_t facts, sequences;
    for (facts = 0; facts < 1 << HEAD_FACTS_BITS; facts++) {
        BUILD(HEAD(facts, 0, 0));
        if (facts >= 1 && facts <= MOST_F)
            accepts("F from 1 to 256");
        else
            refuses(3, 0, "F is 0, or above 256");
    }
    for (sequences = 1; sequences < 1 << HEAD_SEQUENCES_BITS; sequences++) {
        BUILD(HEAD(MOST_F, MOST_A, sequences));
        if (sequences <= MOST_C)
            refuses(7, 1, "C up to 256, and neither step nor sequence");
        else
            refuses(3, 0, "C above 256: 3 comes before 7");
    }
    REFUSES(7, 1, "all bits of A, which is 1,023: no A is out of range",
            HEAD(1, (1 << HEAD_STEPS_BITS) - 1, 0));
    REFUSES(3, 0, "1,024 steps are one sequence and no step, and no fact",
            HEAD(0, MOST_A + 1, 0));
    REFUSES(7, 1, "1,024 steps are one sequence and no step",
            HEAD(1, MOST_A + 1, 0));
    REFUSES(3, 0, "F and C out of range", HEAD(0, MOST_A, MOST_C + 1));
    REFUSES(3, 0, "every payload bit", WORD(KIND_HEAD, PAYLOAD_MASK));
    REFUSES(3, 0, "F = 0: 3 comes before 4", HEAD(0, 0, 0), WORD(0, 0));
    REFUSES(3, 0, "F = 0, so fact 0 is not below F: 3 comes before 5",
            HEAD(0, 1, 0), STEP(0), NEEDS(0));
    REFUSES(3, 0, "F above the greatest, no step of one: 3 comes before 7",
            HEAD(MOST_F + 1, 1, 0));
    build(library_l, L_SUM);
    *word_at(0) = HEAD(0, 3, 3);
    sum_again();
    refuses(3, 0, "L with F = 0");
}

/* "Kind 1, head": no other kind, with a payload that a head can have or 0. */
static void kind_of_head(void)
{
    uint32_t kind;
    for (kind = 0; kind <= KIND_SUM; kind++) {
        if (kind == KIND_HEAD)
            continue;
        BUILD(WORD(kind, payload_of(HEAD(1, 0, 0))));
        refuses(3, 0, "a head's payload under another kind");
        BUILD(WORD(kind, 0));
        refuses(3, 0, "another kind and no payload");
    }
}

/*
 * 4: "A word between them has a kind that may not stand there, its position."
 * Kinds 10 to 12 are words of a chain's links, and kind 14 is none yet.
 */
static void kind_nowhere(void)
{
    static const uint32_t nowhere[] = {0, 1, 10, 11, 12, 14, 15};
    size_t i;
    uint32_t payload;
    for (i = 0; i < COUNT(nowhere); i++) {
        for (payload = 0; payload < 2; payload++) {
            BUILD(HEAD(1, 0, 0), WORD(nowhere[i], payload));
            refuses(4, 1, "a kind that stands nowhere between");
        }
    }
    BUILD(HEAD(1, 0, 0));
    put_sum();
    refuses(4, 1, "a sum word that is right there, but not the last word");
    REFUSES(4, 3, "kind 15 among alternatives", HEAD(1, 0, 1), SEQUENCE(0),
            ALTERNATIVE, WORD(KIND_SUM, 0));
    REFUSES(4, 2, "kind 0 after a step's opener", HEAD(1, 1, 0), STEP(0),
            WORD(0, 0));
    REFUSES(4, 3, "kind 14 among alternatives", HEAD(2, 0, 1), SEQUENCE(0),
            ALTERNATIVE, WORD(14, 0));
    REFUSES(4, 4, "kind 14 after a check", HEAD(2, 0, 1), SEQUENCE(0),
            ALTERNATIVE, CHECK(0), WORD(14, 0));
    REFUSES(4, 2, "kind 14 after a step's opener", HEAD(1, 1, 0), STEP(0),
            WORD(14, 0));
    start();
    put_all(library_l, L_SUM - 1);
    PUT(WORD(0, 0), CALL(2));
    put_sum();
    refuses(4, L_SUM - 1, "L with a zero word before its last entry");
}

/* "A kind 2, 3 or 4 word stands only after a step's opener or another such". */
static void kind_of_fact_word(void)
{
    REFUSES(4, 1, "a need after the head", HEAD(1, 0, 0), NEEDS(0));
    REFUSES(4, 1, "a set after the head", HEAD(1, 0, 0), SETS(0));
    REFUSES(4, 1, "a clear after the head", HEAD(1, 0, 0), CLEARS(0));
    REFUSES(4, 2, "a need after a sequence's opener", HEAD(1, 0, 1),
            SEQUENCE(0), NEEDS(0));
    REFUSES(4, 2, "a set after a sequence's opener", HEAD(1, 0, 1), SEQUENCE(0),
            SETS(0));
    REFUSES(4, 3, "a set after an alternative", HEAD(1, 0, 1), SEQUENCE(0),
            ALTERNATIVE, SETS(0));
    REFUSES(4, 5, "a clear after an entry that names a step", HEAD(1, 1, 1),
            STEP(0), SEQUENCE(0), ALTERNATIVE, DO(0), CLEARS(0));
    REFUSES(4, 4, "a set after an entry that names a sequence", HEAD(1, 0, 1),
            SEQUENCE(0), ALTERNATIVE, CALL(0), SETS(0));
    REFUSES(4, 1, "a need after the head, not below F: 4 comes before 5",
            HEAD(1, 0, 0), NEEDS(1));
}

/*
 * "A kind 5 word stands only before the first kind 6, a kind 6 word only once A
 * steps have been opened."
 */
static void kind_of_opener(void)
{
    REFUSES(4, 2, "a step after a sequence; 0 is not below A = 0 either",
            HEAD(1, 0, 1), SEQUENCE(0), STEP(0));
    REFUSES(4, 3, "a step after a sequence, with A steps there", HEAD(1, 1, 1),
            STEP(0), SEQUENCE(0), STEP(1));
    REFUSES(4, 4, "step 0 after an alternative", HEAD(1, 1, 1), STEP(0),
            SEQUENCE(0), ALTERNATIVE, STEP(0));
    REFUSES(4, 4, "step 1 after an alternative", HEAD(1, 1, 1), STEP(0),
            SEQUENCE(0), ALTERNATIVE, STEP(1));
    REFUSES(4, 5, "step 0 after an entry", HEAD(1, 1, 1), STEP(0), SEQUENCE(0),
            ALTERNATIVE, DO(0), STEP(0));
    REFUSES(4, 5, "step 1 after an entry", HEAD(1, 1, 1), STEP(0), SEQUENCE(0),
            ALTERNATIVE, DO(0), STEP(1));
    REFUSES(4, 1, "a sequence with none of one step: 4 comes before 7",
            HEAD(1, 1, 1), SEQUENCE(0));
    REFUSES(4, 2, "a sequence with one of two steps", HEAD(1, 2, 1), STEP(0),
            SEQUENCE(0), ALTERNATIVE);
    REFUSES(4, 3, "a sequence with one of two steps, after a fact word",
            HEAD(1, 2, 1), STEP(0), NEEDS(0), SEQUENCE(0), ALTERNATIVE);
    REFUSES(4, 1, "a sequence too early and misnumbered: 4 comes before 5",
            HEAD(1, 1, 1), SEQUENCE(1));
}

/* "A kind 7 word stands anywhere after the first kind 6". */
static void kind_of_alternative(void)
{
    REFUSES(4, 1, "an alternative after the head", HEAD(1, 0, 1), ALTERNATIVE);
    REFUSES(4, 2, "an alternative after a step's opener", HEAD(1, 1, 1),
            STEP(0), ALTERNATIVE);
    REFUSES(4, 3, "an alternative after a fact word", HEAD(1, 1, 1), STEP(0),
            NEEDS(0), ALTERNATIVE);
    REFUSES(4, 1, "an alternative too early, with payload 1: 4 before 5",
            HEAD(1, 0, 1), WORD(KIND_ALTERNATIVE, 1));
}

/* "an entry only after a kind 7 or another entry". */
static void kind_of_entry(void)
{
    REFUSES(4, 1, "an entry after the head", HEAD(1, 1, 0), DO(0));
    REFUSES(4, 1, "a sequence as entry after the head", HEAD(1, 0, 1), CALL(0));
    REFUSES(4, 2, "a sequence as entry after a step's opener", HEAD(1, 1, 1),
            STEP(0), CALL(0));
    REFUSES(4, 3, "a sequence as entry after a fact word", HEAD(1, 1, 1),
            STEP(0), NEEDS(0), CALL(0));
    REFUSES(4, 2, "an entry after a step's opener", HEAD(1, 1, 0), STEP(0),
            DO(0));
    REFUSES(4, 2, "an entry after a step's opener, a sequence to come",
            HEAD(1, 1, 1), STEP(0), DO(0));
    REFUSES(4, 3, "an entry after a fact word", HEAD(1, 1, 1), STEP(0),
            NEEDS(0), DO(0));
    REFUSES(4, 3, "a step as entry after a sequence's opener", HEAD(1, 1, 1),
            STEP(0), SEQUENCE(0), DO(0));
    REFUSES(4, 2, "a sequence as entry after a sequence's opener",
            HEAD(1, 0, 1), SEQUENCE(0), CALL(0));
    REFUSES(4, 6, "an entry after an opener: alternatives before do not count",
            HEAD(1, 1, 2), STEP(0), SEQUENCE(0), ALTERNATIVE, DO(0),
            SEQUENCE(1), CALL(0));
    REFUSES(4, 2, "an entry after an opener names no step: 4 before 5",
            HEAD(1, 0, 1), SEQUENCE(0), DO(0));
}

/* A check is an entry, and stands where an entry stands. */
static void kind_of_check(void)
{
    REFUSES(4, 1, "a check after the head", HEAD(2, 0, 1), CHECK(0),
            SEQUENCE(0));
    REFUSES(4, 1, "a check after the head, no sequence", HEAD(1, 0, 0),
            CHECK(0));
    REFUSES(4, 2, "a check after a step's opener", HEAD(2, 1, 0), STEP(0),
            CHECK(0));
    REFUSES(4, 3, "a check after a fact word", HEAD(2, 1, 0), STEP(0),
            NEEDS(0), CHECK(0));
    REFUSES(4, 2, "a check after a sequence's opener", HEAD(2, 0, 1),
            SEQUENCE(0), CHECK(0));
    REFUSES(4, 5, "a check after an opener: alternatives before do not count",
            HEAD(2, 0, 2), SEQUENCE(0), ALTERNATIVE, CHECK(0), SEQUENCE(1),
            CHECK(0));
    REFUSES(4, 2, "a check after an opener, not below F: 4 before 5",
            HEAD(2, 0, 1), SEQUENCE(0), CHECK(2));
    REFUSES(4, 5, "a need after a check", HEAD(2, 1, 1), STEP(0), SEQUENCE(0),
            ALTERNATIVE, CHECK(0), NEEDS(0));
    REFUSES(4, 5, "a step after a check", HEAD(2, 1, 1), STEP(0), SEQUENCE(0),
            ALTERNATIVE, CHECK(0), STEP(1));
}

/*
 * "In 4 to 6 the earliest word decides"; 13 "joins 4 to 6", and pulses.h has
 * its rows.
 */
static void earliest(void)
{
    REFUSES(4, 2, "kind 0, then a wrong payload", HEAD(1, 0, 1), SEQUENCE(0),
            WORD(0, 0), WORD(KIND_ALTERNATIVE, 1));
    REFUSES(4, 3, "an alternative among the steps, then a wrong number",
            HEAD(2, 1, 0), STEP(0), NEEDS(1), ALTERNATIVE, STEP(5));
    REFUSES(5, 2, "a fact not below F, then kind 0", HEAD(1, 1, 0), STEP(0),
            NEEDS(1), WORD(0, 0));
    REFUSES(5, 2, "a fact not below F, then a fact word that is not greater",
            HEAD(1, 1, 0), STEP(0), SETS(1), NEEDS(0));
    REFUSES(6, 3, "a fact word twice, then kind 0", HEAD(1, 1, 0), STEP(0),
            NEEDS(0), NEEDS(0), WORD(0, 0));
    REFUSES(6, 3, "a fact word twice, then a fact not below F", HEAD(1, 1, 0),
            STEP(0), NEEDS(0), NEEDS(0), SETS(1));
    REFUSES(6, 3, "two words that are not greater", HEAD(2, 1, 0), STEP(0),
            NEEDS(1), NEEDS(0), NEEDS(0));
}

/*
 * 5: "A payload breaks its rule: an opener's is not the next number or not
 * below the head's count".
 */
static void payload_of_opener(void)
{
    REFUSES(5, 1, "step 1 first, alone", HEAD(1, 2, 0), STEP(1));
    REFUSES(5, 1, "step 1 before step 0", HEAD(1, 2, 0), STEP(1), STEP(0));
    REFUSES(5, 2, "step 2 before step 1", HEAD(1, 3, 0), STEP(0), STEP(2),
            STEP(1));
    REFUSES(5, 2, "step 0 twice", HEAD(1, 2, 0), STEP(0), STEP(0));
    REFUSES(5, 2, "step 1 is the next, but not below A = 1", HEAD(1, 1, 0),
            STEP(0), STEP(1));
    REFUSES(5, 1, "step 0 is the next, but not below A = 0", HEAD(1, 0, 0),
            STEP(0));
    REFUSES(5, 1, "step 256, whose low eight bits are the next number",
            HEAD(1, 1, 0), STEP(256));
    REFUSES(5, 1, "step 2,048, whose low eleven bits are the next number",
            HEAD(1, 1, 0), STEP(2048));
    REFUSES(5, 1, "step 2^28 - 1", HEAD(1, 1, 0), STEP(PAYLOAD_MASK));
    REFUSES(5, 1, "a wrong number, and more missing: 5 comes before 7",
            HEAD(1, 2, 1), STEP(1));

    REFUSES(5, 1, "sequence 1 first, alone", HEAD(1, 0, 2), SEQUENCE(1));
    REFUSES(5, 1, "sequence 1 before sequence 0", HEAD(1, 0, 2), SEQUENCE(1),
            SEQUENCE(0));
    REFUSES(5, 3, "sequence 2 after sequence 0", HEAD(1, 0, 3), SEQUENCE(0),
            ALTERNATIVE, SEQUENCE(2));
    REFUSES(5, 2, "sequence 0 twice", HEAD(1, 0, 2), SEQUENCE(0), SEQUENCE(0));
    REFUSES(5, 2, "sequence 1 is the next, but not below C = 1", HEAD(1, 0, 1),
            SEQUENCE(0), SEQUENCE(1));
    REFUSES(5, 1, "sequence 0 is the next, but not below C = 0", HEAD(1, 0, 0),
            SEQUENCE(0));
    REFUSES(5, 1, "sequence 256, whose low eight bits are the next number",
            HEAD(1, 0, 1), SEQUENCE(256));
    REFUSES(5, 2, "sequences count by themselves: 0 is next after a step",
            HEAD(1, 1, 1), STEP(0), SEQUENCE(1));
}

/* "an entry names nothing that the head counts". */
static void payload_of_entry(void)
{
    REFUSES(5, 4, "step 1 with A = 1", HEAD(1, 1, 1), STEP(0), SEQUENCE(0),
            ALTERNATIVE, DO(1));
    REFUSES(5, 3, "step 0 with A = 0", HEAD(1, 0, 1), SEQUENCE(0), ALTERNATIVE,
            DO(0));
    REFUSES(5, 4, "step 2,048, whose low eleven bits are 0", HEAD(1, 1, 1),
            STEP(0), SEQUENCE(0), ALTERNATIVE, DO(2048));
    REFUSES(5, 4, "step 1 with A = 0: that there is sequence 1 is no help",
            HEAD(1, 0, 2), SEQUENCE(0), SEQUENCE(1), ALTERNATIVE, DO(1));
    REFUSES(5, 3, "sequence 1 with C = 1", HEAD(1, 0, 1), SEQUENCE(0),
            ALTERNATIVE, CALL(1));
    REFUSES(5, 3, "sequence 256, whose low eight bits are 0", HEAD(1, 0, 1),
            SEQUENCE(0), ALTERNATIVE, CALL(256));
    REFUSES(5, 5, "sequence 1 with C = 1: that there is step 1 is no help",
            HEAD(1, 2, 1), STEP(0), STEP(1), SEQUENCE(0), ALTERNATIVE, CALL(1));
    build(library_l, L_SUM);
    *word_at(14) = CALL(3);
    sum_again();
    refuses(5, 14, "L with sequence 1 naming sequence 3: not below C = 3");
}

/* Of a check "its payload is below F under 5". */
static void payload_of_check(void)
{
    REFUSES(5, 3, "a check of fact 2 with F = 2", HEAD(2, 0, 1), SEQUENCE(0),
            ALTERNATIVE, CHECK(2));
    REFUSES(5, 4, "a check with the highest payload bit", HEAD(2, 0, 1),
            SEQUENCE(0), ALTERNATIVE, CHECK(0), CHECK(0x8000000));
    REFUSES(5, 3, "fact F, F being the greatest", HEAD(MOST_F, 0, 1),
            SEQUENCE(0), ALTERNATIVE, CHECK(MOST_F));
    REFUSES(5, 3, "fact 64, whose low six bits are 0", HEAD(1, 0, 1),
            SEQUENCE(0), ALTERNATIVE, CHECK(64));
    REFUSES(5, 3, "fact 192 of 192", HEAD(192, 0, 1), SEQUENCE(0), ALTERNATIVE,
            CHECK(192));
    ACCEPTS("fact 191 of 192", HEAD(192, 0, 1), SEQUENCE(0), ALTERNATIVE,
            CHECK(191));
    REFUSES(5, 3, "fact 512, whose low nine bits are 0", HEAD(MOST_F, 0, 1),
            SEQUENCE(0), ALTERNATIVE, CHECK(512));
    REFUSES(5, 3, "fact 2^28 - 1", HEAD(MOST_F, 0, 1), SEQUENCE(0),
            ALTERNATIVE, CHECK(PAYLOAD_MASK));
    REFUSES(5, 5, "fact 1 with F = 1: that there is step 1 is no help",
            HEAD(1, 2, 1), STEP(0), STEP(1), SEQUENCE(0), ALTERNATIVE,
            CHECK(1));
    REFUSES(5, 4, "fact 1 with F = 1: that there is sequence 1 is no help",
            HEAD(1, 0, 2), SEQUENCE(0), SEQUENCE(1), ALTERNATIVE, CHECK(1));
    REFUSES(5, 3, "a check of fact 1, then a wrong kind: the earliest",
            HEAD(1, 0, 1), SEQUENCE(0), ALTERNATIVE, CHECK(1), WORD(14, 0));
}

/*
 * Four words in a row, which may be tested together: a step, a call, an
 * alternative and a step, of which the one at `place` is a check. `lead`
 * steps stand before them, from word LEAD on, and four words follow.
 */
enum { FOUR = 4, LEAD = 4, LONGEST_LEAD = 7 };

static void put_four(uint32_t lead, uint32_t place)
{
    static const uint32_t four[FOUR] = {DO(0), CALL(0), ALTERNATIVE, DO(0)};
    uint32_t i;
    start();
    PUT(HEAD(2, 1, 1), STEP(0), SEQUENCE(0), ALTERNATIVE);
    for (i = 0; i < lead; i++)
        put(DO(0));
    for (i = 0; i < FOUR; i++)
        put(i == place ? CHECK(1) : four[i]);
    put_all(four, FOUR);
    put_sum();
}

/* One of the four words is another, which is refused so. */
static void one_of_four(uint32_t lead, uint32_t place, uint32_t number,
                        uint32_t word, const char *name)
{
    uint32_t at;
    for (at = 0; at < FOUR; at++) {
        put_four(lead, place);
        *word_at(LEAD + lead + at) = word;
        sum_again();
        refuses(number, LEAD + lead + at, name);
    }
}

/* With F = 2 fact 1 can be checked. */
static void four_words(void)
{
    uint32_t lead, place;
    for (lead = 0; lead <= LONGEST_LEAD; lead++)
        for (place = 0; place < FOUR; place++) {
            put_four(lead, place);
            accepts("four words, one a check");
            one_of_four(lead, place, 5, CHECK(2), "one a check of F");
            one_of_four(lead, place, 5, CHECK(PAYLOAD_MASK),
                        "one a check of 2^28 - 1");
            one_of_four(lead, place, 4, WORD(14, 0), "one of kind 14");
            one_of_four(lead, place, 4, WORD(12, PAYLOAD_MASK),
                        "one of kind 12, right below the checks");
        }
}

/* "a fact is not below F, or a kind 7 payload is not 0". */
static void payload_of_fact_and_alternative(void)
{
    REFUSES(5, 2, "a need of fact 1 with F = 1", HEAD(1, 1, 0), STEP(0),
            NEEDS(1));
    REFUSES(5, 2, "a set of fact 1 with F = 1", HEAD(1, 1, 0), STEP(0),
            SETS(1));
    REFUSES(5, 2, "a clear of fact 1 with F = 1", HEAD(1, 1, 0), STEP(0),
            CLEARS(1));
    REFUSES(5, 3, "fact F, F being the greatest", HEAD(MOST_F, 1, 0), STEP(0),
            NEEDS(MOST_F - 1), NEEDS(MOST_F));
    REFUSES(5, 2, "fact 128, whose low seven bits are 0", HEAD(1, 1, 0),
            STEP(0), SETS(128));
    REFUSES(5, 2, "fact 512, whose low nine bits are 0", HEAD(MOST_F, 1, 0),
            STEP(0), SETS(512));
    REFUSES(5, 2, "fact 64 of 64", HEAD(64, 1, 0), STEP(0), NEEDS(64));
    REFUSES(5, 2, "fact 129 of 129", HEAD(129, 1, 0), STEP(0), CLEARS(129));
    /* 0x30000001 is below 0x40000000 */
    REFUSES(5, 3, "fact 1 with F = 1, and not greater: 5 comes before 6",
            HEAD(1, 1, 0), STEP(0), CLEARS(0), SETS(1));

    REFUSES(5, 2, "an alternative with payload 1", HEAD(1, 0, 1), SEQUENCE(0),
            WORD(KIND_ALTERNATIVE, 1));
    REFUSES(5, 3, "the second alternative with its number", HEAD(1, 0, 1),
            SEQUENCE(0), ALTERNATIVE, WORD(KIND_ALTERNATIVE, 1));
    REFUSES(5, 2, "an alternative with the highest payload bit", HEAD(1, 0, 1),
            SEQUENCE(0), WORD(KIND_ALTERNATIVE, 0x8000000));
}

/*
 * 6: "A fact word of a step is not greater, as a 32-bit number, than the fact
 * word before it in that step." So the kind comes first, then the fact.
 */
static void fact_order(void)
{
    REFUSES(6, 3, "a need twice: equal is not greater", HEAD(1, 1, 0), STEP(0),
            NEEDS(0), NEEDS(0));
    REFUSES(6, 3, "a set twice", HEAD(1, 1, 0), STEP(0), SETS(0), SETS(0));
    REFUSES(6, 3, "a clear twice", HEAD(1, 1, 0), STEP(0), CLEARS(0),
            CLEARS(0));
    REFUSES(6, 3, "needs fact 1, then 0", HEAD(2, 1, 0), STEP(0), NEEDS(1),
            NEEDS(0));
    REFUSES(6, 3, "clears fact 63, then 62", HEAD(64, 1, 0), STEP(0),
            CLEARS(63), CLEARS(62));
    REFUSES(6, 3, "sets, then needs", HEAD(1, 1, 0), STEP(0), SETS(0),
            NEEDS(0));
    REFUSES(6, 3, "clears, then sets", HEAD(1, 1, 0), STEP(0), CLEARS(0),
            SETS(0));
    REFUSES(6, 3, "clears, then needs", HEAD(1, 1, 0), STEP(0), CLEARS(0),
            NEEDS(0));
    REFUSES(6, 3, "sets fact 0, then needs fact 1", HEAD(2, 1, 0), STEP(0),
            SETS(0), NEEDS(1));
    REFUSES(6, 3, "clears fact 0, then sets fact 63", HEAD(64, 1, 0), STEP(0),
            CLEARS(0), SETS(63));
    REFUSES(6, 4, "greater than the first, not than the second", HEAD(2, 1, 0),
            STEP(0), NEEDS(0), SETS(1), SETS(0));
    REFUSES(6, 3, "sets fact 64, then 63", HEAD(256, 1, 0), STEP(0), SETS(64),
            SETS(63));
    REFUSES(6, 3, "sets fact 255, then 0", HEAD(256, 1, 0), STEP(0), SETS(255),
            SETS(0));
    REFUSES(6, 3, "clears fact 128, then 64", HEAD(256, 1, 0), STEP(0),
            CLEARS(128), CLEARS(64));
    REFUSES(6, 4, "needs, clears, sets", HEAD(1, 1, 0), STEP(0), NEEDS(0),
            CLEARS(0), SETS(0));
    REFUSES(6, 4, "the third equals the second", HEAD(1, 1, 0), STEP(0),
            NEEDS(0), SETS(0), SETS(0));
    REFUSES(6, 5, "in the second step, facts", HEAD(2, 2, 0), STEP(0), NEEDS(0),
            STEP(1), NEEDS(1), NEEDS(0));
    REFUSES(6, 5, "in the second step, a set twice", HEAD(1, 2, 0), STEP(0),
            NEEDS(0), STEP(1), SETS(0), SETS(0));
    REFUSES(6, 5, "in the second step, a clear twice", HEAD(1, 2, 0), STEP(0),
            NEEDS(0), STEP(1), CLEARS(0), CLEARS(0));
    REFUSES(6, 3, "step 1 and the sequence are missing: 6 comes before 7",
            HEAD(1, 2, 1), STEP(0), SETS(0), SETS(0));
    build(library_l, L_SUM);
    *word_at(4) = SETS(1);
    *word_at(5) = NEEDS(0);
    sum_again();
    refuses(6, 5, "L with the fact words of step 1 exchanged");
}

/*
 * 13: "a clear word naming a fact that an earlier word of the same step sets".
 */
static void set_and_cleared(void)
{
    size_t i;
    for (i = 0; i < COUNT(pulses); i++) {
        const struct pulse *p = &pulses[i];
        build(p->words, p->count);
        if (p->number == 0)
            accepts(p->why);
        else
            refuses(p->number, p->position, p->why);
    }
}

/*
 * A step that sets one fact and clears one: 13 where it is the same fact. Tried
 * are those beside it, those with the same last six bits, and some others.
 */
static void set_and_cleared_pairs(void)
{
    uint32_t set, cleared;
    for (set = 0; set < MOST_F; set++)
        for (cleared = 0; cleared < MOST_F; cleared++) {
            if ((set ^ cleared) % 64 > 1 && (set + cleared) % 11 != 0)
                continue;
            BUILD(HEAD(MOST_F, 1, 0), STEP(0), SETS(set), CLEARS(cleared));
            if (set == cleared)
                refuses(13, 3, "the fact that is set is cleared");
            else
                accepts("one fact is set, another one cleared");
        }
}

/*
 * Steps alone, in 8,192 words: 15 that need and set all facts, and one that
 * needs all, sets 236 of them and one more, and clears a fact.
 */
enum { LAST_STEP = 15, LAST_SETS = 236 };

static void build_steps(uint32_t set, uint32_t cleared)
{
    uint32_t a;
    start();
    put(HEAD(MOST_F, LAST_STEP + 1, 0));
    for (a = 0; a < LAST_STEP; a++) {
        put(STEP(a));
        put_facts(KIND_NEEDS, 0, MOST_F);
        put_facts(KIND_SETS, 0, MOST_F);
    }
    put(STEP(LAST_STEP));
    put_facts(KIND_NEEDS, 0, MOST_F);
    put_facts(KIND_SETS, 0, LAST_SETS);
    PUT(SETS(set), CLEARS(cleared));
    put_sum();
}

static void longest_steps(void)
{
    build_steps(254, 255);
    hold("8,192 words of steps are built", words == FULL);
    accepts("the last step clears what the steps before it set");
    build_steps(254, 0);
    refuses(13, FULL - 2, "its first set is cleared right before the sum word");
    build_steps(255, 255);
    refuses(13, FULL - 2, "a fact set and cleared right before the sum word");
    miss_sum(1);
    refuses(2, FULL - 1, "the same with a wrong sum: 2 comes before 13");
    *word_at(0) = HEAD(MOST_F + 1, LAST_STEP + 1, 0);
    sum_again();
    refuses(3, 0, "the same with F above the greatest: 3 comes before 13");
}

/*
 * 7: "Fewer than A steps or C sequences were opened, position of the last
 * word."
 */
static void missing(void)
{
    REFUSES(7, 1, "no step of one", HEAD(1, 1, 0));
    REFUSES(7, 1, "no sequence of one", HEAD(1, 0, 1));
    REFUSES(7, 1, "neither step nor sequence", HEAD(1, 1, 1));
    REFUSES(7, 1, "the greatest A, and no step", HEAD(1, MOST_A, 0));
    REFUSES(7, 1, "the greatest C, and no sequence", HEAD(1, 0, MOST_C));
    REFUSES(7, 1, "the greatest counts, and neither",
            HEAD(MOST_F, MOST_A, MOST_C));
    REFUSES(7, 2, "one step of two", HEAD(1, 2, 0), STEP(0));
    REFUSES(7, 3, "one step of two, with a fact word", HEAD(1, 2, 0), STEP(0),
            SETS(0));
    REFUSES(7, 4, "one step of two, with two: they are no steps", HEAD(1, 2, 0),
            STEP(0), NEEDS(0), SETS(0));
    REFUSES(7, 4, "one step of two, with two of a kind", HEAD(2, 2, 0), STEP(0),
            NEEDS(0), NEEDS(1));
    REFUSES(7, 3, "two steps of three, no sequence of one", HEAD(1, 3, 1),
            STEP(0), STEP(1));
    REFUSES(7, 2, "all steps, no sequence of one", HEAD(1, 1, 1), STEP(0));
    REFUSES(7, 2, "one sequence of two", HEAD(1, 0, 2), SEQUENCE(0));
    /* 1 is below C, so that 5 does not apply */
    REFUSES(7, 4, "one sequence of two, and it names the other", HEAD(1, 0, 2),
            SEQUENCE(0), ALTERNATIVE, CALL(1));
    REFUSES(7, 5, "two sequences of three: alternatives are none",
            HEAD(1, 0, 3), SEQUENCE(0), ALTERNATIVE, SEQUENCE(1), ALTERNATIVE);
    REFUSES(7, 5, "all steps, one sequence of two", HEAD(1, 1, 2), STEP(0),
            SEQUENCE(0), ALTERNATIVE, DO(0));
    build(library_l, 16);
    refuses(7, 16, "L without sequence 2");
    build(library_l, 8);
    refuses(7, 8, "L's head and steps");
    build(library_l, 6);
    refuses(7, 6, "L's head and two of its three steps");
}

/* The header's names and helpers. */
static void names(void)
{
    uint64_t answer = REFUSED(7, 8191);
    hold("refusal of an answer", dulimoven_refusal_of(answer) == 7);
    hold("position of an answer", dulimoven_position_of(answer) == 8191);
    answer = ACCEPTED(256, 1023, 256);
    hold("no refusal in an acceptance", dulimoven_refusal_of(answer) == 0);
    hold("facts", dulimoven_facts(answer) == 256);
    hold("steps", dulimoven_steps(answer) == 1023);
    hold("sequences", dulimoven_sequences(answer) == 256);
    /* 0x80201 is 1 + 1 * 2^9 + 1 * 2^19 */
    hold("one of each", dulimoven_facts(0x80201) == 1 &&
                            dulimoven_steps(0x80201) == 1 &&
                            dulimoven_sequences(0x80201) == 1);
    hold("refusals 1 to 7",
         DULIMOVEN_LENGTH == 1 && DULIMOVEN_SUM_WORD == 2 &&
             DULIMOVEN_HEAD_WORD == 3 && DULIMOVEN_KIND == 4 &&
             DULIMOVEN_PAYLOAD == 5 && DULIMOVEN_FACT_ORDER == 6 &&
             DULIMOVEN_MISSING == 7);
    hold("refusals 8 to 13",
         DULIMOVEN_CARD_AREA == 8 && DULIMOVEN_SEQUENCE == 9 &&
             DULIMOVEN_QUESTION == 10 && DULIMOVEN_FACT == 11 &&
             DULIMOVEN_CHAIN_AREA == 12 && DULIMOVEN_SET_AND_CLEARED == 13);
}

int main(void)
{
    samples();
    accepted_steps();
    accepted_sequences();
    accepted_checks();
    length();
    longest();
    most_steps();
    most_sequences();
    most_of_all();
    all_facts();
    clashes();
    wrong_sums();
    wrong_sums_of_l();
    exchanged_entries();
    exchanged_far();
    issued_again();
    old_heads();
    each_rest();
    wrong_kind_of_sum();
    head();
    kind_of_head();
    kind_nowhere();
    kind_of_fact_word();
    kind_of_opener();
    kind_of_alternative();
    kind_of_entry();
    kind_of_check();
    earliest();
    payload_of_opener();
    payload_of_entry();
    payload_of_check();
    four_words();
    payload_of_fact_and_alternative();
    fact_order();
    set_and_cleared();
    set_and_cleared_pairs();
    longest_steps();
    missing();
    names();
    printf("check_test: %u checks, %u failed\n", ran, failed);
    return failed == 0 ? 0 : 1;
}
