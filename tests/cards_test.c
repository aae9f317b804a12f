/*
 * dulimoven_cards from the C side: cards worked out by hand, areas that are too
 * short, exact, longer and empty, and that a refusal leaves the area and every
 * call the image as it was. C11 and C++17. Prints a line for each word that
 * differs, then a count; the exit status is 0 where nothing differs.
 */
#include "borders.h"
#include "checks.h"
#include "dead.h"
#include "harness.h"
#include "pulses.h"
#include "samples.h"

/*
 * The card area under test, with guard words on both sides, and what it has to
 * be after the call. A long area has 3 words more than any library needs.
 *
 * Of each expected card, "always stands" follows from the last item that sets,
 * clears, needs or checks the fact, in every run: 1 where it is there and does
 * not clear it. The five words after it are some run's: the first touch sets
 * the fact, there is none on the first side, there is none on the last side,
 * the last such item clears it, there is no such item.
 */
enum {
    CARD = DULIMOVEN_CARD_WORDS,
    LONG_AREA = DULIMOVEN_MOST_CARD_WORDS + 3,
    CARD_AREA = GUARD + LONG_AREA + GUARD
};
static uint64_t card_area[CARD_AREA];
static uint64_t expected_area[CARD_AREA];

/* Every word its own pattern, so that a word that stays can be told. */
static void lend(void)
{
    size_t i;
    for (i = 0; i < CARD_AREA; i++) {
        card_area[i] = UINT64_C(0xabad1dea00000000) + i;
        expected_area[i] = card_area[i];
    }
}

/* Where the card of a sequence is expected. */
static uint64_t *due_card(size_t sequence)
{
    return expected_area + GUARD + CARD * sequence;
}

/* Expects the card of these numbers of a sequence, all facts below 64. */
#define EXPECT(sequence, ...)                                \
    do {                                                     \
        static const uint64_t card[NUMBERS] = {__VA_ARGS__}; \
        lay_out_low(card, due_card(sequence));               \
    } while (0)

/* "Without a run all words are 0." */
#define EXPECT_BLANK(sequence) \
    EXPECT(sequence, 0, 0, 0, 0, 0, 0, 0, 0, 0, 0, 0, 0, 0)

/* Calls with an area of `length` words; compares the answer and every word. */
static void cards(const char *name, size_t length, uint64_t expected)
{
    uint64_t answer;
    size_t i;
    keep();
    answer = dulimoven_cards(area + GUARD, words, card_area + GUARD, length);
    ran++;
    if (answer != expected) {
        failed++;
        printf("%s: expected %" PRIx64 ", answered %" PRIx64 "\n", name,
               expected, answer);
    }
    kept(name);
    for (i = 0; i < CARD_AREA; i++) {
        if (card_area[i] == expected_area[i])
            continue;
        failed++;
        printf("%s: word %d of the area: expected %" PRIx64 ", found %" PRIx64
               "\n",
               name, (int)i - GUARD, expected_area[i], card_area[i]);
    }
}

static void expect_l(void)
{
    size_t sequence;
    for (sequence = 0; sequence < L_SEQUENCES; sequence++)
        lay_out_low(cards_of_l[sequence], due_card(sequence));
}

/*
 * L, "in L's sample the areas become one word too few and just enough": its
 * three cards have 147 words, so 146 words get 8 and 147 suffice. Every length
 * from 0 to 151: a shorter area stays as it was, a longer one keeps its last
 * words.
 */
static void areas_of_l(void)
{
    size_t enough = 147;
    size_t length;
    build(library_l, L_SUM);
    hold("three cards of 49 words", L_SEQUENCES * CARD == enough);
    for (length = 0; length < enough; length++) {
        lend();
        cards("L, an area that is too short", length, REFUSED(8, 0));
    }
    for (; length <= enough + 4; length++) {
        lend();
        expect_l();
        cards("L, an area that suffices", length, L_SEQUENCES);
    }
    lend();
    expect_l();
    cards("L, a long area", LONG_AREA, L_SEQUENCES);
    cards("L, an area that has its cards", LONG_AREA, L_SEQUENCES);
    hold("L, an empty area and a null pointer",
         dulimoven_cards(area + GUARD, words, NULL, 0) == REFUSED(8, 0));
}

static void no_cards(void)
{
    BUILD(HEAD(1, 0, 0));
    lend();
    cards("no sequence, an empty area", 0, 0);
    lend();
    cards("no sequence, a long area", LONG_AREA, 0);
    hold("no sequence, a null pointer",
         dulimoven_cards(area + GUARD, words, NULL, 0) == 0);
}

/*
 * Refusals 1 to 7 and 13 come before 8: each with an area that is too short
 * too.
 */
static void refusals(void)
{
    static const size_t lengths[] = {0, CARD - 1, LONG_AREA};
    size_t i;
    for (i = 0; i < COUNT(lengths); i++) {
        size_t length = lengths[i];
        lend();
        start();
        cards("1: no word", length, REFUSED(1, 0));
        build(library_l, L_SUM);
        miss_sum(1);
        cards("2: L with a wrong sum word", length, REFUSED(2, L_SUM));
        BUILD(HEAD(MOST_F + 1, 0, 1), SEQUENCE(0));
        cards("3: F above the greatest", length, REFUSED(3, 0));
        BUILD(HEAD(1, 0, 1), SEQUENCE(0), WORD(0, 0));
        cards("4: kind 0", length, REFUSED(4, 2));
        BUILD(HEAD(1, 0, 1), SEQUENCE(0), WORD(KIND_ALTERNATIVE, 1));
        cards("5: an alternative with payload 1", length, REFUSED(5, 2));
        BUILD(HEAD(1, 1, 1), STEP(0), SETS(0), SETS(0), SEQUENCE(0));
        cards("6: a fact word twice", length, REFUSED(6, 3));
        BUILD(HEAD(1, 0, 2), SEQUENCE(0));
        cards("7: one sequence of two", length, REFUSED(7, 2));
        BUILD(HEAD(1, 1, 1), STEP(0), SETS(0), CLEARS(0), SEQUENCE(0));
        cards("13: a fact set and cleared", length, REFUSED(13, 3));
    }
    hold("1: no word, null pointers",
         dulimoven_cards(NULL, 0, NULL, 0) == REFUSED(1, 0));
}

/*
 * The images of pulses.h. Those that are accepted have no sequence: the answer
 * is 0, and no word is written.
 */
static void set_and_cleared(void)
{
    static const size_t lengths[] = {0, CARD, LONG_AREA};
    size_t i, j;
    for (i = 0; i < COUNT(pulses); i++)
        for (j = 0; j < COUNT(lengths); j++) {
            const struct pulse *p = &pulses[i];
            build(p->words, p->count);
            lend();
            cards(p->why, lengths[j], REFUSED(p->number, p->position));
        }
}

/* Step 0 sets fact 0, step 1 clears it, step 2 needs it. */
#define STEPS STEP(0), SETS(0), STEP(1), CLEARS(0), STEP(2), NEEDS(0)
#define SET DO(0)
#define CLEAR DO(1)
#define NEED DO(2)

static void columns(void)
{
    /* runs: set. May and always set; one fact can change, and stands. */
    BUILD(HEAD(1, 3, 1), STEPS, SEQUENCE(0), ALTERNATIVE, SET);
    lend();
    EXPECT(0, 0x101, 0, 0, 1, 0, 1, 0, 1, 1, 0, 0, 0, 0);
    cards("<set>", CARD, 1);

    /* the empty alternative that a hand-written card overlooked: not always,
       and its run has no item */
    BUILD(HEAD(1, 3, 1), STEPS, SEQUENCE(0), ALTERNATIVE, SET, ALTERNATIVE);
    lend();
    EXPECT(0, 0x103, 0, 0, 1, 0, 0, 0, 0, 1, 1, 1, 0, 1);
    cards("<set>, <>", CARD, 1);

    /* a run with steps that never touches the fact's value: flags bit 1 is 0,
       and yet it is not always set. It always stands, set or needed. */
    BUILD(HEAD(1, 3, 1), STEPS,
          SEQUENCE(0), ALTERNATIVE, SET, ALTERNATIVE, NEED);
    lend();
    EXPECT(0, 0x101, 0, 1, 1, 0, 0, 0, 1, 1, 0, 1, 0, 0);
    cards("<set>, <need>", CARD, 1);

    /* the last touch decides on the one side, the first on the other; the last
       item that names the fact is a clear, and a need */
    BUILD(HEAD(1, 3, 2), STEPS,
          SEQUENCE(0), ALTERNATIVE, NEED, SET, CLEAR,
          SEQUENCE(1), ALTERNATIVE, SET, NEED);
    lend();
    EXPECT(0, 0x101, 1, 1, 0, 1, 0, 1, 0, 0, 0, 0, 1, 0);
    EXPECT(1, 0x101, 0, 0, 1, 0, 1, 0, 1, 1, 0, 0, 0, 0);
    cards("<need, set, clear>; <set, need>", 2 * CARD, 2);

    /* needed first, cleared last, and the need is the last item that names the
       fact, though no run executes */
    BUILD(HEAD(1, 3, 1), STEPS, SEQUENCE(0), ALTERNATIVE, CLEAR, NEED);
    lend();
    EXPECT(0, 0x101, 1, 1, 0, 1, 0, 1, 1, 0, 0, 0, 0, 0);
    cards("<clear, need>", CARD, 1);

    /* the empty run alone */
    BUILD(HEAD(1, 0, 1), SEQUENCE(0), ALTERNATIVE, CALL(0), ALTERNATIVE);
    lend();
    EXPECT(0, 3, 0, 0, 0, 0, 0, 0, 0, 0, 1, 1, 0, 1);
    cards("<itself>, <>", CARD, 1);

    /* sequence 1 is endless: its caller's first alternative gives no run */
    BUILD(HEAD(1, 3, 2), STEPS,
          SEQUENCE(0), ALTERNATIVE, SET, CALL(1), ALTERNATIVE, CLEAR,
          SEQUENCE(1), ALTERNATIVE, CALL(1));
    lend();
    EXPECT(0, 0x101, 0, 0, 0, 1, 0, 1, 0, 0, 1, 0, 1, 0);
    EXPECT_BLANK(1);
    cards("<set, endless>, <clear>", 2 * CARD, 2);

    /* a sequence without alternative has no run */
    BUILD(HEAD(1, 3, 2), STEPS,
          SEQUENCE(0),
          SEQUENCE(1), ALTERNATIVE, SET, CALL(0));
    lend();
    EXPECT_BLANK(0);
    EXPECT_BLANK(1);
    cards("no alternative, and its caller", 2 * CARD, 2);

    /* fact 63 is bit 63; the facts that are set stand, fact 0 does not. Fact 63
       is needed first and 62 set; the clear of fact 0 is no touch there. */
    BUILD(HEAD(64, 1, 1),
          STEP(0), NEEDS(63), SETS(62), SETS(63), CLEARS(0),
          SEQUENCE(0), ALTERNATIVE, DO(0));
    lend();
    EXPECT(0, 0x301, UINT64_C(0x8000000000000000),
           UINT64_C(0x8000000000000000), UINT64_C(0xc000000000000000), 1,
           UINT64_C(0xc000000000000000), 1, UINT64_C(0xc000000000000000),
           UINT64_C(0x4000000000000000), UINT64_C(0x3fffffffffffffff),
           UINT64_C(0x3ffffffffffffffe), 1, UINT64_C(0x3ffffffffffffffe));
    cards("facts 62 and 63", CARD, 1);

    /* the same step, and it clears a fact that it sets */
    BUILD(HEAD(64, 1, 1),
          STEP(0), NEEDS(63), SETS(62), SETS(63), CLEARS(0), CLEARS(63),
          SEQUENCE(0), ALTERNATIVE, DO(0));
    lend();
    cards("fact 63 set and cleared", CARD, REFUSED(13, 6));
}

/*
 * The library of borders.h, in an area that is a word short, in one that is
 * just enough and in longer ones; and of its first card each word in its place.
 */
static void at_borders(void)
{
    size_t c, enough = 245;
    build_borders();
    hold("five cards of 49 words", BORDERS * CARD == enough);
    lend();
    cards("facts at the borders of words, a word short", enough - 1,
          REFUSED(8, 0));
    for (c = 0; c < BORDERS; c++)
        lay_out(borders_cards[c], due_card(c));
    cards("facts at the borders of words", enough, BORDERS);
    hold("sequence 0, word by word",
         memcmp(card_area + GUARD, borders_words_of_0,
                sizeof borders_words_of_0) == 0);
    lend();
    for (c = 0; c < BORDERS; c++)
        lay_out(borders_cards[c], due_card(c));
    cards("facts at the borders of words, a word more", enough + 1, BORDERS);
    cards("facts at the borders of words, a long area", LONG_AREA, BORDERS);
}

/*
 * So many facts, and one step that sets the highest: that fact is set and
 * stands, and the others, which are below it, are left and not named. No word
 * has a bit from F upward.
 */
static void highest_fact(uint32_t facts)
{
    struct column top = one_fact(facts - 1), rest = facts_below(facts - 1);
    struct column none = low_facts(0), flags = low_facts(0x101);
    const struct column card[NUMBERS] = {flags, none, none, top, none,
                                         top,   none, top,  top, rest,
                                         rest,  none, rest};
    char name[64];
    snprintf(name, sizeof name, "%u facts, and the highest is set",
             (unsigned)facts);
    BUILD(HEAD(facts, 1, 1), STEP(0), SETS(facts - 1),
          SEQUENCE(0), ALTERNATIVE, DO(0));
    lend();
    cards(name, CARD - 1, REFUSED(8, 0));
    lay_out(card, due_card(0));
    cards(name, CARD, 1);
}

static void highest_facts(void)
{
    static const uint32_t facts[] = {1,   63,  64,  65,  127, 128,
                                     129, 191, 192, 193, 255, 256};
    size_t i;
    for (i = 0; i < COUNT(facts); i++)
        highest_fact(facts[i]);
}

/*
 * Each fact of 256 by itself: step f needs it and clears the next, and sequence
 * f is that step. Facts and sequences go round at 256.
 */
static void each_fact(void)
{
    uint32_t f;
    start();
    put(HEAD(256, 256, 256));
    for (f = 0; f < 256; f++)
        PUT(STEP(f), NEEDS(f), CLEARS((f + 1) % 256));
    for (f = 0; f < 256; f++)
        PUT(SEQUENCE(f), ALTERNATIVE, DO(f));
    put_sum();
    lend();
    for (f = 0; f < 256; f++) {
        struct column all = facts_below(256), none = low_facts(0);
        struct column need = one_fact(f), clear = one_fact((f + 1) % 256);
        struct column first = without(all, need), last = without(all, clear);
        const struct column card[NUMBERS] = {
            low_facts(0x101), need, need,  none, clear, none, clear,
            need,             none, first, last, clear, without(first, clear)};
        lay_out(card, due_card(f));
    }
    cards("each fact of 256 by itself", 256 * CARD, 256);
}

/* The libraries of dead.h. */
static void dead(void)
{
    uint32_t left;

    /* only <clear> gives sequence 0 a run, only <> one to 3, and only <3, 0>
       one to 4, sequence 0's clear after nothing; 1 and 2 have none. A clear is
       last, or no item names the fact. */
    BUILD_DEAD(dead_places);
    lend();
    EXPECT(0, 0x101, 0, 0, 0, 1, 0, 1, 0, 0, 1, 0, 1, 0);
    EXPECT_BLANK(1);
    EXPECT_BLANK(2);
    EXPECT(3, 3, 0, 0, 0, 0, 0, 0, 0, 0, 1, 1, 0, 1);
    EXPECT(4, 0x101, 0, 0, 0, 1, 0, 1, 0, 0, 1, 0, 1, 0);
    cards("dead places", 5 * CARD, 5);

    /* sequence 3 has the runs <set> and <>; 0 and 2 have them by <3>, and 1 by
       <0>. The only step sets, and <> has no item. */
    BUILD_DEAD(found_later);
    lend();
    EXPECT(0, 0x103, 0, 0, 1, 0, 0, 0, 0, 1, 1, 1, 0, 1);
    EXPECT(1, 0x103, 0, 0, 1, 0, 0, 0, 0, 1, 1, 1, 0, 1);
    EXPECT(2, 0x103, 0, 0, 1, 0, 0, 0, 0, 1, 1, 1, 0, 1);
    EXPECT(3, 0x103, 0, 0, 1, 0, 0, 0, 0, 1, 1, 1, 0, 1);
    cards("found later", 4 * CARD, 4);

    /* sequences 0 and 2 have the run <clear> alone, 1 has none */
    for (left = 0; left <= MOST_LEFT; left++) {
        char name[64];
        snprintf(name, sizeof name, "%u entries after a dead one",
                 (unsigned)left);
        build_left(left);
        lend();
        EXPECT(0, 0x101, 0, 0, 0, 1, 0, 1, 0, 0, 1, 0, 1, 0);
        EXPECT_BLANK(1);
        EXPECT(2, 0x101, 0, 0, 0, 1, 0, 1, 0, 0, 1, 0, 1, 0);
        cards(name, 3 * CARD, 3);
    }
}

/* The libraries of checks.h. */
static void with_checks(void)
{
    size_t i, c;
    for (i = 0; i < COUNT(checks); i++) {
        const struct checks *library = &checks[i];
        build_checks(library);
        lend();
        cards(library->name, library->sequences * CARD - 1, REFUSED(8, 0));
        for (c = 0; c < library->sequences; c++)
            checks_card(library, c, due_card(c));
        cards(library->name, library->sequences * CARD, library->sequences);
    }
}

/*
 * All 256 facts set by one step: the count is 256, in bits 8 to 16, and so the
 * flags are 10001. Then by 256 steps: none always stands, since each run names
 * one alone; each fact is first set by one run, and left and not named by the
 * 255 others.
 */
static void most_facts(void)
{
    const struct column all = facts_below(256), none = low_facts(0);
    const struct column flags = low_facts(0x10001);
    const struct column one_step[NUMBERS] = {flags, none, none, all,  none,
                                             all,   none, all,  all,  none,
                                             none,  none, none};
    const struct column each_step[NUMBERS] = {flags, none, none, all, none,
                                              none,  none, none, all, all,
                                              all,   none, all};
    uint32_t f;
    start();
    PUT(HEAD(256, 1, 1), STEP(0));
    for (f = 0; f < 256; f++)
        put(SETS(f));
    PUT(SEQUENCE(0), ALTERNATIVE, DO(0));
    put_sum();
    lend();
    lay_out(one_step, due_card(0));
    cards("256 facts set by one step", CARD, 1);
    hold("its flags", card_area[GUARD] == 0x10001);
    hold("256 facts can change",
         dulimoven_changeable(card_area + GUARD) == 256);

    start();
    put(HEAD(256, 256, 1));
    for (f = 0; f < 256; f++)
        PUT(STEP(f), SETS(f));
    put(SEQUENCE(0));
    for (f = 0; f < 256; f++)
        PUT(ALTERNATIVE, DO(f));
    put_sum();
    lend();
    lay_out(each_step, due_card(0));
    cards("256 facts, each set by one alternative", CARD, 1);
    hold("a run, and no empty one",
         dulimoven_has_run(card_area + GUARD) == 1 &&
             dulimoven_has_empty_run(card_area + GUARD) == 0);
    hold("256 facts can change, one by one",
         dulimoven_changeable(card_area + GUARD) == 256);
}

/* The same with 64 facts, whose count is 64. */
static void all_facts(void)
{
    uint32_t f;
    start();
    put(HEAD(64, 64, 1));
    for (f = 0; f < 64; f++)
        PUT(STEP(f), SETS(f));
    put(SEQUENCE(0));
    for (f = 0; f < 64; f++)
        PUT(ALTERNATIVE, DO(f));
    put_sum();
    lend();
    EXPECT(0, 0x4001, 0, 0, ALL_FACTS, 0, 0, 0, 0, ALL_FACTS, ALL_FACTS,
           ALL_FACTS, 0, ALL_FACTS);
    cards("64 facts, each set by one alternative", CARD, 1);
    hold("a run", dulimoven_has_run(card_area + GUARD) == 1);
    hold("no empty run", dulimoven_has_empty_run(card_area + GUARD) == 0);
    hold("64 facts can change", dulimoven_changeable(card_area + GUARD) == 64);
}

/*
 * Sequences without an alternative, so that each card is blank. The opener of
 * sequence c of 161 is taken 161 - c times: their kinds come to 6 * 13041,
 * their payloads to 695520. The head counts 0x5080001 + 1024, 162 times: 162 *
 * 0x5080401 + 695520 + 1024 * 78246 = 0x333e3bd82.
 */
static void blank_cards(void)
{
    static const uint32_t counts[] = {160, 161, 256};
    static const uint32_t heads[] = {0x15000001, 0x15080001, 0x18000001};
    static const uint32_t sums[] = {0xf9c46f31, 0xf3e3bd82, 0xf43aaf81};
    size_t i;
    uint32_t c;
    for (i = 0; i < COUNT(counts); i++) {
        start();
        put(HEAD(1, 0, counts[i]));
        for (c = 0; c < counts[i]; c++)
            put(SEQUENCE(c));
        put_sum();
        hold("the head and the sum word",
             *word_at(0) == heads[i] && *word_at(words - 1) == sums[i]);
        lend();
        cards("sequences without an alternative, a word short",
              counts[i] * CARD - 1, REFUSED(8, 0));
        for (c = 0; c < counts[i]; c++)
            EXPECT_BLANK(c);
        cards("sequences without an alternative", counts[i] * CARD, counts[i]);
    }
    hold("161 cards have 7,889 words, more than 7,840", 161 * CARD == 7889);
}

/*
 * As many sequences as there can be, each calling the next (`up`) or the one
 * before, the one at the end a step that sets fact 0: every card is that
 * step's.
 */
static void deep(const char *name, int up)
{
    uint32_t c;
    uint32_t end = up ? MOST_C - 1 : 0;
    start();
    PUT(HEAD(1, 1, MOST_C), STEP(0), SETS(0));
    for (c = 0; c < MOST_C; c++)
        PUT(SEQUENCE(c), ALTERNATIVE,
            c == end ? DO(0) : CALL(up ? c + 1 : c - 1));
    put_sum();
    lend();
    cards(name, MOST_C * CARD - 1, REFUSED(8, 0));
    for (c = 0; c < MOST_C; c++)
        EXPECT(c, 0x101, 0, 0, 1, 0, 1, 0, 1, 1, 0, 0, 0, 0);
    cards(name, LONG_AREA, MOST_C);
}

static void names(void)
{
    uint64_t card[CARD] = {0};
    int column;
    hold("the parts of a card",
         DULIMOVEN_FLAGS == 0 && DULIMOVEN_ALWAYS_NEEDED == 1 &&
             DULIMOVEN_MAY_NEED == 2 && DULIMOVEN_MAY_SET == 3 &&
             DULIMOVEN_MAY_CLEAR == 4 && DULIMOVEN_ALWAYS_SET == 5 &&
             DULIMOVEN_ALWAYS_CLEARED == 6 && DULIMOVEN_ALWAYS_STANDS == 7 &&
             DULIMOVEN_MAY_FIRST_SET == 8 &&
             DULIMOVEN_MAY_FIRST_UNTOUCHED == 9 &&
             DULIMOVEN_MAY_LAST_UNTOUCHED == 10 &&
             DULIMOVEN_MAY_END_CLEARED == 11 &&
             DULIMOVEN_MAY_END_UNMENTIONED == 12 && DULIMOVEN_COLUMNS == 12 &&
             DULIMOVEN_COLUMN_WORDS == 4 && DULIMOVEN_CARD_WORDS == 49);
    /* "word 1 + 4 x (k - 1) + f / 64 of a card, bit f % 64": facts 0 to 63
       first */
    for (column = 1; column <= DULIMOVEN_COLUMNS; column++) {
        uint32_t f;
        hold("the words of a column",
             dulimoven_column(card, column) == card + 4 * column - 3);
        for (f = 0; f < 256; f++) {
            memset(card, 0, sizeof card);
            card[1 + 4 * (column - 1) + (int)(f / 64)] = UINT64_C(1) << f % 64;
            hold("a fact of a column",
                 dulimoven_card_has(card, column, f) == 1 &&
                     dulimoven_card_has(card, column, f ^ 64) == 0 &&
                     dulimoven_card_has(card, column, f ^ 1) == 0 &&
                     dulimoven_card_has(card, column % 12 + 1, f) == 0 &&
                     dulimoven_card_has(card, column, f + 256) == 0);
        }
    }
    hold("sequence 0 of L has an empty run",
         dulimoven_has_empty_run(cards_of_l[0]) == 1);
    hold("sequence 1 of L can change two facts",
         dulimoven_changeable(cards_of_l[1]) == 2);
    hold("sequence 2 of L has no run", dulimoven_has_run(cards_of_l[2]) == 0);
    hold("a run of checks alone is an empty one",
         dulimoven_has_empty_run(single_cards[0]) == 1 &&
             dulimoven_has_empty_run(single_cards[7]) == 0);
}

int main(void)
{
    areas_of_l();
    no_cards();
    refusals();
    set_and_cleared();
    columns();
    at_borders();
    highest_facts();
    each_fact();
    dead();
    with_checks();
    most_facts();
    all_facts();
    blank_cards();
    deep("each calls the next", 1);
    deep("each calls the one before", 0);
    names();
    printf("cards_test: %u checks, %u failed\n", ran, failed);
    return failed == 0 ? 0 : 1;
}
