/*
 * dulimoven_endless from the C side: lists worked out by hand, of L, of a
 * library of ten sequences, of rings, rows and full images; the refusals in
 * their order; areas that are empty, too short, just enough and longer; and
 * that every call leaves the image, and each word that is not the list's, as it
 * was. Each list that is expected is also held against the words of its image:
 * every alternative of a member names a member. C11 and C++17. Prints a line
 * for each answer that differs, and for the first word that does, then a count;
 * the exit status is 0 where nothing differs.
 *
 * Tried: plain passes stood in the call's place, with one break at a time, and
 * each of these 27 was reported. Of runs: a sequence without alternatives has
 * one, the last entry alone decides, one pass over the sequences, 16 where
 * there is no run, no 16. Of the list: the asked one left out, its own calls
 * alone followed, callers taken for calls, the first alternative alone
 * followed, entries behind a dead one not followed, sequences with a run listed
 * or gone through, the highest number first, a kind in the words, a length one
 * too great. Of the area: one just as long refused, one too short filled, its
 * length taken for bytes, C words asked for, a word past the list written, all
 * of them cleared. Of refusals: the number C let through, a number by its low 8
 * or 32 bits, 17 before 16 or before 9, a position.
 *
 * Below, <..> is an alternative with its entries, a number in it a sequence,
 * and "set" a step that sets fact 0.
 */
#include "borders.h"
#include "dead.h"
#include "harness.h"
#include "listed.h"
#include "pulses.h"
#include "samples.h"
#include "ten.h"

/*
 * The area under test, with guard words on both sides, and what it has to be
 * after the call. A long area has 3 words more than any list.
 */
enum {
    LONG_AREA = DULIMOVEN_MOST_ENDLESS_WORDS + 3,
    LIST_AREA = GUARD + LONG_AREA + GUARD
};
static uint32_t list_area[LIST_AREA];
static uint32_t expected_area[LIST_AREA];

/*
 * Calls with an area of `length` words, every word its own pattern so that a
 * word that stays can be told. Compares the answer and every word: those given
 * are expected from word 0 on, the rest as it was.
 */
static void endless(const char *name, uint64_t sequence, size_t length,
                    uint64_t expected, const uint32_t *given, size_t count)
{
    uint64_t answer;
    size_t i;
    for (i = 0; i < LIST_AREA; i++) {
        list_area[i] = UINT32_C(0xabad0000) + (uint32_t)i;
        expected_area[i] = list_area[i];
    }
    for (i = 0; i < count; i++)
        expected_area[GUARD + i] = given[i];
    keep();
    answer = dulimoven_endless(area + GUARD, words, sequence, list_area + GUARD,
                               length);
    ran++;
    if (answer != expected) {
        failed++;
        printf("%s, sequence %" PRIu64 ": expected %" PRIx64
               ", answered %" PRIx64 "\n",
               name, sequence, expected, answer);
    }
    kept(name);
    for (i = 0; i < LIST_AREA; i++) {
        if (list_area[i] == expected_area[i])
            continue;
        failed++;
        printf("%s, sequence %" PRIu64 ", word %d of the area: expected "
               "%" PRIx32 ", found %" PRIx32 "\n",
               name, sequence, (int)i - GUARD, expected_area[i], list_area[i]);
        return;
    }
}

/*
 * The list has the numbers given, in an area of just so many words, in one of a
 * word more and in a long one. In an area without a word, and in one that is a
 * word short, refusal 17 leaves the area as it was.
 */
static void listed(const char *name, uint64_t sequence, const uint32_t *given,
                   size_t count)
{
    endless(name, sequence, count, count, given, count);
    endless(name, sequence, count + 1, count, given, count);
    endless(name, sequence, LONG_AREA, count, given, count);
    endless(name, sequence, 0, REFUSED(17, 0), NULL, 0);
    endless(name, sequence, count - 1, REFUSED(17, 0), NULL, 0);
    hold(name, dulimoven_endless(area + GUARD, words, sequence, NULL, 0) ==
                   REFUSED(17, 0));
    hold(name, list_rises(given, count) &&
                   list_supports(area + GUARD, words, given, count));
}

#define LISTED(name, sequence, ...)                   \
    do {                                              \
        static const uint32_t list[] = {__VA_ARGS__}; \
        listed(name, sequence, list, COUNT(list));    \
    } while (0)

/* A refusal, whatever the area. */
static void refuses(const char *name, uint64_t sequence, uint64_t expected)
{
    endless(name, sequence, 0, expected, NULL, 0);
    endless(name, sequence, 1, expected, NULL, 0);
    endless(name, sequence, LONG_AREA, expected, NULL, 0);
    hold(name, dulimoven_endless(area + GUARD, words, sequence, NULL, 0) ==
                   expected);
}

/* 16: "where the sequence has a run". */
static void has_run(const char *name, uint64_t sequence)
{
    refuses(name, sequence, REFUSED(16, 0));
}

/*
 * L: sequence 0 is <step 0>, <>; 1 is <0, step 1>; 2 is <2>. So 0 and 1 have a
 * run, and 2 keeps itself from one.
 */
static void samples(void)
{
    uint32_t sevens[3] = {7, 7, 7};
    uint64_t sequence;
    build(library_l, L_SUM);
    hold("L has its sum word", *word_at(L_SUM) == library_l[L_SUM]);
    LISTED("L", 2, 2);
    hold("L, sequence 2, an area of 7 7 7",
         dulimoven_endless(area + GUARD, words, 2, sevens, 3) == 1 &&
             sevens[0] == 2 && sevens[1] == 7 && sevens[2] == 7);
    for (sequence = 0; sequence < 2; sequence++)
        has_run("L", sequence);
    refuses("L", 3, REFUSED(9, 0));
    refuses("L", UINT64_C(0x100000002), REFUSED(9, 0));

    start();
    put_all(no_sequence, COUNT(no_sequence));
    refuses("no sequence", 0, REFUSED(9, 0));
    start();
    put_all(no_fact, COUNT(no_fact));
    refuses("no fact", 0, REFUSED(3, 0));
}

/* The library of ten.h, its words as printed and by name. */
static void ten_sequences(void)
{
    uint32_t c;
    build(ten, TEN_SUM);
    hold("the sum word of ten sequences", *word_at(TEN_SUM) == ten[TEN_SUM]);
    BUILD(TEN_WORDS);
    hold("the builder's words are those",
         words == COUNT(ten) && memcmp(word_at(0), ten, sizeof ten) == 0);
    /* 3 has nothing to choose; 0 waits for 3 and 1, and 1 for 0 */
    LISTED("ten", 0, 0, 1, 3);
    /* the same by another way round */
    LISTED("ten", 1, 0, 1, 3);
    /* the empty alternative gives a run */
    has_run("ten", 2);
    LISTED("ten", 3, 3);
    /* 2 has a run */
    LISTED("ten", 4, 4);
    /* 6 has a run, and 7 is named by 6 alone */
    LISTED("ten", 5, 5);
    /* a check is no sequence */
    has_run("ten", 6);
    LISTED("ten", 7, 7);
    /* 1 is reached though 9 stands before it, and by it 0 and 3 */
    LISTED("ten", 8, 0, 1, 3, 7, 8, 9);
    LISTED("ten", 9, 3, 7, 9);
    refuses("ten", TEN, REFUSED(9, 0));
    for (c = 0; c < TEN; c++)
        refuses("ten, a long number", UINT64_C(0x100000000) + c,
                REFUSED(9, 0));
}

/*
 * Lists of the ten sequences that have the property and are no answer, and
 * others that lack it: one with a member that has a run, or one from which a
 * sequence is missing that an alternative waits for.
 */
static void property(void)
{
    static const struct {
        const char *name;
        size_t count;
        uint32_t list[TEN];
        int supports;
    } lists[] = {{"all without a run", 8, {0, 1, 3, 4, 5, 7, 8, 9}, 1},
                 {"in another order, with repeats", 4, {7, 4, 5, 7}, 1},
                 {"none", 0, {0}, 1},
                 {"3, which has no alternative", 1, {3}, 1},
                 {"0 without 3", 2, {0, 1}, 0},
                 {"0 without 1", 2, {0, 3}, 0},
                 {"9 without 7", 2, {3, 9}, 0},
                 {"8 by 9 alone", 4, {3, 7, 8, 9}, 1},
                 {"2, of which one alternative names 2", 1, {2}, 0},
                 {"6, of which one alternative checks", 3, {5, 6, 7}, 0}};
    size_t i;
    build(ten, TEN_SUM);
    for (i = 0; i < COUNT(lists); i++)
        hold(lists[i].name,
             list_supports(area + GUARD, words, lists[i].list,
                           lists[i].count) == lists[i].supports);
}

/* Facts above 63, of steps and of checks, give a run or none as others do. */
static void many_facts(void)
{
    build_borders();
    has_run("borders", 0);
    has_run("borders", 1);
    has_run("borders", 2);
    has_run("borders", 3);
    LISTED("borders", 4, 4);
    refuses("borders", 5, REFUSED(9, 0));
    BUILD(HEAD(256, 1, 3), STEP(0), NEEDS(64), SETS(255), CLEARS(191),
          SEQUENCE(0), ALTERNATIVE, CHECK(255), CALL(1), CHECK(64),
          SEQUENCE(1), ALTERNATIVE, DO(0), CALL(0),
          SEQUENCE(2), ALTERNATIVE, CHECK(200), ALTERNATIVE, CALL(1));
    LISTED("checks above 63", 0, 0, 1);
    LISTED("checks above 63", 1, 0, 1);
    has_run("checks above 63", 2);
}

/* Where the entry stands, and in which alternative. */
static void places(void)
{
    /* 0 is <set, 1, set, 2>, <3>; 1 is <1, 4>; 2 has a run and names 5; 3 to 5
       call themselves */
    BUILD(HEAD(1, 1, 6), STEP(0), SETS(0),
          SEQUENCE(0), ALTERNATIVE, DO(0), CALL(1), DO(0), CALL(2),
              ALTERNATIVE, CALL(3),
          SEQUENCE(1), ALTERNATIVE, CALL(1), CALL(4),
          SEQUENCE(2), ALTERNATIVE, CALL(5), ALTERNATIVE, DO(0),
          SEQUENCE(3), ALTERNATIVE, CALL(3),
          SEQUENCE(4), ALTERNATIVE, CHECK(0), CALL(4),
          SEQUENCE(5), ALTERNATIVE, CALL(5));
    /* 5 is named by 2 alone, which has a run; 4 stands behind the dead 1 */
    LISTED("places", 0, 0, 1, 3, 4);
    LISTED("places", 1, 1, 4);
    has_run("places", 2);
    LISTED("places", 3, 3);
    LISTED("places", 4, 4);
    LISTED("places", 5, 5);

    /* 0 is <1, 2, 3>; 1 and 3 are <set>; 2 is <2>, <4>; 4 is <1, 4>. What gives
       a run before and behind the dead entry is passed. */
    BUILD(HEAD(1, 1, 5), STEP(0), SETS(0),
          SEQUENCE(0), ALTERNATIVE, CALL(1), CALL(2), CALL(3),
          SEQUENCE(1), ALTERNATIVE, DO(0),
          SEQUENCE(2), ALTERNATIVE, CALL(2), ALTERNATIVE, CALL(4),
          SEQUENCE(3), ALTERNATIVE, DO(0),
          SEQUENCE(4), ALTERNATIVE, CALL(1), CALL(4));
    LISTED("a dead entry between two that are not", 0, 0, 2, 4);
    has_run("a dead entry between two that are not", 1);
    LISTED("a dead entry between two that are not", 2, 2, 4);
    has_run("a dead entry between two that are not", 3);
    LISTED("a dead entry between two that are not", 4, 4);

    /* the libraries of dead.h: 1 calls itself, 2 names 0, which has a run, and
       1; in the other one each has a run in the end */
    BUILD_DEAD(dead_places);
    has_run("dead places", 0);
    LISTED("dead places", 1, 1);
    LISTED("dead places", 2, 1, 2);
    has_run("dead places", 3);
    has_run("dead places", 4);
    BUILD_DEAD(found_later);
    has_run("found later", 0);
    has_run("found later", 1);
    has_run("found later", 2);
    has_run("found later", 3);
}

/* The numbers from `from` up to and without `to`. */
static uint32_t row[MOST_C];

static size_t count_from(uint32_t from, uint32_t to)
{
    uint32_t c;
    for (c = from; c < to; c++)
        row[c - from] = c;
    return to - from;
}

/* 256 sequences of which those below `count` are there, c is <c + 1>, and the
 * last of all is <0>; without the sum word. */
static void put_row(uint32_t count)
{
    uint32_t c;
    start();
    put(HEAD(1, 0, MOST_C));
    for (c = 0; c < count; c++)
        PUT(SEQUENCE(c), ALTERNATIVE, CALL((c + 1) % MOST_C));
}

/*
 * A ring of 256, sequence c is <c + 1 mod 256>. Its sum word: the head is taken
 * 769 times, the opener of c 768 - 3c times, its alternative 767 - 3c and its
 * entry 766 - 3c times. So the payloads after the head's add up to 8388480 of
 * the openers and 8421120 of the entries, and the kinds to 2165505: 769 *
 * 0x8000001 + 16809600 + 1024 * 2165505 = 0x188d2c8581, of which 28 bits are
 * 0xd2c8581.
 */
static void ring(void)
{
    size_t all = count_from(0, MOST_C);
    uint32_t c;
    put_row(MOST_C);
    put_sum();
    hold("the ring's words", words == 770 && *word_at(0) == 0x18000001 &&
                                 *word_at(769) == 0xfd2c8581);
    for (c = 0; c < MOST_C; c++)
        listed("a ring of 256", c, row, all);
    endless("a ring of 256, 255 words", 7, 255, REFUSED(17, 0), NULL, 0);
    refuses("a ring of 256", 256, REFUSED(9, 0));
}

/*
 * A row of 256 that ends in a sequence without alternatives. The sum word: the
 * payloads after the head's add up to 16679040, the kinds to 2154248: 767 *
 * 0x8000001 + 16679040 + 1024 * 2154248 = 0x187c7aa37f, of which 28 bits are
 * 0xc7aa37f. With an empty alternative at its end all have a run, which comes
 * back from the last to the first.
 */
static void long_row(void)
{
    uint32_t c;
    put_row(MOST_C - 1);
    put(SEQUENCE(MOST_C - 1));
    put_sum();
    hold("the row's words",
         words == 768 && *word_at(767) == 0xfc7aa37f);
    LISTED("a row of 256", 254, 254, 255);
    LISTED("a row of 256", 255, 255);
    for (c = 0; c < MOST_C; c++)
        listed("a row of 256", c, row, count_from(c, MOST_C));
    words--;
    put(ALTERNATIVE);
    put_sum();
    for (c = 0; c < MOST_C; c++)
        has_run("a row of 256 with a way out", c);
}

/* A row of 256 that goes down: 0 has no alternative, c is <c - 1>. */
static void row_down(void)
{
    uint32_t c;
    start();
    PUT(HEAD(1, 0, MOST_C), SEQUENCE(0));
    for (c = 1; c < MOST_C; c++)
        PUT(SEQUENCE(c), ALTERNATIVE, CALL(c - 1));
    put_sum();
    for (c = 0; c < MOST_C; c++)
        listed("a row of 256 downwards", c, row, count_from(0, c + 1));
}

/*
 * 256 sequences. Those beside a multiple of 64 call themselves, 0 calls them
 * all, 1 calls 0 and the others are empty.
 */
static void apart(void)
{
    static const uint32_t ends[] = {0, 63, 64, 127, 128, 191, 192, 255};
    static const uint32_t by_one[] = {0, 1, 63, 64, 127, 128, 191, 192, 255};
    uint32_t c;
    size_t i, next = 1;
    start();
    PUT(HEAD(1, 0, MOST_C), SEQUENCE(0), ALTERNATIVE);
    for (i = 1; i < COUNT(ends); i++)
        put(CALL(ends[i]));
    PUT(SEQUENCE(1), ALTERNATIVE, CALL(0));
    for (c = 2; c < MOST_C; c++) {
        PUT(SEQUENCE(c), ALTERNATIVE);
        if (next < COUNT(ends) && c == ends[next]) {
            put(CALL(c));
            next++;
        }
    }
    put_sum();
    listed("far apart", 0, ends, COUNT(ends));
    listed("far apart", 1, by_one, COUNT(by_one));
    for (i = 1; i < COUNT(ends); i++)
        listed("far apart", ends[i], ends + i, 1);
    has_run("far apart", 2);
    has_run("far apart", 62);
    has_run("far apart", 65);
    has_run("far apart", 254);
}

/*
 * 8,192 words. Sequence 0 is one alternative, <1, 1, .., last>, or thousands of
 * alternatives <2> and one more; 1 is empty, 2 calls itself, 3 calls 0.
 */
static void full_images(void)
{
    enum { REST = 8 };
    start();
    PUT(HEAD(1, 0, 4), SEQUENCE(0), ALTERNATIVE);
    fill(CALL(1), FULL - 1 - REST - 1);
    put(CALL(2));
    PUT(SEQUENCE(1), ALTERNATIVE, SEQUENCE(2), ALTERNATIVE, CALL(2),
        SEQUENCE(3), ALTERNATIVE, CALL(0));
    put_sum();
    hold("8,192 words", words == FULL);
    LISTED("the last of 8,180 entries is dead", 0, 0, 2);
    has_run("the last of 8,180 entries is dead", 1);
    LISTED("the last of 8,180 entries is dead", 2, 2);
    LISTED("the last of 8,180 entries is dead", 3, 0, 2, 3);
    *word_at(FULL - 1 - REST - 1) = CALL(1);
    sum_again();
    has_run("none of 8,180 entries is dead", 0);
    has_run("none of 8,180 entries is dead", 3);
    LISTED("none of 8,180 entries is dead", 2, 2);

    start();
    PUT(HEAD(1, 0, 4), SEQUENCE(0));
    while (words < FULL - 1 - REST - 1)
        PUT(ALTERNATIVE, CALL(2));
    put(CALL(1));
    PUT(SEQUENCE(1), ALTERNATIVE, SEQUENCE(2), ALTERNATIVE, CALL(2),
        SEQUENCE(3), ALTERNATIVE, CALL(0));
    put_sum();
    hold("8,192 words", words == FULL);
    LISTED("4,090 alternatives are dead", 0, 0, 2);
    LISTED("4,090 alternatives are dead", 3, 0, 2, 3);
    *word_at(FULL - 1 - REST - 1) = ALTERNATIVE;
    sum_again();
    has_run("the last of 4,091 alternatives is empty", 0);
    has_run("the last of 4,091 alternatives is empty", 3);
}

/* 9 before 16 before 17, and all 64 bits of a number count. */
static void order(void)
{
    static const uint64_t high[] = {UINT64_C(0x100000000),
                                    UINT64_C(0x8000000000000000),
                                    UINT64_C(0xffffffff00000000)};
    uint64_t low;
    size_t i;
    build(library_l, L_SUM);
    refuses("9 before 17: 256, whose low eight bits are 0", 256, REFUSED(9, 0));
    refuses("9 before 17: 258, whose low eight bits are 2", 258, REFUSED(9, 0));
    for (i = 0; i < COUNT(high); i++)
        for (low = 0; low < 3; low++)
            refuses("9: a long number", high[i] + low, REFUSED(9, 0));
    refuses("9: the greatest number", ~UINT64_C(0), REFUSED(9, 0));
    endless("16 before 17", 1, 0, REFUSED(16, 0), NULL, 0);
    endless("17", 2, 0, REFUSED(17, 0), NULL, 0);
    hold("the names of 16 and 17",
         DULIMOVEN_HAS_RUN == 16 && DULIMOVEN_LIST_AREA == 17);
}

/* Refusals 1 to 7 and 13 come first, whatever number is asked about. */
static void refusals(void)
{
    static const uint64_t numbers[] = {0, 1, 300, ~UINT64_C(0)};
    size_t i, j;
    for (i = 0; i < COUNT(numbers); i++) {
        uint64_t n = numbers[i];
        start();
        refuses("1: no word", n, REFUSED(1, 0));
        put(HEAD(1, 0, 0));
        refuses("1: one word", n, REFUSED(1, 0));
        build(library_l, L_SUM);
        miss_sum(1);
        refuses("2: L with a wrong sum word", n, REFUSED(2, L_SUM));
        BUILD(HEAD(MOST_F + 1, 0, 1), SEQUENCE(0));
        refuses("3: F above the greatest", n, REFUSED(3, 0));
        BUILD(HEAD(1, 0, 1), SEQUENCE(0), WORD(0, 0));
        refuses("4: kind 0", n, REFUSED(4, 2));
        BUILD(HEAD(1, 0, 1), SEQUENCE(0), WORD(KIND_ALTERNATIVE, 1));
        refuses("5: an alternative with payload 1", n, REFUSED(5, 2));
        BUILD(HEAD(1, 0, 1), SEQUENCE(0), ALTERNATIVE, CALL(1));
        refuses("5: an entry that names nothing", n, REFUSED(5, 3));
        BUILD(HEAD(1, 1, 1), STEP(0), SETS(0), SETS(0), SEQUENCE(0));
        refuses("6: a fact word twice", n, REFUSED(6, 3));
        BUILD(HEAD(1, 0, 2), SEQUENCE(0));
        refuses("7: one sequence of two", n, REFUSED(7, 2));
        hold("1: no word, null pointers",
             dulimoven_endless(NULL, 0, n, NULL, 0) == REFUSED(1, 0));
        /* 13; those that are accepted have no sequence */
        for (j = 0; j < COUNT(pulses); j++) {
            const struct pulse *p = &pulses[j];
            build(p->words, p->count);
            refuses(p->why, n, p->number == 0
                                   ? REFUSED(9, 0)
                                   : REFUSED(p->number, p->position));
        }
    }
    start();
    fill(WORD(KIND_SUM, 0), FULL + 1);
    refuses("1: 8,193 words", 300, REFUSED(1, 0));
}

int main(void)
{
    samples();
    ten_sequences();
    property();
    many_facts();
    places();
    ring();
    long_row();
    row_down();
    apart();
    full_images();
    order();
    refusals();
    printf("endless_test: %u checks, %u failed\n", ran, failed);
    return failed == 0 ? 0 : 1;
}
