/*
 * dulimoven_chain from the C side: every question of library L, chains worked
 * out by hand, the refusals in their order, areas that are empty, too short,
 * exact and longer, and that every call leaves the image, and each word that is
 * not the chain's, as it was. C11 and C++17. Prints a line for each word that
 * differs, then a count; the exit status is 0 where nothing differs.
 *
 * Below, "set", "clear" and "need" are steps that do this to fact 0, "other" is
 * a step that does neither, "check" checks that it stands, and <..> is an
 * alternative with its entries.
 */
#include "borders.h"
#include "checks.h"
#include "dead.h"
#include "harness.h"
#include "pulses.h"
#include "samples.h"

/*
 * The chain area under test, with guard words on both sides, and what it has to
 * be after the call. A long area has 3 words more than any chain.
 */
enum {
    LONG_AREA = DULIMOVEN_MOST_CHAIN_WORDS + 3,
    CHAIN_AREA = GUARD + LONG_AREA + GUARD
};
static uint32_t chain_area[CHAIN_AREA];
static uint32_t expected_area[CHAIN_AREA];

/*
 * Calls with an area of `length` words, every word its own pattern so that a
 * word that stays can be told. Compares the answer and every word: those given
 * are expected from word 0 on, the rest as it was.
 */
static void chain(const char *name, uint64_t sequence, uint64_t question,
                  uint64_t fact, size_t length, uint64_t expected,
                  const uint32_t *given, size_t count)
{
    uint64_t answer;
    size_t i;
    for (i = 0; i < CHAIN_AREA; i++) {
        chain_area[i] = UINT32_C(0xabad0000) + (uint32_t)i;
        expected_area[i] = chain_area[i];
    }
    for (i = 0; i < count; i++)
        expected_area[GUARD + i] = given[i];
    keep();
    answer = dulimoven_chain(area + GUARD, words, sequence, question, fact,
                             chain_area + GUARD, length);
    ran++;
    if (answer != expected) {
        failed++;
        printf("%s: expected %" PRIx64 ", answered %" PRIx64 "\n", name,
               expected, answer);
    }
    kept(name);
    for (i = 0; i < CHAIN_AREA; i++) {
        if (chain_area[i] == expected_area[i])
            continue;
        failed++;
        printf("%s: word %d of the area: expected %" PRIx32 ", found %" PRIx32
               "\n",
               name, (int)i - GUARD, expected_area[i], chain_area[i]);
    }
}

/*
 * The chain has the words given, in an area of just so many, in one of a word
 * more and in a long one. In an area without a word, and in one that is a word
 * short, refusal 12 leaves the area as it was.
 */
static void shown(const char *name, uint64_t sequence, uint64_t question,
                  uint64_t fact, const uint32_t *given, size_t count)
{
    uint64_t links = count / 2;
    chain(name, sequence, question, fact, count, links, given, count);
    chain(name, sequence, question, fact, count + 1, links, given, count);
    chain(name, sequence, question, fact, LONG_AREA, links, given, count);
    chain(name, sequence, question, fact, 0, REFUSED(12, 0), NULL, 0);
    chain(name, sequence, question, fact, count - 1, REFUSED(12, 0), NULL, 0);
}

#define SHOWN(name, sequence, question, fact, ...)               \
    do {                                                         \
        static const uint32_t chain_words[] = {__VA_ARGS__};     \
        shown(name, sequence, question, fact, chain_words,       \
              COUNT(chain_words));                               \
    } while (0)

/* An answer that writes nothing, whatever the area. */
static void unwritten(const char *name, uint64_t sequence, uint64_t question,
                      uint64_t fact, uint64_t expected)
{
    chain(name, sequence, question, fact, 0, expected, NULL, 0);
    chain(name, sequence, question, fact, 1, expected, NULL, 0);
    chain(name, sequence, question, fact, LONG_AREA, expected, NULL, 0);
    hold(name, dulimoven_chain(area + GUARD, words, sequence, question, fact,
                               NULL, 0) == expected);
}

static void none(const char *name, uint64_t sequence, uint64_t question,
                 uint64_t fact)
{
    unwritten(name, sequence, question, fact, 0);
}

/* The six questions about fact 0, of a sequence that has no run. */
static void all_none(const char *name, uint64_t sequence)
{
    uint64_t question;
    for (question = 0; question < 6; question++)
        none(name, sequence, question, 0);
}

/* The chain samples of document 01, their words as printed there. */
static void samples(void)
{
    build(library_l, L_SUM);
    hold("L has its sum word", *word_at(L_SUM) == library_l[L_SUM]);
    shown("L, 1, question 2, fact 0", 1, 2, 0, untouched_in_l,
          COUNT(untouched_in_l));
    shown("L, 1, question 0, fact 0", 1, 0, 0, set_in_l, COUNT(set_in_l));
    chain("L, 1, question 0, fact 0, an area of 3 words", 1, 0, 0, 3,
          REFUSED(12, 0), NULL, 0);
    none("L, 1, question 1, fact 1", 1, 1, 1);
    none("L, 2, question 2, fact 0", 2, 2, 0);
    unwritten("L, sequence 3", 3, 0, 0, REFUSED(9, 0));
    unwritten("L, question 6, fact 3", 0, 6, 3, REFUSED(10, 0));
    unwritten("L, question 6, fact 3", 1, 6, 3, REFUSED(10, 0));

    start();
    put_all(no_sequence, COUNT(no_sequence));
    unwritten("no sequence, sequence 0", 0, 0, 0, REFUSED(9, 0));
    start();
    put_all(no_fact, COUNT(no_fact));
    unwritten("no fact", 0, 0, 0, REFUSED(3, 0));
    unwritten("no fact, and 9, 10 and 11", 3, 6, 3, REFUSED(3, 0));

    /* <itself>, <>: the only finite choice is alternative 1 */
    BUILD(HEAD(1, 0, 1), SEQUENCE(0), ALTERNATIVE, CALL(0), ALTERNATIVE);
    SHOWN("<itself>, <>, question 2", 0, 2, 0, CHOICE(0, 1), UNTOUCHED);
    SHOWN("<itself>, <>, question 5", 0, 5, 0, CHOICE(0, 1), UNTOUCHED);

    /* always cleared: 0 and 2 have no chain, 1 has alternative 1's step */
    BUILD(HEAD(1, 2, 2), STEP(0), SETS(0), STEP(1), CLEARS(0),
          SEQUENCE(0), ALTERNATIVE, DO(0), CALL(1), ALTERNATIVE, DO(1),
          SEQUENCE(1), ALTERNATIVE, CALL(1));
    none("<set, endless>, <clear>, question 0", 0, 0, 0);
    SHOWN("<set, endless>, <clear>, question 1", 0, 1, 0, CHOICE(0, 1), AT(0));
    none("<set, endless>, <clear>, question 2", 0, 2, 0);
    none("<set, endless>, <clear>, question 3", 0, 3, 0);
    none("<set, endless>, <clear>, question 4", 0, 4, 0);
    SHOWN("<set, endless>, <clear>, question 5", 0, 5, 0, CHOICE(0, 1),
          UNTOUCHED);

    /* always needed: a clear is no touch on the first side, so the first touch
       is the need at position 1 */
    BUILD(HEAD(1, 2, 1), STEP(0), CLEARS(0), STEP(1), NEEDS(0),
          SEQUENCE(0), ALTERNATIVE, DO(0), DO(1));
    SHOWN("<clear, need>, question 3", 0, 3, 0, CHOICE(0, 0), AT(1));
    none("<clear, need>, question 4", 0, 4, 0);
    none("<clear, need>, question 5", 0, 5, 0);
    SHOWN("<clear, need>, question 1", 0, 1, 0, CHOICE(0, 0), AT(0));

    /* a step that sets and clears is refused at its clear word; without that
       word it sets */
    BUILD(HEAD(1, 1, 1), STEP(0), SETS(0), CLEARS(0),
          SEQUENCE(0), ALTERNATIVE, DO(0));
    unwritten("<set and clear>, question 0", 0, 0, 0, REFUSED(13, 3));
    unwritten("<set and clear>, question 1", 0, 1, 0, REFUSED(13, 3));
    unwritten("<set and clear>, question 2", 0, 2, 0, REFUSED(13, 3));
    BUILD(HEAD(1, 1, 1), STEP(0), SETS(0), SEQUENCE(0), ALTERNATIVE, DO(0));
    SHOWN("<set>, question 0", 0, 0, 0, CHOICE(0, 0), AT(0));
    none("<set>, question 1", 0, 1, 0);
    none("<set>, question 2", 0, 2, 0);

    /* 256 facts are read, 257 are not; a fact is told by all its bits */
    BUILD(HEAD(64, 1, 1), STEP(0), SETS(63), SEQUENCE(0), ALTERNATIVE, DO(0));
    SHOWN("fact 63 of 64", 0, 0, 63, CHOICE(0, 0), AT(0));
    SHOWN("fact 62 of 64", 0, 2, 62, CHOICE(0, 0), UNTOUCHED);
    unwritten("fact 64 of 64", 0, 0, 64, REFUSED(11, 0));
    BUILD(HEAD(256, 1, 1), STEP(0), SETS(255), SEQUENCE(0), ALTERNATIVE, DO(0));
    SHOWN("fact 255 of 256", 0, 0, 255, CHOICE(0, 0), AT(0));
    none("fact 191 of 256", 0, 0, 191);
    none("fact 127 of 256", 0, 0, 127);
    none("fact 63 of 256", 0, 0, 63);
    SHOWN("fact 63 of 256, untouched", 0, 2, 63, CHOICE(0, 0), UNTOUCHED);
    unwritten("fact 256 of 256", 0, 0, 256, REFUSED(11, 0));
    unwritten("fact 511 of 256", 0, 0, 511, REFUSED(11, 0));
    BUILD(HEAD(257, 1, 1), STEP(0), SETS(63), SEQUENCE(0), ALTERNATIVE, DO(0));
    unwritten("fact 63 of 257", 0, 0, 63, REFUSED(3, 0));
    BUILD(HEAD(65, 1, 1), STEP(0), SETS(64), SEQUENCE(0), ALTERNATIVE, DO(0));
    SHOWN("fact 64 of 65", 0, 0, 64, CHOICE(0, 0), AT(0));
    none("fact 0 of 65", 0, 0, 0);
    unwritten("fact 65 of 65", 0, 0, 65, REFUSED(11, 0));
}

/* A question that has a chain, of one link or two. */
struct answer {
    uint64_t sequence, question, fact, links;
    uint32_t given[4];
};

/*
 * Every question about every fact of the first so many sequences of the library
 * under test: the chains given, and "none" for every other question.
 */
static void every_question(const char *library, uint64_t sequences,
                           uint64_t facts, const struct answer *chains,
                           size_t count)
{
    uint64_t c, q, f;
    for (c = 0; c < sequences; c++)
        for (q = 0; q < 6; q++)
            for (f = 0; f < facts; f++) {
                char name[80];
                size_t i = 0;
                snprintf(name, sizeof name, "%s: %u, question %u, fact %u",
                         library, (unsigned)c, (unsigned)q, (unsigned)f);
                while (i < count &&
                       (chains[i].sequence != c || chains[i].question != q ||
                        chains[i].fact != f))
                    i++;
                if (i < count)
                    shown(name, c, q, f, chains[i].given,
                          2 * (size_t)chains[i].links);
                else
                    none(name, c, q, f);
            }
}

/*
 * All 54 answers of L. Sequence 0 is <set 0>, <>; sequence 1 is <sequence 0,
 * step 1>, and step 1 needs fact 0 and sets fact 1; sequence 2 is endless.
 * Nothing touches fact 2.
 *
 * Sequence 0: fact 0 is set by alternative 0 at position 0, and untouched in
 * alternative 1; facts 1 and 2 are untouched in alternative 0 too, which is as
 * deep (1), and alternative 1 is the higher.
 *
 * Sequence 1, one alternative, so 0 at each link. Fact 0: last set, by the call
 * at position 0, since step 1 neither sets nor clears it, then as in sequence
 * 0; last untouched, with sequence 0 empty; first needed, by step 1 at position
 * 1, since sequence 0 can stay untouched; first set, by the call at 0; never
 * first untouched, since step 1 needs it. Fact 1: last and first set by step 1
 * at position 1. Fact 2: untouched.
 */
static void every_question_of_l(void)
{
    static const struct answer chains[] = {
        {0, 0, 0, 1, {CHOICE(0, 0), AT(0), 0, 0}},
        {0, 2, 0, 1, {CHOICE(0, 1), UNTOUCHED, 0, 0}},
        {0, 4, 0, 1, {CHOICE(0, 0), AT(0), 0, 0}},
        {0, 5, 0, 1, {CHOICE(0, 1), UNTOUCHED, 0, 0}},
        {0, 2, 1, 1, {CHOICE(0, 1), UNTOUCHED, 0, 0}},
        {0, 5, 1, 1, {CHOICE(0, 1), UNTOUCHED, 0, 0}},
        {0, 2, 2, 1, {CHOICE(0, 1), UNTOUCHED, 0, 0}},
        {0, 5, 2, 1, {CHOICE(0, 1), UNTOUCHED, 0, 0}},
        {1, 0, 0, 2, {CHOICE(1, 0), AT(0), CHOICE(0, 0), AT(0)}},
        {1, 2, 0, 1, {CHOICE(1, 0), UNTOUCHED, 0, 0}},
        {1, 3, 0, 1, {CHOICE(1, 0), AT(1), 0, 0}},
        {1, 4, 0, 2, {CHOICE(1, 0), AT(0), CHOICE(0, 0), AT(0)}},
        {1, 0, 1, 1, {CHOICE(1, 0), AT(1), 0, 0}},
        {1, 4, 1, 1, {CHOICE(1, 0), AT(1), 0, 0}},
        {1, 2, 2, 1, {CHOICE(1, 0), UNTOUCHED, 0, 0}},
        {1, 5, 2, 1, {CHOICE(1, 0), UNTOUCHED, 0, 0}},
    };
    build(library_l, L_SUM);
    every_question("L", 3, 3, chains, COUNT(chains));
}

/* The chains of the library of borders.h, as they are put down. */
static struct answer border_chains[20 * 256];
static size_t border_count;

static void put_one(uint64_t question, uint64_t fact, uint32_t first,
                    uint32_t second)
{
    struct answer a = {first & 0xff, question, fact, 1, {0, 0, 0, 0}};
    a.given[0] = first;
    a.given[1] = second;
    border_chains[border_count++] = a;
}

/* Sequence 3 sets it by the call in alternative 1, and there by step 0. */
static void put_called(uint64_t question, uint64_t fact)
{
    struct answer a = {3, question, fact, 2,
                       {CHOICE(3, 1), AT(0), CHOICE(0, 0), AT(0)}};
    border_chains[border_count++] = a;
}

/* A fact that no step has, and no check: of <1>, <> and of <check 255>,
 * <sequence 0> the one that nests least, and of two such the newest. */
static void put_untouched(uint64_t fact)
{
    uint64_t question;
    for (question = 2; question <= 5; question += 3) {
        put_one(question, fact, CHOICE(0, 0), UNTOUCHED);
        put_one(question, fact, CHOICE(1, 0), UNTOUCHED);
        put_one(question, fact, CHOICE(2, 1), UNTOUCHED);
        put_one(question, fact, CHOICE(3, 0), UNTOUCHED);
    }
}

/* A fact that step 0 sets: 0, 63, 64 and 255. */
static void put_set(uint64_t fact)
{
    put_one(0, fact, CHOICE(0, 0), AT(0));
    put_one(4, fact, CHOICE(0, 0), AT(0));
    /* step 1 clears 63, and touches none of the others on the last side */
    if (fact == 63)
        put_one(1, fact, CHOICE(1, 0), AT(1));
    else
        put_one(0, fact, CHOICE(1, 0), AT(0));
    put_one(4, fact, CHOICE(1, 0), AT(0));
    if (fact == 63)
        put_one(1, fact, CHOICE(2, 0), AT(0));
    put_one(2, fact, CHOICE(2, 1), UNTOUCHED);
    if (fact == 64 || fact == 255)
        put_one(3, fact, CHOICE(2, 0), AT(0));
    put_one(5, fact, CHOICE(2, 1), UNTOUCHED);
    put_called(0, fact);
    put_one(2, fact, CHOICE(3, 0), UNTOUCHED);
    put_called(4, fact);
    /* the check of 255 is a need on the first side */
    if (fact == 255)
        put_one(3, fact, CHOICE(3, 0), AT(0));
    else
        put_one(5, fact, CHOICE(3, 0), UNTOUCHED);
}

/* Every question about each of its 256 facts, and some of them as printed. */
static void at_borders(void)
{
    uint64_t fact;
    build_borders();
    SHOWN("1, question 0, fact 255", 1, 0, 255, 0xa0000001, 0xb0000000);
    SHOWN("1, question 1, fact 63", 1, 1, 63, 0xa0000001, 0xb0000001);
    none("1, question 0, fact 63", 1, 0, 63);
    SHOWN("2, question 3, fact 255", 2, 3, 255, 0xa0000002, 0xb0000000);
    SHOWN("2, question 2, fact 64", 2, 2, 64, 0xa0000102, 0xc0000000);
    SHOWN("3, question 3, fact 255", 3, 3, 255, 0xa0000003, 0xb0000000);
    SHOWN("3, question 4, fact 255", 3, 4, 255, 0xa0000103, 0xb0000000,
          0xa0000000, 0xb0000000);
    for (fact = 256; fact <= 512; fact += 64)
        unwritten("a fact from 256 on", 1, 0, fact, REFUSED(11, 0));
    border_count = 0;
    for (fact = 0; fact < 256; fact++)
        if (fact == 0 || fact == 63 || fact == 64 || fact == 255)
            put_set(fact);
        else
            put_untouched(fact);
    every_question("borders", BORDERS, 256, border_chains, border_count);
}

/* 9 before 10 before 11 before 12, whatever stands in the upper bits. */
static void order(void)
{
    static const uint64_t high[] = {UINT64_C(0x100000000),
                                    UINT64_C(0x8000000000000000),
                                    UINT64_C(0xffffffff00000000)};
    static const uint64_t all = UINT64_C(0xffffffffffffffff);
    uint64_t low;
    size_t i;
    build(library_l, L_SUM);

    unwritten("9, 10 and 11", 3, 6, 3, REFUSED(9, 0));
    unwritten("9 and 10", 3, 6, 2, REFUSED(9, 0));
    unwritten("9 and 11", 3, 5, 3, REFUSED(9, 0));
    unwritten("9", 3, 5, 2, REFUSED(9, 0));
    unwritten("10 and 11", 2, 6, 3, REFUSED(10, 0));
    unwritten("10", 2, 6, 2, REFUSED(10, 0));
    unwritten("11", 2, 5, 3, REFUSED(11, 0));
    unwritten("11, sequence 0", 0, 0, 3, REFUSED(11, 0));
    unwritten("none of them", 2, 5, 2, 0);
    /* 12 is for a chain that exists, with the other three in order */
    chain("12", 1, 0, 0, 3, REFUSED(12, 0), NULL, 0);
    chain("9 before 12", 257, 0, 0, 3, REFUSED(9, 0), NULL, 0);
    chain("10 before 12", 1, 256, 0, 3, REFUSED(10, 0), NULL, 0);
    chain("11 before 12", 1, 0, 256, 3, REFUSED(11, 0), NULL, 0);

    /* the low bits are sequence 0 or 1, question 0, fact 0, which have a
       chain */
    for (i = 0; i < COUNT(high); i++) {
        for (low = 0; low < 2; low++) {
            unwritten("a long sequence", high[i] + low, 0, 0, REFUSED(9, 0));
            unwritten("a long question", low, high[i], 0, REFUSED(10, 0));
            unwritten("a long question, 2", low, high[i] + 2, 0,
                      REFUSED(10, 0));
            unwritten("a long fact", low, 0, high[i], REFUSED(11, 0));
            unwritten("a long question and fact", low, high[i], high[i],
                      REFUSED(10, 0));
            unwritten("three long numbers", high[i] + low, high[i], high[i],
                      REFUSED(9, 0));
        }
    }
    unwritten("the greatest sequence", all, 0, 0, REFUSED(9, 0));
    unwritten("the greatest question", 1, all, 0, REFUSED(10, 0));
    unwritten("the greatest fact", 1, 0, all, REFUSED(11, 0));
    unwritten("the three greatest", all, all, all, REFUSED(9, 0));
}

/*
 * Refusals 1 to 7 and 13 come first: with numbers that name nothing, and with
 * those of a chain.
 */
static void refusals(void)
{
    static const uint64_t numbers[] = {0, 1, 300,
                                       UINT64_C(0xffffffffffffffff)};
    size_t i;
    for (i = 0; i < COUNT(numbers); i++) {
        uint64_t n = numbers[i];
        start();
        unwritten("1: no word", n, n, n, REFUSED(1, 0));
        put(HEAD(1, 0, 0));
        unwritten("1: one word", n, n, n, REFUSED(1, 0));
        build(library_l, L_SUM);
        miss_sum(1);
        unwritten("2: L with a wrong sum word", n, n, n, REFUSED(2, L_SUM));
        BUILD(HEAD(MOST_F + 1, 0, 1), SEQUENCE(0));
        unwritten("3: F above the greatest", n, n, n, REFUSED(3, 0));
        BUILD(HEAD(1, 0, 1), SEQUENCE(0), WORD(0, 0));
        unwritten("4: kind 0", n, n, n, REFUSED(4, 2));
        BUILD(HEAD(1, 0, 1), SEQUENCE(0), WORD(KIND_ALTERNATIVE, 1));
        unwritten("5: an alternative with payload 1", n, n, n, REFUSED(5, 2));
        BUILD(HEAD(1, 1, 1), STEP(0), SETS(0), SETS(0), SEQUENCE(0));
        unwritten("6: a fact word twice", n, n, n, REFUSED(6, 3));
        BUILD(HEAD(1, 0, 2), SEQUENCE(0));
        unwritten("7: one sequence of two", n, n, n, REFUSED(7, 2));
        BUILD(HEAD(1, 1, 1), STEP(0), SETS(0), CLEARS(0), SEQUENCE(0));
        unwritten("13: a fact set and cleared", n, n, n, REFUSED(13, 3));
        hold("1: no word, null pointers",
             dulimoven_chain(NULL, 0, n, n, n, NULL, 0) == REFUSED(1, 0));
    }
    start();
    fill(WORD(KIND_SUM, 0), FULL + 1);
    unwritten("1: 8,193 words", 0, 0, 0, REFUSED(1, 0));
}

/*
 * The images of pulses.h. Those that are accepted have no sequence to ask
 * about, and get 9.
 */
static void set_and_cleared(void)
{
    size_t i;
    for (i = 0; i < COUNT(pulses); i++) {
        const struct pulse *p = &pulses[i];
        uint64_t expected = p->number == 0 ? REFUSED(9, 0)
                                           : REFUSED(p->number, p->position);
        uint64_t question;
        build(p->words, p->count);
        for (question = 0; question < 6; question++)
            unwritten(p->why, 0, question, 0, expected);
    }
}

/*
 * Step 0 is set, step 1 clear, step 2 need, step 3 other, step 4 needs and sets
 * fact 0.
 */
#define FOUR_STEPS \
    STEP(0), SETS(0), STEP(1), CLEARS(0), STEP(2), NEEDS(0), STEP(3)
#define STEPS FOUR_STEPS, STEP(4), NEEDS(0), SETS(0)
#define SET DO(0)
#define CLEAR DO(1)
#define NEED DO(2)
#define OTHER DO(3)
#define NEED_SET DO(4)

/* What counts as a touch, and which touch decides. */
static void sides(void)
{
    /* last side: the clear at 2 is the last touch. First side: the need at 0 is
       the first; the other two questions of each side have no chain. */
    BUILD(HEAD(1, 5, 1), STEPS,
          SEQUENCE(0), ALTERNATIVE, NEED, SET, CLEAR, OTHER);
    none("<need, set, clear, other>, 0", 0, 0, 0);
    SHOWN("<need, set, clear, other>, 1", 0, 1, 0, CHOICE(0, 0), AT(2));
    none("<need, set, clear, other>, 2", 0, 2, 0);
    SHOWN("<need, set, clear, other>, 3", 0, 3, 0, CHOICE(0, 0), AT(0));
    none("<need, set, clear, other>, 4", 0, 4, 0);
    none("<need, set, clear, other>, 5", 0, 5, 0);

    /* a need is no touch on the last side, a clear none on the first */
    BUILD(HEAD(1, 5, 1), STEPS, SEQUENCE(0), ALTERNATIVE, CLEAR, SET, NEED);
    SHOWN("<clear, set, need>, 0", 0, 0, 0, CHOICE(0, 0), AT(1));
    none("<clear, set, need>, 1", 0, 1, 0);
    none("<clear, set, need>, 3", 0, 3, 0);
    SHOWN("<clear, set, need>, 4", 0, 4, 0, CHOICE(0, 0), AT(1));
    BUILD(HEAD(1, 5, 2), STEPS,
          SEQUENCE(0), ALTERNATIVE, NEED,
          SEQUENCE(1), ALTERNATIVE, CLEAR);
    SHOWN("<need>, 2", 0, 2, 0, CHOICE(0, 0), UNTOUCHED);
    none("<need>, 5", 0, 5, 0);
    none("<clear>, 2", 1, 2, 0);
    SHOWN("<clear>, 5", 1, 5, 0, CHOICE(1, 0), UNTOUCHED);

    /* a step that needs and sets sets on the last side, needs on the first */
    BUILD(HEAD(1, 5, 1), STEPS, SEQUENCE(0), ALTERNATIVE, NEED_SET);
    SHOWN("<need and set>, 0", 0, 0, 0, CHOICE(0, 0), AT(0));
    SHOWN("<need and set>, 3", 0, 3, 0, CHOICE(0, 0), AT(0));
    none("<need and set>, 4", 0, 4, 0);

    /* past sequence 1, which always clears or needs, nothing is seen; past
       sequence 2, <clear>, <> or <need>, <>, it is. An alternative that will
       not do stands on either side of the one that does, here and below. */
    BUILD(HEAD(1, 5, 3), STEPS,
          SEQUENCE(0), ALTERNATIVE, SET, CALL(1), ALTERNATIVE, SET, CALL(2),
              ALTERNATIVE, SET, CALL(1),
          SEQUENCE(1), ALTERNATIVE, CLEAR,
          SEQUENCE(2), ALTERNATIVE, CLEAR, ALTERNATIVE);
    SHOWN("<set, may clear> between <set, clears>, 0", 0, 0, 0, CHOICE(0, 1),
          AT(0));
    BUILD(HEAD(1, 5, 3), STEPS,
          SEQUENCE(0), ALTERNATIVE, CALL(1), SET, ALTERNATIVE, CALL(2), SET,
              ALTERNATIVE, CALL(1), SET,
          SEQUENCE(1), ALTERNATIVE, NEED,
          SEQUENCE(2), ALTERNATIVE, NEED, ALTERNATIVE);
    SHOWN("<may need, set> between <needs, set>, 4", 0, 4, 0, CHOICE(0, 1),
          AT(1));

    /* the other way round an entry must have a run, and no more is asked of it:
       sequence 1 always clears or needs, sequence 2 is endless */
    BUILD(HEAD(1, 5, 3), STEPS,
          SEQUENCE(0), ALTERNATIVE, CALL(2), SET, ALTERNATIVE, CALL(1), SET,
              ALTERNATIVE, CALL(2), SET,
          SEQUENCE(1), ALTERNATIVE, CLEAR,
          SEQUENCE(2), ALTERNATIVE, CALL(2));
    SHOWN("<clears, set> between <endless, set>, 0", 0, 0, 0, CHOICE(0, 1),
          AT(1));
    BUILD(HEAD(1, 5, 3), STEPS,
          SEQUENCE(0), ALTERNATIVE, SET, CALL(2), ALTERNATIVE, SET, CALL(1),
              ALTERNATIVE, SET, CALL(2),
          SEQUENCE(1), ALTERNATIVE, NEED,
          SEQUENCE(2), ALTERNATIVE, CALL(2));
    SHOWN("<set, needs> between <set, endless>, 4", 0, 4, 0, CHOICE(0, 1),
          AT(0));

    /* no alternative, no run: none of the six */
    BUILD(HEAD(1, 5, 2), STEPS,
          SEQUENCE(0),
          SEQUENCE(1), ALTERNATIVE, SET, CALL(0), NEED);
    all_none("no alternative", 0);
    all_none("<set, no alternative, need>", 1);
}

/* "The chain has the fewest links", then the highest alternative, and in it the
 * lowest position. */
static void fewest(void)
{
    /* sequence 1 is <set>, <>. Alternative 0 has 2 links, by its call; 1 has 2,
       by position 0 or 1; 2 has 1, by its step at 1: the call at 2 would make 2
       and the call at 0 is no choice, for the step sets after it */
    BUILD(HEAD(1, 5, 2), STEPS,
          SEQUENCE(0), ALTERNATIVE, CALL(1), ALTERNATIVE, CALL(1), CALL(1),
              ALTERNATIVE, CALL(1), SET, CALL(1),
          SEQUENCE(1), ALTERNATIVE, SET, ALTERNATIVE);
    SHOWN("fewest, last side", 0, 0, 0, CHOICE(0, 2), AT(1));
    SHOWN("fewest, first side", 0, 4, 0, CHOICE(0, 2), AT(1));

    /* without the step: 2 links in each alternative, so the highest, 1, by its
       call at 0. Sequence 1 is <>, <set>, <set>: the highest that sets, 2. */
    BUILD(HEAD(1, 5, 2), STEPS,
          SEQUENCE(0), ALTERNATIVE, OTHER, CALL(1), CALL(1),
              ALTERNATIVE, CALL(1),
          SEQUENCE(1), ALTERNATIVE, ALTERNATIVE, SET, ALTERNATIVE, SET);
    SHOWN("ties, last side", 0, 0, 0, CHOICE(0, 1), AT(0), CHOICE(1, 2), AT(0));
    SHOWN("ties, first side", 0, 4, 0, CHOICE(0, 1), AT(0), CHOICE(1, 2),
          AT(0));

    /* the highest alternative, wherever its step stands: of <other, other, set>
       and <set> the second with 0, of <set> and <other, other, set> the second
       with 2, where position before alternative would be wrong */
    BUILD(HEAD(1, 5, 1), STEPS,
          SEQUENCE(0), ALTERNATIVE, OTHER, OTHER, SET, ALTERNATIVE, SET);
    SHOWN("the alternative first, last side", 0, 0, 0, CHOICE(0, 1), AT(0));
    SHOWN("the alternative first, first side", 0, 4, 0, CHOICE(0, 1), AT(0));
    BUILD(HEAD(1, 5, 1), STEPS,
          SEQUENCE(0), ALTERNATIVE, SET, ALTERNATIVE, OTHER, OTHER, SET);
    SHOWN("not the position first, last side", 0, 0, 0, CHOICE(0, 1), AT(2));
    SHOWN("not the position first, first side", 0, 4, 0, CHOICE(0, 1), AT(2));

    /* by links to a need: sequence 3 has 1, <need>; 2 has 2, <3>; 1 has 2, by
       its alternative 1, <3> (alternative 0, <2>, has 3); 0 has 3, by either
       alternative, <1> or <2>: the highest, 1, so that the chain goes by
       sequence 2 */
    BUILD(HEAD(1, 5, 4), STEPS,
          SEQUENCE(0), ALTERNATIVE, CALL(1), ALTERNATIVE, CALL(2),
          SEQUENCE(1), ALTERNATIVE, CALL(2), ALTERNATIVE, CALL(3),
          SEQUENCE(2), ALTERNATIVE, CALL(3),
          SEQUENCE(3), ALTERNATIVE, NEED);
    SHOWN("at each link, 0", 0, 3, 0, CHOICE(0, 1), AT(0), CHOICE(2, 0), AT(0),
          CHOICE(3, 0), AT(0));
    SHOWN("at each link, 1", 1, 3, 0, CHOICE(1, 1), AT(0), CHOICE(3, 0), AT(0));
    SHOWN("at each link, 2", 2, 3, 0, CHOICE(2, 0), AT(0), CHOICE(3, 0), AT(0));

    /* a higher alternative that the chain could take is passed over where it
       has more links: sequence 2 is <set>, 1 is <2>; of sequence 0, <2> has 2
       links, <1> has 3 */
    BUILD(HEAD(1, 5, 3), STEPS,
          SEQUENCE(0), ALTERNATIVE, CALL(2), ALTERNATIVE, CALL(1),
          SEQUENCE(1), ALTERNATIVE, CALL(2),
          SEQUENCE(2), ALTERNATIVE, SET);
    SHOWN("<2>, <1>, last side", 0, 0, 0, CHOICE(0, 0), AT(0), CHOICE(2, 0),
          AT(0));
    SHOWN("<2>, <1>, first side", 0, 4, 0, CHOICE(0, 0), AT(0), CHOICE(2, 0),
          AT(0));

    /* calls of itself and in a ring: sequence 0 is <0, need>, <1>; sequence 1
       is <0>, <need, clear>. A chain through <0, need> has one link more than
       the chain that it calls for, so the fewest is <1>, then the clear at 1.
     */
    BUILD(HEAD(1, 5, 2), STEPS,
          SEQUENCE(0), ALTERNATIVE, CALL(0), NEED, ALTERNATIVE, CALL(1),
          SEQUENCE(1), ALTERNATIVE, CALL(0), ALTERNATIVE, NEED, CLEAR);
    SHOWN("a ring, 0, question 1", 0, 1, 0, CHOICE(0, 1), AT(0), CHOICE(1, 1),
          AT(1));
    SHOWN("a ring, 1, question 1", 1, 1, 0, CHOICE(1, 1), AT(1));
    SHOWN("a ring, 0, question 3", 0, 3, 0, CHOICE(0, 1), AT(0), CHOICE(1, 1),
          AT(0));
    none("a ring, 0, question 0", 0, 0, 0);
    none("a ring, 0, question 2", 0, 2, 0);
    none("a ring, 0, question 5", 0, 5, 0);
}

/* Chains with a choice, in one library. */
static void choices(void)
{
    BUILD(HEAD(1, 5, 4), STEPS,
          SEQUENCE(0), ALTERNATIVE, CALL(1), ALTERNATIVE, OTHER, SET,
              ALTERNATIVE, OTHER,
          SEQUENCE(1), ALTERNATIVE, SET, CLEAR, ALTERNATIVE, CALL(2), CALL(2),
              ALTERNATIVE, CALL(2),
          SEQUENCE(2), ALTERNATIVE, SET, ALTERNATIVE, OTHER,
          SEQUENCE(3), ALTERNATIVE, CLEAR, CALL(3),
              ALTERNATIVE, CALL(2), NEED, SET);

    /* sequence 0, last set: alternative 0 calls sequence 1, which takes 2 links
       more; the set at position 1 of alternative 1 ends the chain */
    SHOWN("choices, 0, question 0", 0, 0, 0, CHOICE(0, 1), AT(1));
    /* last cleared: by sequence 1, whose alternative 0 ends with a clear */
    SHOWN("choices, 0, question 1", 0, 1, 0, CHOICE(0, 0), AT(0), CHOICE(1, 0),
          AT(1));
    /* untouched on either side: alternative 0 calls sequence 1, which calls
       sequence 2; alternative 2 has a step alone, the least depth */
    SHOWN("choices, 0, question 2", 0, 2, 0, CHOICE(0, 2), UNTOUCHED);
    SHOWN("choices, 0, question 5", 0, 5, 0, CHOICE(0, 2), UNTOUCHED);

    /* sequence 1, last set: the clear after the set rules alternative 0 out; 1
       and 2 have two links each, by a call of sequence 2: the highest, 2 */
    SHOWN("choices, 1, question 0", 1, 0, 0, CHOICE(1, 2), AT(0), CHOICE(2, 0),
          AT(0));
    /* first set: on this side the set decides, whatever clears after it */
    SHOWN("choices, 1, question 4", 1, 4, 0, CHOICE(1, 0), AT(0));
    /* untouched on either side: alternatives 1 and 2 are equally deep */
    SHOWN("choices, 1, question 2", 1, 2, 0, CHOICE(1, 2), UNTOUCHED);
    SHOWN("choices, 1, question 5", 1, 5, 0, CHOICE(1, 2), UNTOUCHED);

    /* sequence 3, last set: the set ends alternative 1; alternative 0 takes a
       link more, by the sequence itself */
    SHOWN("choices, 3, question 0", 3, 0, 0, CHOICE(3, 1), AT(2));
    /* first needed: by the need, since sequence 2 before it can stay
       untouched */
    SHOWN("choices, 3, question 3", 3, 3, 0, CHOICE(3, 1), AT(1));
    /* first set: by sequence 2 alone, since the need comes before the set */
    SHOWN("choices, 3, question 4", 3, 4, 0, CHOICE(3, 1), AT(0), CHOICE(2, 0),
          AT(0));
    /* last cleared, and untouched: every run ends with the set, though
       alternative 0 begins with a clear; and every run has a need or a set */
    none("choices, 3, question 1", 3, 1, 0);
    none("choices, 3, question 5", 3, 5, 0);
}

#define DEPTHS(touch)                                                     \
    HEAD(1, 5, 4), STEPS,                                                 \
        SEQUENCE(0), ALTERNATIVE, CALL(3), CALL(1),                       \
            ALTERNATIVE, CALL(2), CALL(2), CALL(2), ALTERNATIVE, CALL(2), \
            ALTERNATIVE, CALL(3), touch,                                  \
        SEQUENCE(1), ALTERNATIVE, CALL(2),                                \
        SEQUENCE(2), ALTERNATIVE, CALL(3),                                \
        SEQUENCE(3), ALTERNATIVE

/*
 * Kind 12: "the alternative of the untouched derivation of least nesting
 * depth", ties to the highest. A step has depth 0, a sequence 1 plus the
 * greatest depth among its entries, or 1 without entries.
 */
static void untouched(void)
{
    /* sequence 1 is <>, depth 1; by alternative 0 sequence 0 has depth 2, by
       alternative 1 depth 1 */
    BUILD(HEAD(1, 5, 2), STEPS,
          SEQUENCE(0), ALTERNATIVE, CALL(1), ALTERNATIVE,
          SEQUENCE(1), ALTERNATIVE);
    SHOWN("<1>, <>, question 2", 0, 2, 0, CHOICE(0, 1), UNTOUCHED);
    SHOWN("<1>, <>, question 5", 0, 5, 0, CHOICE(0, 1), UNTOUCHED);

    /* other and nothing both have depth 1: the highest */
    BUILD(HEAD(1, 5, 2), STEPS,
          SEQUENCE(0), ALTERNATIVE, OTHER, OTHER, ALTERNATIVE,
          SEQUENCE(1), ALTERNATIVE, ALTERNATIVE, OTHER);
    SHOWN("<other, other>, <>", 0, 2, 0, CHOICE(0, 1), UNTOUCHED);
    SHOWN("<>, <other>", 1, 2, 0, CHOICE(1, 1), UNTOUCHED);

    /* the greatest depth counts and not the sum: sequence 3 is <>, depth 1; 2
       is <3>, depth 2; 1 is <2>, depth 3. Of sequence 0, alternative 0, <3, 1>,
       has depth 4; alternative 1, <2, 2, 2>, and alternative 2, <2>, have depth
       3, and 2 is the higher; alternative 3, <3, clear> or <3, need>, is
       untouched on one side only, and has depth 2 there. */
    BUILD(DEPTHS(CLEAR));
    SHOWN("<3, 1>, <2, 2, 2>, <2>, <3, clear>, 2", 0, 2, 0, CHOICE(0, 2),
          UNTOUCHED);
    SHOWN("<3, 1>, <2, 2, 2>, <2>, <3, clear>, 5", 0, 5, 0, CHOICE(0, 3),
          UNTOUCHED);
    BUILD(DEPTHS(NEED));
    SHOWN("<3, 1>, <2, 2, 2>, <2>, <3, need>, 2", 0, 2, 0, CHOICE(0, 3),
          UNTOUCHED);
    SHOWN("<3, 1>, <2, 2, 2>, <2>, <3, need>, 5", 0, 5, 0, CHOICE(0, 2),
          UNTOUCHED);

    /* a derivation that leaves the fact untouched may be deeper than one that
       does not: sequence 1 is <set>, <2>, and 2 is <>, so untouched it has
       depth 2. Of sequence 0, <1> has depth 3 then, and <2, 2> depth 2. */
    BUILD(HEAD(1, 5, 3), STEPS,
          SEQUENCE(0), ALTERNATIVE, CALL(1), ALTERNATIVE, CALL(2), CALL(2),
          SEQUENCE(1), ALTERNATIVE, SET, ALTERNATIVE, CALL(2),
          SEQUENCE(2), ALTERNATIVE);
    SHOWN("untouched depth, 2", 0, 2, 0, CHOICE(0, 1), UNTOUCHED);
    SHOWN("untouched depth, 5", 0, 5, 0, CHOICE(0, 1), UNTOUCHED);
    SHOWN("untouched depth, 1", 1, 2, 0, CHOICE(1, 1), UNTOUCHED);
}

/* The library that was built last ends with this sum word. */
static void sealed(const char *name, uint32_t sum)
{
    hold(name, *word_at(words - 1) == sum);
}

/*
 * Document 02, request 2: "Among equally good choices a link takes the highest
 * alternative, then the lowest position. This holds for kind 12 links too.
 * Fewest links, and for kind 12 least nesting depth, still come first."
 */
static void newest(void)
{
    /* last set: alternatives 0 and 1 have one link, 2 has two. So 1, and its
       set is at 1. First set: the same, though alternative 0 has its set at 0.
       Only <need> is untouched, on the last side, and needs. */
    BUILD(HEAD(1, 4, 2), FOUR_STEPS,
          SEQUENCE(0), ALTERNATIVE, SET, SET, ALTERNATIVE, OTHER, SET,
              ALTERNATIVE, CALL(1), ALTERNATIVE, NEED,
          SEQUENCE(1), ALTERNATIVE, SET);
    sealed("newest first, the sum word", 0xf17554a4);
    SHOWN("newest first, question 0", 0, 0, 0, CHOICE(0, 1), AT(1));
    none("newest first, question 1", 0, 1, 0);
    SHOWN("newest first, question 2", 0, 2, 0, CHOICE(0, 3), UNTOUCHED);
    SHOWN("newest first, question 3", 0, 3, 0, CHOICE(0, 3), AT(0));
    SHOWN("newest first, question 4", 0, 4, 0, CHOICE(0, 1), AT(1));
    none("newest first, question 5", 0, 5, 0);

    /* sequence 0: both alternatives have two links, so 1. Its calls at 0, 2 and
       3 all do, since the others can stay untouched, so 0. Then <set>, <>,
       <set>, so 2. Untouched, both have depth 2, so 1; of sequence 1 only <>
       is, alternative 1. */
    BUILD(HEAD(1, 4, 2), FOUR_STEPS,
          SEQUENCE(0), ALTERNATIVE, CALL(1), CALL(1),
              ALTERNATIVE, CALL(1), OTHER, CALL(1), CALL(1),
          SEQUENCE(1), ALTERNATIVE, SET, ALTERNATIVE, ALTERNATIVE, SET);
    sealed("lowest of calls, the sum word", 0xf1884cd2);
    SHOWN("lowest of calls, 0, question 0", 0, 0, 0, CHOICE(0, 1), AT(0),
          CHOICE(1, 2), AT(0));
    SHOWN("lowest of calls, 0, question 2", 0, 2, 0, CHOICE(0, 1), UNTOUCHED);
    SHOWN("lowest of calls, 0, question 4", 0, 4, 0, CHOICE(0, 1), AT(0),
          CHOICE(1, 2), AT(0));
    SHOWN("lowest of calls, 0, question 5", 0, 5, 0, CHOICE(0, 1), UNTOUCHED);
    SHOWN("lowest of calls, 1, question 0", 1, 0, 0, CHOICE(1, 2), AT(0));
    SHOWN("lowest of calls, 1, question 2", 1, 2, 0, CHOICE(1, 1), UNTOUCHED);

    /* fewest links first: a set has one, a call of 1 or 2 has more, though it
       stands in a higher alternative. Untouched: of sequence 0 only <1>; of
       sequence 1 the two <2> are equally deep; of sequence 2 only <>. */
    BUILD(HEAD(1, 4, 3), FOUR_STEPS,
          SEQUENCE(0), ALTERNATIVE, OTHER, SET, ALTERNATIVE, CALL(1),
          SEQUENCE(1), ALTERNATIVE, CALL(2), ALTERNATIVE, SET,
              ALTERNATIVE, CALL(2),
          SEQUENCE(2), ALTERNATIVE, SET, ALTERNATIVE);
    sealed("fewest first, the sum word", 0xf2745cf5);
    SHOWN("fewest first, 0, question 0", 0, 0, 0, CHOICE(0, 0), AT(1));
    SHOWN("fewest first, 1, question 0", 1, 0, 0, CHOICE(1, 1), AT(0));
    SHOWN("fewest first, 0, question 2", 0, 2, 0, CHOICE(0, 1), UNTOUCHED);
    SHOWN("fewest first, 0, question 5", 0, 5, 0, CHOICE(0, 1), UNTOUCHED);
    SHOWN("fewest first, 1, question 2", 1, 2, 0, CHOICE(1, 2), UNTOUCHED);
    SHOWN("fewest first, 1, question 5", 1, 5, 0, CHOICE(1, 2), UNTOUCHED);
    SHOWN("fewest first, 2, question 2", 2, 2, 0, CHOICE(2, 1), UNTOUCHED);
    SHOWN("fewest first, 2, question 5", 2, 5, 0, CHOICE(2, 1), UNTOUCHED);

    /* one step, which touches nothing. Least depth first: of <step>, <>, <1>
       the first two have depth 1, so 1; <1> has depth 3. Of <2>, <2> and of
       <>, <> the second. */
    BUILD(HEAD(1, 1, 3), STEP(0),
          SEQUENCE(0), ALTERNATIVE, DO(0), ALTERNATIVE, ALTERNATIVE, CALL(1),
          SEQUENCE(1), ALTERNATIVE, CALL(2), ALTERNATIVE, CALL(2),
          SEQUENCE(2), ALTERNATIVE, ALTERNATIVE);
    sealed("least depth first, the sum word", 0xf18d6c3b);
    SHOWN("least depth first, 0, question 2", 0, 2, 0, CHOICE(0, 1), UNTOUCHED);
    SHOWN("least depth first, 0, question 5", 0, 5, 0, CHOICE(0, 1), UNTOUCHED);
    SHOWN("least depth first, 1, question 2", 1, 2, 0, CHOICE(1, 1), UNTOUCHED);
    SHOWN("least depth first, 1, question 5", 1, 5, 0, CHOICE(1, 1), UNTOUCHED);
    SHOWN("least depth first, 2, question 2", 2, 2, 0, CHOICE(2, 1), UNTOUCHED);
    SHOWN("least depth first, 2, question 5", 2, 5, 0, CHOICE(2, 1), UNTOUCHED);

    /* sequence 1 calls itself alone, 2 has no alternative: the two highest
       alternatives of sequence 0 have no run, so 1. Every run sets. */
    BUILD(HEAD(1, 4, 3), FOUR_STEPS,
          SEQUENCE(0), ALTERNATIVE, SET, ALTERNATIVE, SET,
              ALTERNATIVE, SET, CALL(1), ALTERNATIVE, CALL(2),
          SEQUENCE(1), ALTERNATIVE, CALL(1),
          SEQUENCE(2));
    sealed("newer, no run, the sum word", 0xf2255091);
    SHOWN("newer, no run, question 0", 0, 0, 0, CHOICE(0, 1), AT(0));
    none("newer, no run, question 1", 0, 1, 0);
    none("newer, no run, question 2", 0, 2, 0);
    SHOWN("newer, no run, question 4", 0, 4, 0, CHOICE(0, 1), AT(0));
    all_none("newer, no run, 1", 1);
    all_none("newer, no run, 2", 2);

    /* sequence 0 has no alternative, and those of the next are not its own. The
       words of sequence 1 end with the part: <set>, <clear>, <set>. */
    BUILD(HEAD(1, 4, 2), FOUR_STEPS,
          SEQUENCE(0),
          SEQUENCE(1), ALTERNATIVE, SET, ALTERNATIVE, CLEAR, ALTERNATIVE, SET);
    sealed("last words, the sum word", 0xf10a1058);
    all_none("last words, 0", 0);
    SHOWN("last words, 1, question 0", 1, 0, 0, CHOICE(1, 2), AT(0));
    SHOWN("last words, 1, question 1", 1, 1, 0, CHOICE(1, 1), AT(0));
    none("last words, 1, question 2", 1, 2, 0);
    SHOWN("last words, 1, question 4", 1, 4, 0, CHOICE(1, 2), AT(0));
    SHOWN("last words, 1, question 5", 1, 5, 0, CHOICE(1, 1), UNTOUCHED);
}

/*
 * The libraries of dead.h, and every question of the first two. No step needs,
 * so that question 3 has no chain.
 */
static void dead(void)
{
    uint32_t left;
    uint64_t c;

    /* sequence 0 has the run <clear> alone, by alternative 3: last cleared, and
       untouched on the first side, where a clear is no touch */
    BUILD_DEAD(dead_places);
    none("dead places, 0, question 0", 0, 0, 0);
    SHOWN("dead places, 0, question 1", 0, 1, 0, CHOICE(0, 3), AT(0));
    none("dead places, 0, question 2", 0, 2, 0);
    none("dead places, 0, question 3", 0, 3, 0);
    none("dead places, 0, question 4", 0, 4, 0);
    SHOWN("dead places, 0, question 5", 0, 5, 0, CHOICE(0, 3), UNTOUCHED);
    all_none("dead places, 1", 1);
    all_none("dead places, 2", 2);
    /* 3 has the empty run alone, by alternative 1 */
    none("dead places, 3, question 0", 3, 0, 0);
    none("dead places, 3, question 1", 3, 1, 0);
    SHOWN("dead places, 3, question 2", 3, 2, 0, CHOICE(3, 1), UNTOUCHED);
    none("dead places, 3, question 3", 3, 3, 0);
    none("dead places, 3, question 4", 3, 4, 0);
    SHOWN("dead places, 3, question 5", 3, 5, 0, CHOICE(3, 1), UNTOUCHED);
    /* 4 has sequence 3's run and then sequence 0's, by alternative 0: the clear
       comes from the call at 1 */
    none("dead places, 4, question 0", 4, 0, 0);
    SHOWN("dead places, 4, question 1", 4, 1, 0, CHOICE(4, 0), AT(1),
          CHOICE(0, 3), AT(0));
    none("dead places, 4, question 2", 4, 2, 0);
    none("dead places, 4, question 3", 4, 3, 0);
    none("dead places, 4, question 4", 4, 4, 0);
    SHOWN("dead places, 4, question 5", 4, 5, 0, CHOICE(4, 0), UNTOUCHED);

    /* set, on either side alike: sequence 3 has 1 link, by <set>; 0 has 1, by
       <1, set>, since 1 has a run, an untouched one too, and <3> has 2; 2 has
       2, by <3>, and 1 has 2, by <0>, where <1> and <2, 2> have 3.
       Untouched: 3 has depth 1, by <>; 0 and 2 have depth 2, by <3>, and of 2
       <1> has depth 4; of 1 both have depth 3, so alternative 1. No step
       clears. */
    BUILD_DEAD(found_later);
    SHOWN("found later, 0, question 0", 0, 0, 0, CHOICE(0, 0), AT(1));
    SHOWN("found later, 0, question 2", 0, 2, 0, CHOICE(0, 1), UNTOUCHED);
    SHOWN("found later, 0, question 4", 0, 4, 0, CHOICE(0, 0), AT(1));
    SHOWN("found later, 0, question 5", 0, 5, 0, CHOICE(0, 1), UNTOUCHED);
    SHOWN("found later, 1, question 0", 1, 0, 0, CHOICE(1, 1), AT(0),
          CHOICE(0, 0), AT(1));
    SHOWN("found later, 1, question 2", 1, 2, 0, CHOICE(1, 1), UNTOUCHED);
    SHOWN("found later, 1, question 4", 1, 4, 0, CHOICE(1, 1), AT(0),
          CHOICE(0, 0), AT(1));
    SHOWN("found later, 1, question 5", 1, 5, 0, CHOICE(1, 1), UNTOUCHED);
    SHOWN("found later, 2, question 0", 2, 0, 0, CHOICE(2, 0), AT(0),
          CHOICE(3, 0), AT(0));
    SHOWN("found later, 2, question 2", 2, 2, 0, CHOICE(2, 0), UNTOUCHED);
    SHOWN("found later, 2, question 4", 2, 4, 0, CHOICE(2, 0), AT(0),
          CHOICE(3, 0), AT(0));
    SHOWN("found later, 2, question 5", 2, 5, 0, CHOICE(2, 0), UNTOUCHED);
    SHOWN("found later, 3, question 0", 3, 0, 0, CHOICE(3, 0), AT(0));
    SHOWN("found later, 3, question 2", 3, 2, 0, CHOICE(3, 1), UNTOUCHED);
    SHOWN("found later, 3, question 4", 3, 4, 0, CHOICE(3, 0), AT(0));
    SHOWN("found later, 3, question 5", 3, 5, 0, CHOICE(3, 1), UNTOUCHED);
    for (c = 0; c < 4; c++) {
        none("found later, question 1", c, 1, 0);
        none("found later, question 3", c, 3, 0);
    }

    /* the clear of sequence 0 stands in alternative 1, that of 2 in 0, and no
       other alternative has a run */
    for (left = 0; left <= MOST_LEFT; left++) {
        char name[64];
        snprintf(name, sizeof name, "%u entries after a dead one",
                 (unsigned)left);
        build_left(left);
        none(name, 0, 0, 0);
        SHOWN(name, 0, 1, 0, CHOICE(0, 1), AT(0));
        none(name, 0, 2, 0);
        none(name, 0, 4, 0);
        SHOWN(name, 0, 5, 0, CHOICE(0, 1), UNTOUCHED);
        all_none(name, 1);
        none(name, 2, 0, 0);
        SHOWN(name, 2, 1, 0, CHOICE(2, 0), AT(0));
        none(name, 2, 2, 0);
        none(name, 2, 4, 0);
        SHOWN(name, 2, 5, 0, CHOICE(2, 0), UNTOUCHED);
    }
}

/*
 * Every question of the libraries of checks.h. "On the first side a check
 * counts as a need, and a chain may end on one"; on the last side it stays
 * untouched, and it has depth 0.
 */
static void with_checks(void)
{
    /* one alternative each, so 0 at each link; the fact is 0. 0 <check>, 1
       <set, check>, 2 <clear, check>, 3 <check, clear>, 4 <check, set>, 5
       <needs and clears>, 6 <need>, 7 <check, other>, 8 <other>. A set or a
       clear is the last touch, whatever checks after it; the first touch is a
       check, a need or a set, past a clear. */
    static const struct answer single[] = {
        {0, 2, 0, 1, {CHOICE(0, 0), UNTOUCHED, 0, 0}},
        {0, 3, 0, 1, {CHOICE(0, 0), AT(0), 0, 0}},
        {1, 0, 0, 1, {CHOICE(1, 0), AT(0), 0, 0}},
        {1, 4, 0, 1, {CHOICE(1, 0), AT(0), 0, 0}},
        {2, 1, 0, 1, {CHOICE(2, 0), AT(0), 0, 0}},
        {2, 3, 0, 1, {CHOICE(2, 0), AT(1), 0, 0}},
        {3, 1, 0, 1, {CHOICE(3, 0), AT(1), 0, 0}},
        {3, 3, 0, 1, {CHOICE(3, 0), AT(0), 0, 0}},
        {4, 0, 0, 1, {CHOICE(4, 0), AT(1), 0, 0}},
        {4, 3, 0, 1, {CHOICE(4, 0), AT(0), 0, 0}},
        {5, 1, 0, 1, {CHOICE(5, 0), AT(0), 0, 0}},
        {5, 3, 0, 1, {CHOICE(5, 0), AT(0), 0, 0}},
        {6, 2, 0, 1, {CHOICE(6, 0), UNTOUCHED, 0, 0}},
        {6, 3, 0, 1, {CHOICE(6, 0), AT(0), 0, 0}},
        {7, 2, 0, 1, {CHOICE(7, 0), UNTOUCHED, 0, 0}},
        {7, 3, 0, 1, {CHOICE(7, 0), AT(0), 0, 0}},
        {8, 2, 0, 1, {CHOICE(8, 0), UNTOUCHED, 0, 0}},
        {8, 5, 0, 1, {CHOICE(8, 0), UNTOUCHED, 0, 0}},
    };

    /* Sequence 0 is <set 0>, <check 0>: fact 0 is set by alternative 0; by 1 it
       is needed, and untouched on the last side. Fact 1 is untouched in both,
       whose step and check have depth 0 alike: the newest, 1.
       1 is <0, step 1>, and step 1 needs 0 and sets 1. Fact 0 is first set or
       needed in sequence 0, which cannot stay untouched, so never by step 1; it
       is last set in sequence 0, or untouched by its check. Fact 1 is set by
       step 1 at position 1, first and last.
       2 is <0>, <check 1>. Fact 0 as in sequence 0, by alternative 0; untouched
       by alternative 1, of depth 1, and on the last side <0> has depth 2. Fact
       1 is needed by the check in alternative 1, which leaves <0> untouched on
       the first side; on the last side alternative 1, of depth 1.
       3 is <itself, check 0>, <check 0, check 0>. The first touch of fact 0 is
       in alternative 1 at position 0, or one link further by alternative 0.
       4 is <>, <check 1, itself>: fact 1 is needed by the check in 1, and both
       are untouched in 0, of depth 1, where alternative 1 has depth 2. */
    static const struct answer nested[] = {
        {0, 0, 0, 1, {CHOICE(0, 0), AT(0), 0, 0}},
        {0, 2, 0, 1, {CHOICE(0, 1), UNTOUCHED, 0, 0}},
        {0, 3, 0, 1, {CHOICE(0, 1), AT(0), 0, 0}},
        {0, 4, 0, 1, {CHOICE(0, 0), AT(0), 0, 0}},
        {0, 2, 1, 1, {CHOICE(0, 1), UNTOUCHED, 0, 0}},
        {0, 5, 1, 1, {CHOICE(0, 1), UNTOUCHED, 0, 0}},
        {1, 0, 0, 2, {CHOICE(1, 0), AT(0), CHOICE(0, 0), AT(0)}},
        {1, 2, 0, 1, {CHOICE(1, 0), UNTOUCHED, 0, 0}},
        {1, 3, 0, 2, {CHOICE(1, 0), AT(0), CHOICE(0, 1), AT(0)}},
        {1, 4, 0, 2, {CHOICE(1, 0), AT(0), CHOICE(0, 0), AT(0)}},
        {1, 0, 1, 1, {CHOICE(1, 0), AT(1), 0, 0}},
        {1, 4, 1, 1, {CHOICE(1, 0), AT(1), 0, 0}},
        {2, 0, 0, 2, {CHOICE(2, 0), AT(0), CHOICE(0, 0), AT(0)}},
        {2, 2, 0, 1, {CHOICE(2, 1), UNTOUCHED, 0, 0}},
        {2, 3, 0, 2, {CHOICE(2, 0), AT(0), CHOICE(0, 1), AT(0)}},
        {2, 4, 0, 2, {CHOICE(2, 0), AT(0), CHOICE(0, 0), AT(0)}},
        {2, 5, 0, 1, {CHOICE(2, 1), UNTOUCHED, 0, 0}},
        {2, 2, 1, 1, {CHOICE(2, 1), UNTOUCHED, 0, 0}},
        {2, 3, 1, 1, {CHOICE(2, 1), AT(0), 0, 0}},
        {2, 5, 1, 1, {CHOICE(2, 0), UNTOUCHED, 0, 0}},
        {3, 2, 0, 1, {CHOICE(3, 1), UNTOUCHED, 0, 0}},
        {3, 3, 0, 1, {CHOICE(3, 1), AT(0), 0, 0}},
        {3, 2, 1, 1, {CHOICE(3, 1), UNTOUCHED, 0, 0}},
        {3, 5, 1, 1, {CHOICE(3, 1), UNTOUCHED, 0, 0}},
        {4, 2, 0, 1, {CHOICE(4, 0), UNTOUCHED, 0, 0}},
        {4, 5, 0, 1, {CHOICE(4, 0), UNTOUCHED, 0, 0}},
        {4, 2, 1, 1, {CHOICE(4, 0), UNTOUCHED, 0, 0}},
        {4, 3, 1, 1, {CHOICE(4, 1), AT(0), 0, 0}},
        {4, 5, 1, 1, {CHOICE(4, 0), UNTOUCHED, 0, 0}},
    };

    /* Sequence 0 is <request, unit, release>, <check 1>. Request sets fact 0,
       unit needs it and sets 1, release needs and clears it, measure needs 0
       and 1 and sets 2. Fact 0: cleared last by release, set first by request;
       alternative 1 leaves it. Fact 1: set by unit, or needed by the check,
       which leaves it on the last side. Nothing touches fact 2, so alternative
       1, the newest.
       Sequence 1 is <request, unit, release> alone.
       2 is <0, request, measure, release>. Fact 0: cleared last by release at
       3; first set by request at 1, since sequence 0 can leave it, in one link.
       Fact 1: sequence 0 cannot leave it on the first side, so it is needed by
       the check there or set by unit, and measure is never first; on the last
       side it can, and is the only one that sets. Fact 2 is set by measure.
       3 is the same with sequence 1, which sets fact 1 and never leaves it or
       fact 0 on the last side; request sets fact 0 first there, in two links.
     */
    static const struct answer skip[] = {
        {0, 1, 0, 1, {CHOICE(0, 0), AT(2), 0, 0}},
        {0, 2, 0, 1, {CHOICE(0, 1), UNTOUCHED, 0, 0}},
        {0, 4, 0, 1, {CHOICE(0, 0), AT(0), 0, 0}},
        {0, 5, 0, 1, {CHOICE(0, 1), UNTOUCHED, 0, 0}},
        {0, 0, 1, 1, {CHOICE(0, 0), AT(1), 0, 0}},
        {0, 2, 1, 1, {CHOICE(0, 1), UNTOUCHED, 0, 0}},
        {0, 3, 1, 1, {CHOICE(0, 1), AT(0), 0, 0}},
        {0, 4, 1, 1, {CHOICE(0, 0), AT(1), 0, 0}},
        {0, 2, 2, 1, {CHOICE(0, 1), UNTOUCHED, 0, 0}},
        {0, 5, 2, 1, {CHOICE(0, 1), UNTOUCHED, 0, 0}},
        {1, 1, 0, 1, {CHOICE(1, 0), AT(2), 0, 0}},
        {1, 4, 0, 1, {CHOICE(1, 0), AT(0), 0, 0}},
        {1, 0, 1, 1, {CHOICE(1, 0), AT(1), 0, 0}},
        {1, 4, 1, 1, {CHOICE(1, 0), AT(1), 0, 0}},
        {1, 2, 2, 1, {CHOICE(1, 0), UNTOUCHED, 0, 0}},
        {1, 5, 2, 1, {CHOICE(1, 0), UNTOUCHED, 0, 0}},
        {2, 1, 0, 1, {CHOICE(2, 0), AT(3), 0, 0}},
        {2, 4, 0, 1, {CHOICE(2, 0), AT(1), 0, 0}},
        {2, 0, 1, 2, {CHOICE(2, 0), AT(0), CHOICE(0, 0), AT(1)}},
        {2, 2, 1, 1, {CHOICE(2, 0), UNTOUCHED, 0, 0}},
        {2, 3, 1, 2, {CHOICE(2, 0), AT(0), CHOICE(0, 1), AT(0)}},
        {2, 4, 1, 2, {CHOICE(2, 0), AT(0), CHOICE(0, 0), AT(1)}},
        {2, 0, 2, 1, {CHOICE(2, 0), AT(2), 0, 0}},
        {2, 4, 2, 1, {CHOICE(2, 0), AT(2), 0, 0}},
        {3, 1, 0, 1, {CHOICE(3, 0), AT(3), 0, 0}},
        {3, 4, 0, 2, {CHOICE(3, 0), AT(0), CHOICE(1, 0), AT(0)}},
        {3, 0, 1, 2, {CHOICE(3, 0), AT(0), CHOICE(1, 0), AT(1)}},
        {3, 4, 1, 2, {CHOICE(3, 0), AT(0), CHOICE(1, 0), AT(1)}},
        {3, 0, 2, 1, {CHOICE(3, 0), AT(2), 0, 0}},
        {3, 4, 2, 1, {CHOICE(3, 0), AT(2), 0, 0}},
    };

    build_checks(&checks[SINGLE]);
    every_question("one alternative each", 9, 1, single, COUNT(single));
    build_checks(&checks[NESTED]);
    every_question("checks in sequences", 5, 2, nested, COUNT(nested));
    build_checks(&checks[SKIPPED]);
    every_question("skip", 4, 3, skip, COUNT(skip));
    build_checks(&checks[AROUND]);
    every_question("checks around a call of itself", 1, 2, NULL, 0);

    /* where the last alternative of sequence 0 is empty, it leaves fact 1 on
       the first side too, and measure at 2 can be first */
    BUILD(SETUP);
    SHOWN("setup, 2, question 3, fact 1", 2, 3, 1, CHOICE(2, 0), AT(2));
    SHOWN("setup, 0, question 5, fact 1", 0, 5, 1, CHOICE(0, 1), UNTOUCHED);
    none("setup, 0, question 3, fact 1", 0, 3, 1);
}

/*
 * 64 facts and 256: with the highest of them for h, sequence 0 is <check h>,
 * <set h>, sequence 1 <check 0, check h>. The facts between are untouched.
 */
static void highest_check(const struct checks *library, uint32_t h)
{
    uint32_t f;
    build_checks(library);
    none("highest, 0, question 1", 0, 1, h);
    SHOWN("highest, 0, question 0", 0, 0, h, CHOICE(0, 1), AT(0));
    SHOWN("highest, 0, question 2", 0, 2, h, CHOICE(0, 0), UNTOUCHED);
    SHOWN("highest, 0, question 3", 0, 3, h, CHOICE(0, 0), AT(0));
    SHOWN("highest, 0, question 4", 0, 4, h, CHOICE(0, 1), AT(0));
    none("highest, 0, question 5", 0, 5, h);
    SHOWN("highest, 1, question 3", 1, 3, h, CHOICE(1, 0), AT(1));
    SHOWN("highest, 1, question 3, fact 0", 1, 3, 0, CHOICE(1, 0), AT(0));
    SHOWN("highest, 1, question 2", 1, 2, h, CHOICE(1, 0), UNTOUCHED);
    none("highest, 1, question 5", 1, 5, h);
    none("highest, 1, question 5, fact 0", 1, 5, 0);
    for (f = 1; f < h; f++) {
        none("between, 0, question 0", 0, 0, f);
        SHOWN("between, 0, question 2", 0, 2, f, CHOICE(0, 1), UNTOUCHED);
        SHOWN("between, 0, question 5", 0, 5, f, CHOICE(0, 1), UNTOUCHED);
        none("between, 1, question 3", 1, 3, f);
        SHOWN("between, 1, question 5", 1, 5, f, CHOICE(1, 0), UNTOUCHED);
    }
}

/*
 * Checks and the choice of links. Step 0 sets fact 0, step 1 clears it, step 2
 * needs it, step 3 neither; fact 1 is another, and "other check" checks it.
 */
static void choices_with_checks(void)
{
    /* first needed: alternatives 1 and 2 have one link, by the need at 1 and by
       the check at 1, so 2; 3 has two, and in 0 the set comes first. Untouched
       on the first side: only 4. On the last side 1, 2 and 4 have depth 1, and
       3 has depth 2. Of the other fact both checks are first; 4 is newer. */
    BUILD(HEAD(2, 4, 2), FOUR_STEPS,
          SEQUENCE(0), ALTERNATIVE, SET, CHECK(0),
              ALTERNATIVE, OTHER, NEED, ALTERNATIVE, CHECK(1), CHECK(0), NEED,
              ALTERNATIVE, CALL(1), ALTERNATIVE, CHECK(1), OTHER,
          SEQUENCE(1), ALTERNATIVE, CHECK(0));
    SHOWN("a check or a need, question 3", 0, 3, 0, CHOICE(0, 2), AT(1));
    SHOWN("a check or a need, question 5", 0, 5, 0, CHOICE(0, 4), UNTOUCHED);
    SHOWN("a check or a need, question 2", 0, 2, 0, CHOICE(0, 4), UNTOUCHED);
    SHOWN("a check or a need, question 4", 0, 4, 0, CHOICE(0, 0), AT(0));
    none("a check or a need, question 1", 0, 1, 0);
    SHOWN("a check or a need, question 3, fact 1", 0, 3, 1, CHOICE(0, 4),
          AT(0));

    /* a check of the fact rules out what comes after it on the first side, and
       nothing on the last side: <other check, set>, <check, set>; <set, other>,
       <set, check> */
    BUILD(HEAD(2, 4, 1), FOUR_STEPS,
          SEQUENCE(0), ALTERNATIVE, CHECK(1), SET, ALTERNATIVE, CHECK(0), SET);
    SHOWN("past a check, question 4", 0, 4, 0, CHOICE(0, 0), AT(1));
    SHOWN("past a check, question 0", 0, 0, 0, CHOICE(0, 1), AT(1));
    BUILD(HEAD(2, 4, 1), FOUR_STEPS,
          SEQUENCE(0), ALTERNATIVE, SET, OTHER, ALTERNATIVE, SET, CHECK(0));
    SHOWN("before a check, question 0", 0, 0, 0, CHOICE(0, 1), AT(0));
    SHOWN("before a check, question 4", 0, 4, 0, CHOICE(0, 1), AT(0));

    /* depth 0: <other check> and <other> have depth 1, <1> has depth 2; of <1>
       and <check>, the check is untouched on the last side alone */
    BUILD(HEAD(2, 4, 3), FOUR_STEPS,
          SEQUENCE(0), ALTERNATIVE, CHECK(1), ALTERNATIVE, OTHER,
              ALTERNATIVE, CALL(1),
          SEQUENCE(1), ALTERNATIVE, OTHER, ALTERNATIVE, CHECK(1),
          SEQUENCE(2), ALTERNATIVE, CALL(1), ALTERNATIVE, CHECK(0));
    SHOWN("depths, 0, question 2", 0, 2, 0, CHOICE(0, 1), UNTOUCHED);
    SHOWN("depths, 0, question 5", 0, 5, 0, CHOICE(0, 1), UNTOUCHED);
    SHOWN("depths, 1, question 2", 1, 2, 0, CHOICE(1, 1), UNTOUCHED);
    SHOWN("depths, 1, question 5", 1, 5, 0, CHOICE(1, 1), UNTOUCHED);
    SHOWN("depths, 2, question 2", 2, 2, 0, CHOICE(2, 1), UNTOUCHED);
    SHOWN("depths, 2, question 5", 2, 5, 0, CHOICE(2, 0), UNTOUCHED);

    /* an alternative with an endless sequence gives no chain, though it has a
       check; the one before it does */
    BUILD(HEAD(2, 4, 2), FOUR_STEPS,
          SEQUENCE(0), ALTERNATIVE, OTHER, CHECK(0),
              ALTERNATIVE, CHECK(0), CALL(1),
          SEQUENCE(1), ALTERNATIVE, CHECK(0), CALL(1));
    SHOWN("a check and an endless sequence", 0, 3, 0, CHOICE(0, 0), AT(1));
    all_none("a check and itself", 1);
}

/*
 * As many sequences as there can be, each calling the next (`up`) or the one
 * before, the one at the end with the entry given. Step 0 needs and sets fact
 * 0.
 */
static void build_deep(int up, uint32_t entry)
{
    uint32_t c;
    uint32_t end = up ? MOST_C - 1 : 0;
    start();
    PUT(HEAD(2, 1, MOST_C), STEP(0), NEEDS(0), SETS(0));
    for (c = 0; c < MOST_C; c++)
        PUT(SEQUENCE(c), ALTERNATIVE,
            c == end ? entry : CALL(up ? c + 1 : c - 1));
    put_sum();
}

/*
 * No chain is longer than the one that starts at the far end: a link for each
 * sequence.
 */
static void deep(const char *name, int up)
{
    static uint32_t links[2 * MOST_C];
    uint32_t end = up ? MOST_C - 1 : 0;
    uint32_t far = MOST_C - 1 - end;
    uint32_t c;
    build_deep(up, DO(0));
    for (c = 0; c < MOST_C; c++) {
        links[2 * c] = CHOICE(up ? c : MOST_C - 1 - c, 0);
        links[2 * c + 1] = AT(0);
    }
    shown(name, far, 0, 0, links, 2 * MOST_C);
    shown(name, far, 3, 0, links, 2 * MOST_C);
    none(name, far, 4, 0);
    /* half-way, half the links, and at the end one */
    shown(name, up ? MOST_C / 2 : MOST_C / 2 - 1, 3, 0, links + MOST_C, MOST_C);
    shown(name, end, 0, 0, links + 2 * MOST_C - 2, 2);
    /* fact 1 is untouched; a link of kind 12 is one, however deep */
    SHOWN(name, 0, 2, 1, CHOICE(0, 0), UNTOUCHED);
    SHOWN(name, MOST_C - 1, 5, 1, CHOICE(MOST_C - 1, 0), UNTOUCHED);
    unwritten(name, MOST_C, 0, 0, REFUSED(9, 0));
    /* the same chain ends on a check, which only needs */
    build_deep(up, CHECK(0));
    shown(name, far, 3, 0, links, 2 * MOST_C);
    none(name, far, 0, 0);
    none(name, far, 5, 0);
    SHOWN(name, 0, 2, 0, CHOICE(0, 0), UNTOUCHED);
}

/* Images of 8,192 words: the greatest alternative and position of a link. */
static void longest(void)
{
    /* head, step 0 that sets, sequence 0, then alternatives up to the entry and
       the sum word: 8192 - 4 - 2 = 8186 of them, the last <set>, number 8185 */
    start();
    PUT(HEAD(1, 1, 1), STEP(0), SETS(0), SEQUENCE(0));
    fill(ALTERNATIVE, FULL - 2);
    put(DO(0));
    put_sum();
    hold("8,192 words", words == 8192);
    SHOWN("alternative 8,185", 0, 0, 0, 0xa01ff900, 0xb0000000);
    /* the last of the empty ones before it: 8184 is 0x1ff8 */
    SHOWN("alternative 8,184", 0, 2, 0, 0xa01ff800, 0xc0000000);

    /* one alternative of step 1, which does nothing, and step 0 at the end: the
       entries stand from word 6 on, so word 8190 is position 8184 */
    start();
    PUT(HEAD(1, 2, 1), STEP(0), SETS(0), STEP(1), SEQUENCE(0), ALTERNATIVE);
    fill(DO(1), FULL - 2);
    put(DO(0));
    put_sum();
    hold("8,192 words", words == 8192);
    SHOWN("position 8,184, last side", 0, 0, 0, 0xa0000000, 0xb0001ff8);
    SHOWN("position 8,184, first side", 0, 4, 0, 0xa0000000, 0xb0001ff8);
}

/* The header's names and helpers. */
static void names(void)
{
    static const uint32_t first[2] = {0xa01ff9ff, 0xb0001ff8};
    static const uint32_t second[2] = {0xa0000100, 0xc0000000};
    static const struct column numbers[NUMBERS] = {
        FLAGS(0x10003), COLUMN_0, COLUMN_0, COLUMN(HIGH | 1, 1, 0, HIGH),
        COLUMN_0,       COLUMN_0, COLUMN_0, COLUMN_0,
        COLUMN_0,       COLUMN_0, COLUMN_0, COLUMN_0,
        COLUMN(2, 0, 4, 0)};
    uint64_t card[DULIMOVEN_CARD_WORDS];
    lay_out(numbers, card);
    hold("the questions",
         DULIMOVEN_LAST_SET == 0 && DULIMOVEN_LAST_CLEARED == 1 &&
             DULIMOVEN_LAST_UNTOUCHED == 2 && DULIMOVEN_FIRST_NEEDED == 3 &&
             DULIMOVEN_FIRST_SET == 4 && DULIMOVEN_FIRST_UNTOUCHED == 5);
    hold("the words of a link",
         DULIMOVEN_LINK_CHOICE == 10 && DULIMOVEN_LINK_POSITION == 11 &&
             DULIMOVEN_LINK_UNTOUCHED == 12 && DULIMOVEN_LINK_WORDS == 2);
    hold("the flags",
         DULIMOVEN_FLAG_RUN == 1 && DULIMOVEN_FLAG_EMPTY_RUN == 2 &&
             DULIMOVEN_FLAG_COUNT_SHIFT == 8 &&
             DULIMOVEN_FLAG_COUNT_MASK == 511);
    hold("the bounds",
         DULIMOVEN_MOST_IMAGE_WORDS == 8192 && DULIMOVEN_MOST_FACTS == 256 &&
             DULIMOVEN_MOST_STEPS == 1023 && DULIMOVEN_MOST_SEQUENCES == 256 &&
             DULIMOVEN_MOST_CARD_WORDS == 49 * 256 &&
             DULIMOVEN_MOST_CHAIN_WORDS == 2 * 256);
    /* 0x1ff9ff is 8185 * 2^8 + 255 */
    hold("sequence 255", dulimoven_link_sequence(first) == 255);
    hold("alternative 8,185", dulimoven_link_alternative(first) == 8185);
    hold("position 8,184", dulimoven_link_position(first) == 8184);
    hold("a touch", dulimoven_link_untouched(first) == 0);
    hold("sequence 0", dulimoven_link_sequence(second) == 0);
    hold("alternative 1", dulimoven_link_alternative(second) == 1);
    hold("no touch", dulimoven_link_untouched(second) == 1);
    hold("256 links are no refusal", dulimoven_is_refusal(256) == 0);
    hold("none is no refusal", dulimoven_is_refusal(0) == 0);
    hold("a head's payload is no refusal",
         dulimoven_is_refusal(UINT64_C(0xfffffff)) == 0);
    hold("a refusal at 0", dulimoven_is_refusal(REFUSED(1, 0)) == 1);
    hold("a refusal at 8,191", dulimoven_is_refusal(REFUSED(12, 8191)) == 1);
    hold("the number of refusal 12",
         dulimoven_refusal_of(REFUSED(12, 0)) == DULIMOVEN_CHAIN_AREA);
    hold("a run, an empty one, 256 facts",
         dulimoven_has_run(card) == 1 && dulimoven_has_empty_run(card) == 1 &&
             dulimoven_changeable(card) == 256);
    hold("facts 0, 63, 64 and 255",
         dulimoven_card_has(card, DULIMOVEN_MAY_SET, 0) == 1 &&
             dulimoven_card_has(card, DULIMOVEN_MAY_SET, 63) == 1 &&
             dulimoven_card_has(card, DULIMOVEN_MAY_SET, 64) == 1 &&
             dulimoven_card_has(card, DULIMOVEN_MAY_SET, 255) == 1);
    hold("no fact 1, 62, 65, 128, 192, 254, 256",
         dulimoven_card_has(card, DULIMOVEN_MAY_SET, 1) == 0 &&
             dulimoven_card_has(card, DULIMOVEN_MAY_SET, 62) == 0 &&
             dulimoven_card_has(card, DULIMOVEN_MAY_SET, 65) == 0 &&
             dulimoven_card_has(card, DULIMOVEN_MAY_SET, 128) == 0 &&
             dulimoven_card_has(card, DULIMOVEN_MAY_SET, 192) == 0 &&
             dulimoven_card_has(card, DULIMOVEN_MAY_SET, 254) == 0 &&
             dulimoven_card_has(card, DULIMOVEN_MAY_SET, 256) == 0 &&
             dulimoven_card_has(card, DULIMOVEN_MAY_SET,
                                UINT64_C(0xffffffffffffffff)) == 0);
    hold("the words of a column",
         dulimoven_column(card, DULIMOVEN_MAY_SET)[0] == (HIGH | 1) &&
             dulimoven_column(card, DULIMOVEN_MAY_SET)[1] == 1 &&
             dulimoven_column(card, DULIMOVEN_MAY_SET)[2] == 0 &&
             dulimoven_column(card, DULIMOVEN_MAY_SET)[3] == HIGH &&
             dulimoven_column(card, DULIMOVEN_MAY_SET) == card + 9);
    hold("fact 1 in the last column, and not in the one before it",
         dulimoven_card_has(card, DULIMOVEN_MAY_END_UNMENTIONED, 1) == 1 &&
             dulimoven_card_has(card, DULIMOVEN_MAY_END_UNMENTIONED, 130) ==
                 1 &&
             dulimoven_card_has(card, DULIMOVEN_MAY_END_UNMENTIONED, 0) == 0 &&
             dulimoven_card_has(card, DULIMOVEN_MAY_END_CLEARED, 1) == 0);
}

int main(void)
{
    samples();
    every_question_of_l();
    at_borders();
    order();
    refusals();
    set_and_cleared();
    sides();
    fewest();
    choices();
    untouched();
    newest();
    dead();
    with_checks();
    highest_check(&checks[ONE_WORD], 63);
    highest_check(&checks[WIDEST], 255);
    choices_with_checks();
    deep("each calls the next", 1);
    deep("each calls the one before", 0);
    longest();
    names();
    printf("chain_test: %u checks, %u failed\n", ran, failed);
    return failed == 0 ? 0 : 1;
}
