/* More facts than a word has bits, at the borders of a column's four words. */

/* Two facts. */
static struct column two(uint32_t one, uint32_t other)
{
    return union_of(one_fact(one), one_fact(other));
}

/* All facts of the library but these. */
static struct column but(struct column these)
{
    return without(all_facts(), these);
}

/*
 * F facts, of which a step sets the highest: the others are untouched. The
 * numbers of document 02's request 8 are those at which a word of a column ends
 * or begins, one below it and one above it.
 */
static void highest(uint32_t facts)
{
    const struct column none = low_facts(0);
    struct column top = one_fact(facts - 1), rest;
    char name[64];
    snprintf(name, sizeof name, "F = %u, the highest fact", (unsigned)facts);
    LIBRARY(name, HEAD(facts, 3, 6), STEP(0), SETS(facts - 1),
            STEP(1), CLEARS(facts - 1), STEP(2), NEEDS(facts - 1));
    rest = but(top);
    PUT(SEQUENCE(0), ALTERNATIVE, DO(0));
    /* set */
    WIDE_RUNS(LAST(top, none, rest), FIRST(none, top, rest),
              STANDS(top, none, rest));
    PUT(SEQUENCE(1), ALTERNATIVE, DO(1));
    /* cleared: untouched on the first side */
    WIDE_RUNS(LAST(none, top, rest), FIRST(none, none, all_facts()),
              STANDS(none, top, rest));
    PUT(SEQUENCE(2), ALTERNATIVE, DO(2));
    /* needed: untouched on the last side */
    WIDE_RUNS(LAST(none, none, all_facts()), FIRST(top, none, rest),
              STANDS(top, none, rest));
    PUT(SEQUENCE(3), ALTERNATIVE, CHECK(facts - 1));
    /* checked, by an empty run */
    WIDE_RUNS_AND_EMPTY(LAST(none, none, all_facts()), FIRST(top, none, rest),
                        STANDS(top, none, rest));
    PUT(SEQUENCE(4), ALTERNATIVE);
    /* the empty run: all facts are untouched, and none from F up */
    WIDE_RUNS_AND_EMPTY(LAST(none, none, all_facts()),
                        FIRST(none, none, all_facts()),
                        STANDS(none, none, all_facts()));
    PUT(SEQUENCE(5), ALTERNATIVE, CALL(5));
    no_run();
    judge();
}

static void wide(void)
{
    static const uint32_t facts[] = {1,   63,  64,  65,  127, 128,
                                     129, 191, 192, 193, 255, 256};
    const struct column none = low_facts(0);
    size_t i;
    for (i = 0; i < COUNT(facts); i++)
        highest(facts[i]);

    /* facts that agree in their last six bits are not the same fact */
    LIBRARY("facts 5, 69, 133 and 197 of 256", HEAD(256, 4, 4),
            STEP(0), SETS(5), CLEARS(69), STEP(1), NEEDS(69), SETS(133),
            STEP(2), NEEDS(133), CLEARS(197), STEP(3), SETS(197));
    PUT(SEQUENCE(0), ALTERNATIVE, DO(0), DO(1));
    /* 5 is set; 69 is cleared and then needed, so first needed and last
       cleared, and it stands; 133 is set */
    WIDE_RUNS(LAST(two(5, 133), one_fact(69),
                   but(union_of(two(5, 133), one_fact(69)))),
              FIRST(one_fact(69), two(5, 133),
                    but(union_of(two(5, 133), one_fact(69)))),
              STANDS(union_of(two(5, 133), one_fact(69)), none,
                     but(union_of(two(5, 133), one_fact(69)))));
    PUT(SEQUENCE(1), ALTERNATIVE, DO(2), DO(3), ALTERNATIVE, DO(3), DO(2));
    /* 133 is needed in both; 197 is cleared and set, or set and cleared: a
       clear is no first touch, so first set in both */
    WIDE_RUNS(LAST(one_fact(197), one_fact(197), but(one_fact(197))),
              FIRST(one_fact(133), one_fact(197), but(two(133, 197))),
              STANDS(two(133, 197), one_fact(197), but(two(133, 197))));
    PUT(SEQUENCE(2), ALTERNATIVE, CHECK(5), CHECK(197), ALTERNATIVE, CALL(0));
    /* 5 and 197 are checked, by an empty run, or the run of sequence 0, which
       does not name 197; the checks do not name 69 and 133 */
    WIDE_RUNS_AND_EMPTY(
        LAST(two(5, 133), one_fact(69), all_facts()),
        FIRST(union_of(two(5, 197), one_fact(69)), two(5, 133),
              but(one_fact(5))),
        STANDS(union_of(two(5, 197), two(69, 133)), none, but(one_fact(5))));
    PUT(SEQUENCE(3), ALTERNATIVE, CALL(3), DO(0));
    no_run();
    judge();
}

/*
 * A step for each block of 64 facts, which sets these and clears all others.
 * What a sequence does with one block says nothing of the next.
 */
static void wide_blocks(void)
{
    enum { BLOCKS = 4 };
    const struct column none = low_facts(0);
    uint32_t k, f;
    begin("each block of 64 facts set, and the others cleared");
    put(HEAD(256, BLOCKS, BLOCKS + 2));
    for (k = 0; k < BLOCKS; k++) {
        put(STEP(k));
        for (f = 64 * k; f < 64 * k + 64; f++)
            put(SETS(f));
        for (f = 0; f < 256; f++)
            if (f / 64 != k)
                put(CLEARS(f));
    }
    for (k = 0; k < BLOCKS; k++) {
        struct column own = facts_from(64 * k, 64 * k + 64);
        PUT(SEQUENCE(k), ALTERNATIVE, DO(k));
        WIDE_RUNS(LAST(own, but(own), none), FIRST(none, own, but(own)),
                  STANDS(own, but(own), none));
    }
    PUT(SEQUENCE(BLOCKS), ALTERNATIVE, CALL(0), ALTERNATIVE, CALL(3));
    /* blocks 0 and 3 are set by one and cleared by the other; 1 and 2 are
       cleared by both */
    WIDE_RUNS(LAST(but(facts_from(64, 192)), all_facts(), none),
              FIRST(none, but(facts_from(64, 192)), all_facts()),
              STANDS(but(facts_from(64, 192)), all_facts(), none));
    PUT(SEQUENCE(BLOCKS + 1), ALTERNATIVE, CALL(1), CALL(2));
    /* block 2 is set last; 1 and 2 are set first */
    WIDE_RUNS(LAST(facts_from(128, 192), but(facts_from(128, 192)), none),
              FIRST(none, facts_from(64, 192), but(facts_from(64, 192))),
              STANDS(facts_from(128, 192), but(facts_from(128, 192)), none));
    judge();
}

/* A ring in which sequence c sets fact 4 c + 3 and calls the next, or does
 * nothing: it can set its own fact and those after it as far as it goes on. */
static void wide_rings(void)
{
    enum { RING = 64 };
    struct column set = low_facts(0);
    const struct column none = low_facts(0);
    uint32_t c;
    begin("a ring of 64 sequences and 256 facts");
    put(HEAD(256, RING, RING));
    for (c = 0; c < RING; c++) {
        PUT(STEP(c), SETS(4 * c + 3));
        set = union_of(set, one_fact(4 * c + 3));
    }
    for (c = 0; c < RING; c++) {
        PUT(SEQUENCE(c), ALTERNATIVE, DO(c), CALL((c + 1) % RING), ALTERNATIVE);
        /* any of the facts, or none */
        WIDE_RUNS_AND_EMPTY(LAST(set, none, all_facts()),
                            FIRST(none, set, all_facts()),
                            STANDS(set, none, all_facts()));
    }
    judge();
}
