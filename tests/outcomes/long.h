/*
 * Long libraries: as many sequences as there can be, 256, which call one
 * another, 8,192 words, 1,023 steps.
 */
enum { TOP = MOST_C - 1, HALF = MOST_C / 2 };

/* Each calls another one, and one has a step. */
static void calls_in_a_row(void)
{
    uint32_t c;

    LIBRARY("each calls the next, the last one sets",
            HEAD(1, 1, MOST_C), STEP(0), SETS(0));
    for (c = 0; c < MOST_C; c++) {
        PUT(SEQUENCE(c), ALTERNATIVE, c < TOP ? CALL(c + 1) : DO(0));
        /* the one run of each is <step 0> */
        RUNS(LAST(1, 0, 0), FIRST(0, 1, 0), STANDS(1, 0, 0));
    }
    judge();

    LIBRARY("each calls the one before, the first one needs",
            HEAD(1, 1, MOST_C), STEP(0), NEEDS(0));
    for (c = 0; c < MOST_C; c++) {
        PUT(SEQUENCE(c), ALTERNATIVE, c > 0 ? CALL(c - 1) : DO(0));
        /* the one run of each is <step 0> */
        RUNS(LAST(0, 0, 1), FIRST(1, 0, 0), STANDS(1, 0, 0));
    }
    judge();

    LIBRARY("each calls the next, the last one checks", HEAD(1, 0, MOST_C));
    for (c = 0; c < MOST_C; c++) {
        PUT(SEQUENCE(c), ALTERNATIVE, c < TOP ? CALL(c + 1) : CHECK(0));
        /* the one run of each is <check>, which is empty */
        RUNS_AND_EMPTY(LAST(0, 0, 1), FIRST(1, 0, 0), STANDS(1, 0, 0));
    }
    judge();

    /* 0 calls 128, that 1, that 129, .., 127, 255: to and fro */
    LIBRARY("to and fro, the last one sets or is empty",
            HEAD(1, 1, MOST_C), STEP(0), SETS(0));
    for (c = 0; c < MOST_C; c++) {
        PUT(SEQUENCE(c), ALTERNATIVE);
        if (c < TOP)
            put(CALL(c < HALF ? c + HALF : c - HALF + 1));
        else
            PUT(DO(0), ALTERNATIVE);
        /* runs <step 0> and <> of sequence 255 */
        RUNS_AND_EMPTY(LAST(1, 0, 1), FIRST(0, 1, 1), STANDS(1, 0, 1));
    }
    judge();

    LIBRARY("<next, clear>, and the last one sets",
            HEAD(1, 2, MOST_C), STEP(0), SETS(0), STEP(1), CLEARS(0));
    for (c = 0; c < TOP; c++) {
        PUT(SEQUENCE(c), ALTERNATIVE, CALL(c + 1), DO(1));
        /* a set, then clears */
        RUNS(LAST(0, 1, 0), FIRST(0, 1, 0), STANDS(0, 1, 0));
    }
    PUT(SEQUENCE(TOP), ALTERNATIVE, DO(0));
    /* the set alone */
    RUNS(LAST(1, 0, 0), FIRST(0, 1, 0), STANDS(1, 0, 0));
    judge();

    LIBRARY("<need, one before>, and the first one sets",
            HEAD(1, 2, MOST_C), STEP(0), SETS(0), STEP(1), NEEDS(0));
    PUT(SEQUENCE(0), ALTERNATIVE, DO(0));
    /* the set alone */
    RUNS(LAST(1, 0, 0), FIRST(0, 1, 0), STANDS(1, 0, 0));
    for (c = 1; c < MOST_C; c++) {
        PUT(SEQUENCE(c), ALTERNATIVE, DO(1), CALL(c - 1));
        /* needs, then the set */
        RUNS(LAST(1, 0, 0), FIRST(1, 0, 0), STANDS(1, 0, 0));
    }
    judge();

    LIBRARY("<need, next> and <>, and the last one is empty",
            HEAD(1, 1, MOST_C), STEP(0), NEEDS(0));
    for (c = 0; c < TOP; c++) {
        PUT(SEQUENCE(c), ALTERNATIVE, DO(0), CALL(c + 1), ALTERNATIVE);
        /* any number of needs, none among them */
        RUNS_AND_EMPTY(LAST(0, 0, 1), FIRST(1, 0, 1), STANDS(1, 0, 1));
    }
    PUT(SEQUENCE(TOP), ALTERNATIVE);
    /* the empty run alone */
    RUNS_AND_EMPTY(LAST(0, 0, 1), FIRST(0, 0, 1), STANDS(0, 0, 1));
    judge();
}

/* Each calls the one before and the next. */
static void neighbours(void)
{
    uint32_t c;

    /* sequence 0 sets fact 0, sequence 255 needs fact 1. Each sequence reaches
       both ends: runs <0> and <1>. Fact 0: set, or untouched. Fact 1: untouched
       on the last side; needed, or untouched, on the first. */
    LIBRARY("<one before> and <next>",
            HEAD(2, 2, MOST_C), STEP(0), SETS(0), STEP(1), NEEDS(1));
    for (c = 0; c < MOST_C; c++) {
        PUT(SEQUENCE(c), ALTERNATIVE, CALL(c > 0 ? c - 1 : 1),
            ALTERNATIVE, c == 0 ? DO(0) : c == TOP ? DO(1) : CALL(c + 1));
        RUNS(LAST(1, 0, 3), FIRST(2, 1, 3), STANDS(3, 0, 3));
    }
    judge();

    LIBRARY("<one before, next> and <>",
            HEAD(1, 2, MOST_C), STEP(0), SETS(0), STEP(1), CLEARS(0));
    PUT(SEQUENCE(0), ALTERNATIVE, DO(0), ALTERNATIVE);
    /* <0> and <> */
    RUNS_AND_EMPTY(LAST(1, 0, 1), FIRST(0, 1, 1), STANDS(1, 0, 1));
    for (c = 1; c < TOP; c++) {
        PUT(SEQUENCE(c), ALTERNATIVE, CALL(c - 1), CALL(c + 1), ALTERNATIVE);
        /* through the ones before it comes the set of sequence 0, through the
           next ones the clear of sequence 255, and every other call can be
           empty: <>, <0>, <1>, <0, 1> */
        RUNS_AND_EMPTY(LAST(1, 1, 1), FIRST(0, 1, 1), STANDS(1, 1, 1));
    }
    PUT(SEQUENCE(TOP), ALTERNATIVE, DO(1), ALTERNATIVE);
    /* <1> and <> */
    RUNS_AND_EMPTY(LAST(0, 1, 1), FIRST(0, 0, 1), STANDS(0, 1, 1));
    judge();
}

/* Each calls the next, and the last one the first. */
static void rings(void)
{
    enum { WAY_OUT = 100 };
    uint32_t c;

    LIBRARY("a ring with one way out, in the middle",
            HEAD(1, 1, MOST_C), STEP(0), SETS(0));
    for (c = 0; c < MOST_C; c++) {
        PUT(SEQUENCE(c), ALTERNATIVE, CALL(c < TOP ? c + 1 : 0));
        if (c == WAY_OUT)
            PUT(ALTERNATIVE, DO(0));
        /* the one run of each is <step 0> */
        RUNS(LAST(1, 0, 0), FIRST(0, 1, 0), STANDS(1, 0, 0));
    }
    judge();

    LIBRARY("a ring of <set, next> with one way out, <need>",
            HEAD(1, 2, MOST_C), STEP(0), SETS(0), STEP(1), NEEDS(0));
    for (c = 0; c < TOP; c++) {
        PUT(SEQUENCE(c), ALTERNATIVE, DO(0), CALL(c + 1));
        /* sets, then the need: set on both sides */
        RUNS(LAST(1, 0, 0), FIRST(0, 1, 0), STANDS(1, 0, 0));
    }
    PUT(SEQUENCE(TOP), ALTERNATIVE, DO(0), CALL(0), ALTERNATIVE, DO(1));
    /* also the need alone, which leaves the fact untouched on the last side */
    RUNS(LAST(1, 0, 1), FIRST(1, 1, 0), STANDS(1, 0, 0));
    judge();

    LIBRARY("a ring of <set, next> without a way out",
            HEAD(1, 1, MOST_C), STEP(0), SETS(0));
    for (c = 0; c < MOST_C; c++) {
        PUT(SEQUENCE(c), ALTERNATIVE, DO(0), CALL(c < TOP ? c + 1 : 0));
        no_run();
    }
    judge();

    /* step i sets fact i, sequence i is <step i, next> or empty: a run goes
       round from fact i on as far as it likes. Each fact can be set, and by the
       empty run each stays untouched. */
    begin("a ring of 64 facts");
    put(HEAD(64, 64, 64));
    for (c = 0; c < 64; c++)
        PUT(STEP(c), SETS(c));
    for (c = 0; c < 64; c++) {
        PUT(SEQUENCE(c), ALTERNATIVE, DO(c), CALL(c < 63 ? c + 1 : 0),
            ALTERNATIVE);
        RUNS_AND_EMPTY(LAST(FACTS(64), 0, FACTS(64)),
                       FIRST(0, FACTS(64), FACTS(64)),
                       STANDS(FACTS(64), 0, FACTS(64)));
    }
    judge();
}

static void endless_many(void)
{
    uint32_t c;

    LIBRARY("each calls itself alone", HEAD(64, 0, MOST_C));
    for (c = 0; c < MOST_C; c++) {
        PUT(SEQUENCE(c), ALTERNATIVE, CALL(c));
        no_run();
    }
    judge();

    LIBRARY("none has an alternative", HEAD(64, 0, MOST_C));
    for (c = 0; c < MOST_C; c++) {
        put(SEQUENCE(c));
        no_run();
    }
    judge();

    /* 0 to 127 <next> alone, 128 to 254 <next> and <set>, 255 <itself> */
    LIBRARY("a row that ends in an endless one, and half can leave it",
            HEAD(1, 1, MOST_C), STEP(0), SETS(0));
    for (c = 0; c < TOP; c++) {
        PUT(SEQUENCE(c), ALTERNATIVE, CALL(c + 1));
        if (c >= HALF)
            PUT(ALTERNATIVE, DO(0));
        /* <step 0>, below 128 by sequence 128 */
        RUNS(LAST(1, 0, 0), FIRST(0, 1, 0), STANDS(1, 0, 0));
    }
    PUT(SEQUENCE(TOP), ALTERNATIVE, CALL(TOP));
    no_run();
    judge();

    /* 0 to 127 call the one before, 0 itself; 128 to 254 call the next, 255 is
       empty */
    LIBRARY("a row without a way out and a row that ends empty",
            HEAD(1, 0, MOST_C));
    for (c = 0; c < HALF; c++) {
        PUT(SEQUENCE(c), ALTERNATIVE, CALL(c > 0 ? c - 1 : 0));
        no_run();
    }
    for (; c < MOST_C; c++) {
        PUT(SEQUENCE(c), ALTERNATIVE);
        if (c < TOP)
            put(CALL(c + 1));
        /* the empty run */
        RUNS_AND_EMPTY(LAST(0, 0, 1), FIRST(0, 0, 1), STANDS(0, 0, 1));
    }
    judge();
}

/* 8,192 words, and 1,023 steps. */
static void full_images(void)
{
    uint32_t a;

    LIBRARY("4,093 alternatives <step 0>, and one that is empty",
            HEAD(1, 1, 1), STEP(0), SETS(0), SEQUENCE(0));
    while (words < FULL - 2)
        PUT(ALTERNATIVE, DO(0));
    put(ALTERNATIVE);
    RUNS_AND_EMPTY(LAST(1, 0, 1), FIRST(0, 1, 1), STANDS(1, 0, 1));
    judge();

    LIBRARY("one alternative, <need, 8,180 clears, set>",
            HEAD(1, 3, 1), SET_CLEAR_NEED, SEQUENCE(0), ALTERNATIVE, DO(2));
    fill(DO(1), FULL - 2);
    put(DO(0));
    /* first the need, last the set */
    RUNS(LAST(1, 0, 0), FIRST(1, 0, 0), STANDS(1, 0, 0));
    judge();

    LIBRARY("one alternative, <clear, 8,180 checks of another fact, check>",
            HEAD(2, 3, 1), SET_CLEAR_NEED, SEQUENCE(0), ALTERNATIVE, DO(1));
    fill(CHECK(1), FULL - 2);
    put(CHECK(0));
    /* fact 0: last cleared, first needed past that, and it stands; fact 1:
       checked alone */
    RUNS(LAST(0, 1, 2), FIRST(3, 0, 0), STANDS(3, 0, 0));
    judge();

    begin("1,022 steps that clear, and the last one sets");
    put(HEAD(1, MOST_A, 2));
    for (a = 0; a < MOST_A; a++)
        PUT(STEP(a), a < MOST_A - 1 ? CLEARS(0) : SETS(0));
    PUT(SEQUENCE(0), ALTERNATIVE, DO(MOST_A - 1));
    /* <1022>: set */
    RUNS(LAST(1, 0, 0), FIRST(0, 1, 0), STANDS(1, 0, 0));
    PUT(SEQUENCE(1), ALTERNATIVE, DO(MOST_A - 2), ALTERNATIVE, CALL(0));
    /* <1021>: cleared, and <1022> */
    RUNS(LAST(1, 1, 0), FIRST(0, 1, 1), STANDS(1, 1, 0));
    judge();
}
