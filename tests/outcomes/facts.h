/* Library L of document 01, and the bounds of F and C. */
static void facts(void)
{
    begin("library L");
    put_all(library_l, L_SUM);
    /* sequence 0, <0> and <>: fact 0 set or untouched, facts 1 and 2
       untouched */
    RUNS_AND_EMPTY(LAST(1, 0, 7), FIRST(0, 1, 7), STANDS(1, 0, 7));
    /* sequence 1, <0, 1> and <1>. Fact 0: set by 0, or needed by 1 and
       untouched on the last side. Fact 1: set by 1 in both. Fact 2: untouched.
     */
    RUNS(LAST(3, 0, 5), FIRST(1, 3, 4), STANDS(3, 0, 4));
    /* sequence 2, endless */
    no_run();
    judge();

    LIBRARY("no sequence: no word is written", HEAD(1, 0, 0));
    judge();

    /* one without alternative is written too, as zeros */
    LIBRARY("sequences only", HEAD(2, 0, 4));
    PUT(SEQUENCE(0));
    no_run();
    PUT(SEQUENCE(1), ALTERNATIVE);
    /* the empty run, for both facts */
    RUNS_AND_EMPTY(LAST(0, 0, 3), FIRST(0, 0, 3), STANDS(0, 0, 3));
    PUT(SEQUENCE(2), ALTERNATIVE, CALL(1), CALL(1));
    /* the empty run */
    RUNS_AND_EMPTY(LAST(0, 0, 3), FIRST(0, 0, 3), STANDS(0, 0, 3));
    PUT(SEQUENCE(3), ALTERNATIVE, CALL(0));
    no_run();
    judge();

    LIBRARY("F = 1: bit 0 alone", HEAD(1, 2, 3), STEP(0), SETS(0), STEP(1));
    PUT(SEQUENCE(0), ALTERNATIVE);
    /* the empty run */
    RUNS_AND_EMPTY(LAST(0, 0, 1), FIRST(0, 0, 1), STANDS(0, 0, 1));
    PUT(SEQUENCE(1), ALTERNATIVE, DO(0));
    /* set */
    RUNS(LAST(1, 0, 0), FIRST(0, 1, 0), STANDS(1, 0, 0));
    PUT(SEQUENCE(2), ALTERNATIVE, DO(1));
    /* a step without facts */
    RUNS(LAST(0, 0, 1), FIRST(0, 0, 1), STANDS(0, 0, 1));
    judge();

    LIBRARY("F = 64: fact 63 is bit 63, and all 64 bits count",
            HEAD(64, 3, 6), STEP(0), SETS(63), STEP(1), CLEARS(63),
            STEP(2), NEEDS(63));
    PUT(SEQUENCE(0), ALTERNATIVE, DO(0));
    /* sets fact 63, the others are untouched */
    RUNS(LAST(FACT(63), 0, FACTS(63)), FIRST(0, FACT(63), FACTS(63)),
         STANDS(FACT(63), 0, FACTS(63)));
    PUT(SEQUENCE(1), ALTERNATIVE, DO(1));
    /* clears it: untouched on the first side */
    RUNS(LAST(0, FACT(63), FACTS(63)), FIRST(0, 0, FACTS(64)),
         STANDS(0, FACT(63), FACTS(63)));
    PUT(SEQUENCE(2), ALTERNATIVE, DO(2));
    /* needs it: untouched on the last side */
    RUNS(LAST(0, 0, FACTS(64)), FIRST(FACT(63), 0, FACTS(63)),
         STANDS(FACT(63), 0, FACTS(63)));
    PUT(SEQUENCE(3), ALTERNATIVE, DO(0), DO(1));
    /* last cleared, first set */
    RUNS(LAST(0, FACT(63), FACTS(63)), FIRST(0, FACT(63), FACTS(63)),
         STANDS(0, FACT(63), FACTS(63)));
    PUT(SEQUENCE(4), ALTERNATIVE);
    /* the empty run */
    RUNS_AND_EMPTY(LAST(0, 0, FACTS(64)), FIRST(0, 0, FACTS(64)),
                   STANDS(0, 0, FACTS(64)));
    PUT(SEQUENCE(5), ALTERNATIVE, DO(1), DO(2), ALTERNATIVE, DO(0));
    /* <1, 2> clears and needs, <0> sets */
    RUNS(LAST(FACT(63), FACT(63), FACTS(63)),
         FIRST(FACT(63), FACT(63), FACTS(63)),
         STANDS(FACT(63), 0, FACTS(63)));
    judge();

    LIBRARY("F = 63: bit 63 stays 0", HEAD(63, 1, 2), STEP(0), SETS(62));
    PUT(SEQUENCE(0), ALTERNATIVE);
    /* the empty run */
    RUNS_AND_EMPTY(LAST(0, 0, FACTS(63)), FIRST(0, 0, FACTS(63)),
                   STANDS(0, 0, FACTS(63)));
    PUT(SEQUENCE(1), ALTERNATIVE, DO(0));
    /* sets fact 62 */
    RUNS(LAST(FACT(62), 0, FACTS(62)), FIRST(0, FACT(62), FACTS(62)),
         STANDS(FACT(62), 0, FACTS(62)));
    judge();

    LIBRARY("F = 33: facts 31 and 32, on both sides of bit 32",
            HEAD(33, 2, 3), STEP(0), SETS(31), CLEARS(32), STEP(1), NEEDS(32));
    PUT(SEQUENCE(0), ALTERNATIVE, DO(0));
    /* fact 31 set, fact 32 cleared, which is no touch on the first side */
    RUNS(LAST(FACT(31), FACT(32), FACTS(31)),
         FIRST(0, FACT(31), FACTS(33) & ~FACT(31)),
         STANDS(FACT(31), FACT(32), FACTS(31)));
    PUT(SEQUENCE(1), ALTERNATIVE, DO(0), DO(1));
    /* and fact 32 needed, past the clear */
    RUNS(LAST(FACT(31), FACT(32), FACTS(31)),
         FIRST(FACT(32), FACT(31), FACTS(31)),
         STANDS(FACT(31) | FACT(32), 0, FACTS(31)));
    PUT(SEQUENCE(2), ALTERNATIVE, DO(1), DO(0));
    /* the same in the other order */
    RUNS(LAST(FACT(31), FACT(32), FACTS(31)),
         FIRST(FACT(32), FACT(31), FACTS(31)),
         STANDS(FACT(31), FACT(32), FACTS(31)));
    judge();

    LIBRARY("one step with several facts", HEAD(5, 1, 3), STEP(0),
            NEEDS(0), NEEDS(1), SETS(1), SETS(2), CLEARS(3));
    PUT(SEQUENCE(0), ALTERNATIVE, DO(0));
    /* last: 1 and 2 set, 3 cleared, 0 and 4 untouched. First: 0 and 1 needed, 2
       set, 3 and 4 untouched. */
    RUNS(LAST(6, 8, 0x11), FIRST(3, 4, 0x18), STANDS(7, 8, 0x10));
    PUT(SEQUENCE(1), ALTERNATIVE, DO(0), DO(0));
    /* twice the same: the same outcomes */
    RUNS(LAST(6, 8, 0x11), FIRST(3, 4, 0x18), STANDS(7, 8, 0x10));
    PUT(SEQUENCE(2), ALTERNATIVE, CALL(0), ALTERNATIVE);
    /* and the empty run: all can stay untouched */
    RUNS_AND_EMPTY(LAST(6, 8, 0x1f), FIRST(3, 4, 0x1f), STANDS(7, 8, 0x1f));
    judge();
}
