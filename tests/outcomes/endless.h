/*
 * An alternative with a sequence that has no run gives no run, wherever it
 * stands.
 */
static void endless(void)
{
    /* Document 01's sample */
    LIBRARY("<set, endless> and <clear>",
            HEAD(1, 2, 2), STEP(0), SETS(0), STEP(1), CLEARS(0));
    PUT(SEQUENCE(0), ALTERNATIVE, DO(0), CALL(1), ALTERNATIVE, DO(1));
    /* alternative 0 waits for sequence 1, which has no run. So the one run is
       <step 1>: last cleared. A clear is no touch on the first side. */
    RUNS(LAST(0, 1, 0), FIRST(0, 0, 1), STANDS(0, 1, 0));
    PUT(SEQUENCE(1), ALTERNATIVE, CALL(1));
    /* the only alternative calls the sequence itself, so no finite list comes
       of it */
    no_run();
    judge();

    LIBRARY("the endless entry first, last, in the middle and alone",
            HEAD(1, 3, 6), SET_CLEAR_NEED);
    PUT(SEQUENCE(0), ALTERNATIVE, CALL(0));
    /* calls itself only: no run */
    no_run();
    PUT(SEQUENCE(1), ALTERNATIVE, CALL(0), DO(0), ALTERNATIVE);
    /* only the empty run is left: nothing is touched */
    RUNS_AND_EMPTY(LAST(0, 0, 1), FIRST(0, 0, 1), STANDS(0, 0, 1));
    PUT(SEQUENCE(2), ALTERNATIVE, DO(0), CALL(0), ALTERNATIVE, DO(2));
    /* only <step 2> is left. A need is no touch on the last side. */
    RUNS(LAST(0, 0, 1), FIRST(1, 0, 0), STANDS(1, 0, 0));
    PUT(SEQUENCE(3), ALTERNATIVE, DO(0), CALL(0), DO(1), ALTERNATIVE, DO(0));
    /* only <step 0> is left: set, and not cleared by the step behind the
       endless one */
    RUNS(LAST(1, 0, 0), FIRST(0, 1, 0), STANDS(1, 0, 0));
    PUT(SEQUENCE(4), ALTERNATIVE, CALL(0), ALTERNATIVE, DO(1));
    /* only <step 1> is left */
    RUNS(LAST(0, 1, 0), FIRST(0, 0, 1), STANDS(0, 1, 0));
    PUT(SEQUENCE(5), ALTERNATIVE, DO(0), CALL(0), DO(0));
    /* its one alternative has no run */
    no_run();
    judge();

    /* 0 and 1 call each other, and 4, 5, 6 in a ring, with a step on the way */
    LIBRARY("endless by mutual calls", HEAD(1, 3, 8), SET_CLEAR_NEED);
    PUT(SEQUENCE(0), ALTERNATIVE, CALL(1));
    /* a run of 0 is one of 1, and that is one of 0: none is finite */
    no_run();
    PUT(SEQUENCE(1), ALTERNATIVE, CALL(0));
    /* likewise */
    no_run();
    PUT(SEQUENCE(2), ALTERNATIVE, DO(0), CALL(1), ALTERNATIVE, DO(1));
    /* <step 0, sequence 1> gives nothing, so <step 1> alone: last cleared,
       first untouched */
    RUNS(LAST(0, 1, 0), FIRST(0, 0, 1), STANDS(0, 1, 0));
    PUT(SEQUENCE(3), ALTERNATIVE, CALL(0), DO(0), ALTERNATIVE, DO(2), CALL(1),
        ALTERNATIVE);
    /* two alternatives give nothing, the third the empty run */
    RUNS_AND_EMPTY(LAST(0, 0, 1), FIRST(0, 0, 1), STANDS(0, 0, 1));
    PUT(SEQUENCE(4), ALTERNATIVE, CALL(5));
    /* a run of 4 would be a run of 5, that a run of 6, and that begins with a
       run of 4: no run */
    no_run();
    PUT(SEQUENCE(5), ALTERNATIVE, CALL(6));
    /* likewise */
    no_run();
    PUT(SEQUENCE(6), ALTERNATIVE, CALL(4), DO(0));
    /* likewise: the step behind the call is never reached */
    no_run();
    PUT(SEQUENCE(7), ALTERNATIVE, DO(1), CALL(5), ALTERNATIVE, DO(0));
    /* only <step 0> is left */
    RUNS(LAST(1, 0, 0), FIRST(0, 1, 0), STANDS(1, 0, 0));
    judge();

    LIBRARY("a sequence without alternatives has no run",
            HEAD(1, 2, 5), STEP(0), SETS(0), STEP(1), CLEARS(0));
    PUT(SEQUENCE(0));
    /* there is nothing to choose: no run */
    no_run();
    PUT(SEQUENCE(1), ALTERNATIVE, DO(0), CALL(0), ALTERNATIVE, DO(1));
    /* only <step 1> is left */
    RUNS(LAST(0, 1, 0), FIRST(0, 0, 1), STANDS(0, 1, 0));
    PUT(SEQUENCE(2), ALTERNATIVE, CALL(0), ALTERNATIVE);
    /* only the empty run is left */
    RUNS_AND_EMPTY(LAST(0, 0, 1), FIRST(0, 0, 1), STANDS(0, 0, 1));
    PUT(SEQUENCE(3), ALTERNATIVE, CALL(0), CALL(0));
    /* no run, as sequence 0 has none */
    no_run();
    PUT(SEQUENCE(4), ALTERNATIVE, CALL(0), DO(0), ALTERNATIVE, DO(0),
        ALTERNATIVE, CALL(0), DO(1));
    /* only the alternative in the middle counts, <step 0> */
    RUNS(LAST(1, 0, 0), FIRST(0, 1, 0), STANDS(1, 0, 0));
    judge();

    LIBRARY("the endless one stands behind another, and has a later number",
            HEAD(1, 2, 3), STEP(0), SETS(0), STEP(1), CLEARS(0));
    PUT(SEQUENCE(0), ALTERNATIVE, CALL(1), ALTERNATIVE, DO(1));
    /* sequence 1 has no run, so <step 1> alone */
    RUNS(LAST(0, 1, 0), FIRST(0, 0, 1), STANDS(0, 1, 0));
    PUT(SEQUENCE(1), ALTERNATIVE, DO(0), CALL(2));
    /* needs a run of sequence 2: none */
    no_run();
    PUT(SEQUENCE(2), ALTERNATIVE, CALL(2), DO(0),
        ALTERNATIVE, DO(1), CALL(2), DO(0));
    /* both alternatives call the sequence itself: no run */
    no_run();
    judge();

    LIBRARY("the endless alternative first, last, first and last",
            HEAD(1, 3, 4), SET_CLEAR_NEED);
    PUT(SEQUENCE(0), ALTERNATIVE, DO(0), CALL(3), ALTERNATIVE, DO(1),
        ALTERNATIVE, DO(2), CALL(3));
    /* <step 1> alone: neither set nor needed */
    RUNS(LAST(0, 1, 0), FIRST(0, 0, 1), STANDS(0, 1, 0));
    PUT(SEQUENCE(1), ALTERNATIVE, DO(1), ALTERNATIVE, DO(0), CALL(3));
    /* <step 1> alone */
    RUNS(LAST(0, 1, 0), FIRST(0, 0, 1), STANDS(0, 1, 0));
    PUT(SEQUENCE(2), ALTERNATIVE, CALL(3), DO(0), ALTERNATIVE, CALL(3),
        ALTERNATIVE, DO(2), CALL(3), DO(1));
    /* three alternatives, none with a run */
    no_run();
    PUT(SEQUENCE(3), ALTERNATIVE, CALL(3));
    no_run();
    judge();

    LIBRARY("the endless entry between two calls that have runs",
            HEAD(1, 2, 3), STEP(0), SETS(0), STEP(1), CLEARS(0));
    PUT(SEQUENCE(0), ALTERNATIVE, CALL(1), CALL(2), CALL(1),
        ALTERNATIVE, DO(1));
    /* <step 1> alone: neither the set nor the empty run of sequence 1 counts */
    RUNS(LAST(0, 1, 0), FIRST(0, 0, 1), STANDS(0, 1, 0));
    PUT(SEQUENCE(1), ALTERNATIVE, DO(0), ALTERNATIVE);
    /* runs <step 0> and <> */
    RUNS_AND_EMPTY(LAST(1, 0, 1), FIRST(0, 1, 1), STANDS(1, 0, 1));
    PUT(SEQUENCE(2), ALTERNATIVE, CALL(2));
    no_run();
    judge();

    LIBRARY("every alternative calls itself, and then one does not",
            HEAD(1, 3, 2), SET_CLEAR_NEED);
    PUT(SEQUENCE(0), ALTERNATIVE, DO(0), CALL(0), ALTERNATIVE, CALL(0), DO(1),
        ALTERNATIVE, CALL(0), CALL(0));
    /* no alternative ends: no run */
    no_run();
    PUT(SEQUENCE(1), ALTERNATIVE, DO(0), CALL(1), ALTERNATIVE, CALL(1), DO(1),
        ALTERNATIVE, CALL(1), CALL(1), ALTERNATIVE, DO(2));
    /* every run has a step 2, with steps 0 before and steps 1 after some: <2>
       is untouched, <0, 2> set and <2, 1> cleared. First: <2> needs, <0, 2>
       sets. Each run has a step that needs, so none is untouched on the first
       side. */
    RUNS(LAST(1, 1, 1), FIRST(1, 1, 0), STANDS(1, 1, 0));
    judge();
}
