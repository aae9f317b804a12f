/*
 * Where an entry always touches the fact, nothing beyond it is read: from the
 * right on the last side, from the left on the first side.
 */
static void past(void)
{
    LIBRARY("two touches in one alternative",
            HEAD(1, 4, 6), SET_CLEAR_NEED, STEP(3));
    PUT(SEQUENCE(0), ALTERNATIVE, DO(0), DO(1));
    /* last the clear; first the set */
    RUNS(LAST(0, 1, 0), FIRST(0, 1, 0), STANDS(0, 1, 0));
    PUT(SEQUENCE(1), ALTERNATIVE, DO(1), DO(0));
    /* last the set; first the set too, as a clear is no touch there */
    RUNS(LAST(1, 0, 0), FIRST(0, 1, 0), STANDS(1, 0, 0));
    PUT(SEQUENCE(2), ALTERNATIVE, DO(2), DO(0));
    /* last the set; first the need */
    RUNS(LAST(1, 0, 0), FIRST(1, 0, 0), STANDS(1, 0, 0));
    PUT(SEQUENCE(3), ALTERNATIVE, DO(0), DO(2));
    /* last the set, as a need is no touch there; first the set */
    RUNS(LAST(1, 0, 0), FIRST(0, 1, 0), STANDS(1, 0, 0));
    PUT(SEQUENCE(4), ALTERNATIVE, DO(0), DO(3), DO(1), DO(3));
    /* steps without facts change nothing: last the clear, first the set */
    RUNS(LAST(0, 1, 0), FIRST(0, 1, 0), STANDS(0, 1, 0));
    PUT(SEQUENCE(5), ALTERNATIVE, DO(3), DO(2), DO(3), DO(0));
    /* first the need, last the set */
    RUNS(LAST(1, 0, 0), FIRST(1, 0, 0), STANDS(1, 0, 0));
    judge();

    /* sequence 0 always clears, sequence 1 clears or is empty */
    LIBRARY("past an entry, the last side",
            HEAD(1, 4, 9), SET_CLEAR_NEED, STEP(3));
    PUT(SEQUENCE(0), ALTERNATIVE, DO(1), ALTERNATIVE, DO(1), DO(3));
    /* both runs clear */
    RUNS(LAST(0, 1, 0), FIRST(0, 0, 1), STANDS(0, 1, 0));
    PUT(SEQUENCE(1), ALTERNATIVE, DO(1), ALTERNATIVE);
    /* clears, or stays untouched */
    RUNS_AND_EMPTY(LAST(0, 1, 1), FIRST(0, 0, 1), STANDS(0, 1, 1));
    PUT(SEQUENCE(2), ALTERNATIVE, DO(0), CALL(0));
    /* the set stands behind a clear in every run: it is never the last touch */
    RUNS(LAST(0, 1, 0), FIRST(0, 1, 0), STANDS(0, 1, 0));
    PUT(SEQUENCE(3), ALTERNATIVE, DO(0), CALL(1));
    /* where sequence 1 is empty the set is last, otherwise the clear */
    RUNS(LAST(1, 1, 0), FIRST(0, 1, 0), STANDS(1, 1, 0));
    PUT(SEQUENCE(4), ALTERNATIVE, DO(0), CALL(0), DO(3));
    /* step 3 touches nothing, so the clear is last */
    RUNS(LAST(0, 1, 0), FIRST(0, 1, 0), STANDS(0, 1, 0));
    PUT(SEQUENCE(5), ALTERNATIVE, DO(0), CALL(0), CALL(1));
    /* where sequence 1 is empty the clear of sequence 0 is last: never the
       set */
    RUNS(LAST(0, 1, 0), FIRST(0, 1, 0), STANDS(0, 1, 0));
    PUT(SEQUENCE(6), ALTERNATIVE, DO(0), CALL(1), CALL(1));
    /* both can be empty: then the set is last */
    RUNS(LAST(1, 1, 0), FIRST(0, 1, 0), STANDS(1, 1, 0));
    PUT(SEQUENCE(7), ALTERNATIVE, DO(0), CALL(0), ALTERNATIVE, DO(0));
    /* alternative 1 gives the set */
    RUNS(LAST(1, 1, 0), FIRST(0, 1, 0), STANDS(1, 1, 0));
    PUT(SEQUENCE(8), ALTERNATIVE, DO(0), CALL(0), DO(0), CALL(1));
    /* the second set is last, or a clear after it */
    RUNS(LAST(1, 1, 0), FIRST(0, 1, 0), STANDS(1, 1, 0));
    judge();

    /* sequence 0 always sets, sequence 1 always needs, sequence 2 sets or is
       empty */
    LIBRARY("past an entry, the first side",
            HEAD(1, 4, 11), SET_CLEAR_NEED, STEP(3));
    PUT(SEQUENCE(0), ALTERNATIVE, DO(0), ALTERNATIVE, DO(3), DO(0));
    /* both runs set */
    RUNS(LAST(1, 0, 0), FIRST(0, 1, 0), STANDS(1, 0, 0));
    PUT(SEQUENCE(1), ALTERNATIVE, DO(2), ALTERNATIVE, DO(3), DO(2));
    /* both runs need. A need is no touch on the last side. */
    RUNS(LAST(0, 0, 1), FIRST(1, 0, 0), STANDS(1, 0, 0));
    PUT(SEQUENCE(2), ALTERNATIVE, DO(0), ALTERNATIVE);
    /* sets, or stays untouched */
    RUNS_AND_EMPTY(LAST(1, 0, 1), FIRST(0, 1, 1), STANDS(1, 0, 1));
    PUT(SEQUENCE(3), ALTERNATIVE, CALL(0), DO(2));
    /* the need stands behind a set in every run: it is never the first touch */
    RUNS(LAST(1, 0, 0), FIRST(0, 1, 0), STANDS(1, 0, 0));
    PUT(SEQUENCE(4), ALTERNATIVE, CALL(1), DO(0));
    /* the need is first in every run: the set is never the first touch */
    RUNS(LAST(1, 0, 0), FIRST(1, 0, 0), STANDS(1, 0, 0));
    PUT(SEQUENCE(5), ALTERNATIVE, CALL(2), DO(2));
    /* where sequence 2 is empty the need is first */
    RUNS(LAST(1, 0, 1), FIRST(1, 1, 0), STANDS(1, 0, 0));
    PUT(SEQUENCE(6), ALTERNATIVE, DO(3), CALL(0), DO(2));
    /* step 3 touches nothing, so the set of sequence 0 is first */
    RUNS(LAST(1, 0, 0), FIRST(0, 1, 0), STANDS(1, 0, 0));
    PUT(SEQUENCE(7), ALTERNATIVE, CALL(2), CALL(0), DO(2));
    /* the set of sequence 2 or that of sequence 0: never the need */
    RUNS(LAST(1, 0, 0), FIRST(0, 1, 0), STANDS(1, 0, 0));
    PUT(SEQUENCE(8), ALTERNATIVE, CALL(1), CALL(0));
    /* first the need, last the set */
    RUNS(LAST(1, 0, 0), FIRST(1, 0, 0), STANDS(1, 0, 0));
    PUT(SEQUENCE(9), ALTERNATIVE, CALL(2), CALL(1));
    /* where sequence 2 is empty the need is first, and nothing is set */
    RUNS(LAST(1, 0, 1), FIRST(1, 1, 0), STANDS(1, 0, 0));
    PUT(SEQUENCE(10), ALTERNATIVE, CALL(2), DO(1), CALL(1));
    /* the clear is last, as only needs follow; first the set, or where sequence
       2 is empty the need, past the clear */
    RUNS(LAST(0, 1, 0), FIRST(1, 1, 0), STANDS(1, 0, 0));
    judge();

    /* step 0 sets fact 0 and clears fact 1, step 1 the other way round, step 2
       needs all three */
    LIBRARY("three facts at once",
            HEAD(3, 3, 4), STEP(0), SETS(0), CLEARS(1),
            STEP(1), SETS(1), CLEARS(0), STEP(2), NEEDS(0), NEEDS(1), NEEDS(2));
    PUT(SEQUENCE(0), ALTERNATIVE, DO(0), CALL(1));
    /* runs <0, 1> and <0, 2>. Last, fact 0: cleared by 1, or set by 0; fact 1:
       set by 1, or cleared by 0. First, fact 0: set by 0 in both; fact 1: past
       the clear, set by 1 or needed by 2; fact 2: untouched, or needed by 2.
       After <0, 2> all stand, after <0, 1> fact 1 alone, and fact 0 is
       cleared. */
    RUNS(LAST(3, 3, 4), FIRST(6, 3, 4), STANDS(7, 1, 4));
    PUT(SEQUENCE(1), ALTERNATIVE, DO(1), ALTERNATIVE, DO(2));
    /* runs <1> and <2>. Step 2 touches nothing on the last side, and on the
       first side needs all, which stand after it; step 1 sets fact 1 and clears
       fact 0. */
    RUNS(LAST(2, 1, 7), FIRST(7, 2, 5), STANDS(7, 1, 4));
    PUT(SEQUENCE(2), ALTERNATIVE, CALL(1), DO(0));
    /* runs <1, 0> and <2, 0>. Last: step 0 decides facts 0 and 1, which is the
       last to name them too; fact 2 is named by <2, 0>. First: <1, 0> sets fact
       1, then fact 0; <2, 0> needs all. */
    RUNS(LAST(1, 2, 4), FIRST(7, 3, 4), STANDS(5, 2, 4));
    PUT(SEQUENCE(3), ALTERNATIVE, CALL(1), CALL(1));
    /* runs <1, 1>, <1, 2>, <2, 1>, <2, 2>. Last: a step 1 decides facts 0 and
       1, and <2, 2> touches nothing. First: <1, 1> sets fact 1 only; <1, 2>
       sets fact 1 and needs 0 and 2; a step 2 in front needs all. A step 2 at
       the end leaves all standing, a step 1 clears fact 0; <1, 1> does not name
       fact 2. */
    RUNS(LAST(2, 1, 7), FIRST(7, 2, 5), STANDS(7, 1, 4));
    judge();

    LIBRARY("a sequence that always touches through two calls",
            HEAD(1, 4, 6), SET_CLEAR_NEED, STEP(3));
    PUT(SEQUENCE(0), ALTERNATIVE, DO(1));
    /* clears */
    RUNS(LAST(0, 1, 0), FIRST(0, 0, 1), STANDS(0, 1, 0));
    PUT(SEQUENCE(1), ALTERNATIVE, CALL(0), CALL(0));
    /* clears twice */
    RUNS(LAST(0, 1, 0), FIRST(0, 0, 1), STANDS(0, 1, 0));
    PUT(SEQUENCE(2), ALTERNATIVE, CALL(1), ALTERNATIVE, CALL(0), DO(3));
    /* clears in both alternatives */
    RUNS(LAST(0, 1, 0), FIRST(0, 0, 1), STANDS(0, 1, 0));
    PUT(SEQUENCE(3), ALTERNATIVE, DO(0), CALL(2));
    /* the clear is last: the set is never read */
    RUNS(LAST(0, 1, 0), FIRST(0, 1, 0), STANDS(0, 1, 0));
    PUT(SEQUENCE(4), ALTERNATIVE, DO(0), CALL(2), DO(0));
    /* the second set is last */
    RUNS(LAST(1, 0, 0), FIRST(0, 1, 0), STANDS(1, 0, 0));
    PUT(SEQUENCE(5), ALTERNATIVE, CALL(2), DO(2));
    /* a clear is no touch on the first side: needed */
    RUNS(LAST(0, 1, 0), FIRST(1, 0, 0), STANDS(1, 0, 0));
    judge();
}
