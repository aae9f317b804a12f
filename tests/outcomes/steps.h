/* Needs after sets and after clears, and steps that touch a fact twice. */
static void steps(void)
{
    LIBRARY("each step by itself, under one and two kinds",
            HEAD(1, 7, 7), SET_CLEAR_NEED, STEP(3), NEEDS(0), SETS(0),
            STEP(4), SETS(0), STEP(5), NEEDS(0), CLEARS(0),
            STEP(6), NEEDS(0), SETS(0));
    PUT(SEQUENCE(0), ALTERNATIVE, DO(0));
    /* sets */
    RUNS(LAST(1, 0, 0), FIRST(0, 1, 0), STANDS(1, 0, 0));
    PUT(SEQUENCE(1), ALTERNATIVE, DO(1));
    /* clears: no touch on the first side */
    RUNS(LAST(0, 1, 0), FIRST(0, 0, 1), STANDS(0, 1, 0));
    PUT(SEQUENCE(2), ALTERNATIVE, DO(2));
    /* needs: no touch on the last side */
    RUNS(LAST(0, 0, 1), FIRST(1, 0, 0), STANDS(1, 0, 0));
    PUT(SEQUENCE(3), ALTERNATIVE, DO(3));
    /* needs and sets: it needs on the first side */
    RUNS(LAST(1, 0, 0), FIRST(1, 0, 0), STANDS(1, 0, 0));
    PUT(SEQUENCE(4), ALTERNATIVE, DO(4));
    /* sets, as step 0 does */
    RUNS(LAST(1, 0, 0), FIRST(0, 1, 0), STANDS(1, 0, 0));
    PUT(SEQUENCE(5), ALTERNATIVE, DO(5));
    /* needs and clears */
    RUNS(LAST(0, 1, 0), FIRST(1, 0, 0), STANDS(0, 1, 0));
    PUT(SEQUENCE(6), ALTERNATIVE, DO(6));
    /* needs and sets, as step 3 does */
    RUNS(LAST(1, 0, 0), FIRST(1, 0, 0), STANDS(1, 0, 0));
    judge();

    LIBRARY("a need after a set is not needed, one after a clear is",
            HEAD(1, 4, 9), SET_CLEAR_NEED, STEP(3), NEEDS(0), SETS(0));
    PUT(SEQUENCE(0), ALTERNATIVE, DO(0), DO(2));
    /* the set is first */
    RUNS(LAST(1, 0, 0), FIRST(0, 1, 0), STANDS(1, 0, 0));
    PUT(SEQUENCE(1), ALTERNATIVE, DO(1), DO(2));
    /* document 01's sample: needed, though no run executes. Last cleared. */
    RUNS(LAST(0, 1, 0), FIRST(1, 0, 0), STANDS(1, 0, 0));
    PUT(SEQUENCE(2), ALTERNATIVE, DO(1), DO(0), DO(2));
    /* the set is first, past the clear */
    RUNS(LAST(1, 0, 0), FIRST(0, 1, 0), STANDS(1, 0, 0));
    PUT(SEQUENCE(3), ALTERNATIVE, DO(0), DO(1), DO(2));
    /* the set is first, whatever is cleared after it; last the clear */
    RUNS(LAST(0, 1, 0), FIRST(0, 1, 0), STANDS(1, 0, 0));
    PUT(SEQUENCE(4), ALTERNATIVE, DO(0), DO(2),
        ALTERNATIVE, DO(0), DO(0), DO(2),
        ALTERNATIVE, DO(1), DO(0), DO(2), DO(2));
    /* every alternative mentions the need, and each has a set before it: not
       needed */
    RUNS(LAST(1, 0, 0), FIRST(0, 1, 0), STANDS(1, 0, 0));
    PUT(SEQUENCE(5), ALTERNATIVE, DO(0), DO(2), ALTERNATIVE, DO(2));
    /* set first in alternative 0, needed in alternative 1, which leaves the
       fact untouched on the last side */
    RUNS(LAST(1, 0, 1), FIRST(1, 1, 0), STANDS(1, 0, 0));
    PUT(SEQUENCE(6), ALTERNATIVE, DO(0), DO(3));
    /* the set before step 3 is first */
    RUNS(LAST(1, 0, 0), FIRST(0, 1, 0), STANDS(1, 0, 0));
    PUT(SEQUENCE(7), ALTERNATIVE, DO(3), DO(1));
    /* step 3 needs; last the clear */
    RUNS(LAST(0, 1, 0), FIRST(1, 0, 0), STANDS(0, 1, 0));
    PUT(SEQUENCE(8), ALTERNATIVE, DO(1), DO(3));
    /* step 3 needs, past the clear, and sets last */
    RUNS(LAST(1, 0, 0), FIRST(1, 0, 0), STANDS(1, 0, 0));
    judge();

    LIBRARY("the set and the need in different sequences",
            HEAD(1, 3, 8), SET_CLEAR_NEED);
    PUT(SEQUENCE(0), ALTERNATIVE, DO(0));
    /* sets */
    RUNS(LAST(1, 0, 0), FIRST(0, 1, 0), STANDS(1, 0, 0));
    PUT(SEQUENCE(1), ALTERNATIVE, DO(2));
    /* needs */
    RUNS(LAST(0, 0, 1), FIRST(1, 0, 0), STANDS(1, 0, 0));
    PUT(SEQUENCE(2), ALTERNATIVE, CALL(0), CALL(1));
    /* the set is first */
    RUNS(LAST(1, 0, 0), FIRST(0, 1, 0), STANDS(1, 0, 0));
    PUT(SEQUENCE(3), ALTERNATIVE, CALL(1), CALL(0));
    /* the need is first */
    RUNS(LAST(1, 0, 0), FIRST(1, 0, 0), STANDS(1, 0, 0));
    PUT(SEQUENCE(4), ALTERNATIVE, DO(1), CALL(1));
    /* needed past a clear */
    RUNS(LAST(0, 1, 0), FIRST(1, 0, 0), STANDS(1, 0, 0));
    PUT(SEQUENCE(5), ALTERNATIVE, CALL(0), DO(1), CALL(1));
    /* set, cleared, needed: first the set, last the clear */
    RUNS(LAST(0, 1, 0), FIRST(0, 1, 0), STANDS(1, 0, 0));
    PUT(SEQUENCE(6), ALTERNATIVE, CALL(2), CALL(1));
    /* set, needed, needed: first the set */
    RUNS(LAST(1, 0, 0), FIRST(0, 1, 0), STANDS(1, 0, 0));
    PUT(SEQUENCE(7), ALTERNATIVE, CALL(1), CALL(2));
    /* needed, set, needed: first the need */
    RUNS(LAST(1, 0, 0), FIRST(1, 0, 0), STANDS(1, 0, 0));
    judge();

    LIBRARY("one step sets, the others clear",
            HEAD(1, 3, 5), STEP(0), SETS(0), STEP(1), CLEARS(0),
            STEP(2), NEEDS(0), CLEARS(0));
    PUT(SEQUENCE(0), ALTERNATIVE, DO(0), DO(1));
    /* last the clear of step 1; first the set */
    RUNS(LAST(0, 1, 0), FIRST(0, 1, 0), STANDS(0, 1, 0));
    PUT(SEQUENCE(1), ALTERNATIVE, DO(1), DO(0));
    /* last step 0, which sets; first the set, past the clear */
    RUNS(LAST(1, 0, 0), FIRST(0, 1, 0), STANDS(1, 0, 0));
    PUT(SEQUENCE(2), ALTERNATIVE, DO(2), DO(0));
    /* last step 0, which sets; first the need */
    RUNS(LAST(1, 0, 0), FIRST(1, 0, 0), STANDS(1, 0, 0));
    PUT(SEQUENCE(3), ALTERNATIVE, DO(0), DO(2));
    /* last the clear; first the set */
    RUNS(LAST(0, 1, 0), FIRST(0, 1, 0), STANDS(0, 1, 0));
    PUT(SEQUENCE(4), ALTERNATIVE, DO(0), ALTERNATIVE, DO(1));
    /* <step 0> sets on both sides, <step 1> clears and leaves the first side
       untouched */
    RUNS(LAST(1, 1, 0), FIRST(0, 1, 1), STANDS(1, 1, 0));
    judge();

    LIBRARY("two facts crosswise",
            HEAD(2, 2, 4), STEP(0), NEEDS(1), SETS(0),
            STEP(1), NEEDS(0), SETS(1));
    PUT(SEQUENCE(0), ALTERNATIVE, DO(0), DO(1));
    /* first, fact 0 is set and fact 1 needed, both by step 0 */
    RUNS(LAST(3, 0, 0), FIRST(2, 1, 0), STANDS(3, 0, 0));
    PUT(SEQUENCE(1), ALTERNATIVE, DO(1), DO(0));
    /* the other way round */
    RUNS(LAST(3, 0, 0), FIRST(1, 2, 0), STANDS(3, 0, 0));
    PUT(SEQUENCE(2), ALTERNATIVE, CALL(0), ALTERNATIVE, CALL(1));
    /* either */
    RUNS(LAST(3, 0, 0), FIRST(3, 3, 0), STANDS(3, 0, 0));
    PUT(SEQUENCE(3), ALTERNATIVE, CALL(0), CALL(1));
    /* the first step is step 0 */
    RUNS(LAST(3, 0, 0), FIRST(2, 1, 0), STANDS(3, 0, 0));
    judge();
}
