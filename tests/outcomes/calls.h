/* Sequences that call themselves, each other, and one twice. */
static void calls(void)
{
    /* Document 01's sample, in both orders, and itself twice */
    LIBRARY("<itself> and <>", HEAD(1, 0, 3));
    PUT(SEQUENCE(0), ALTERNATIVE, CALL(0), ALTERNATIVE);
    /* the empty run alone */
    RUNS_AND_EMPTY(LAST(0, 0, 1), FIRST(0, 0, 1), STANDS(0, 0, 1));
    PUT(SEQUENCE(1), ALTERNATIVE, ALTERNATIVE, CALL(1));
    /* the empty run alone */
    RUNS_AND_EMPTY(LAST(0, 0, 1), FIRST(0, 0, 1), STANDS(0, 0, 1));
    PUT(SEQUENCE(2), ALTERNATIVE, CALL(2), CALL(2), ALTERNATIVE);
    /* the empty run alone */
    RUNS_AND_EMPTY(LAST(0, 0, 1), FIRST(0, 0, 1), STANDS(0, 0, 1));
    judge();

    LIBRARY("a step and a call of itself", HEAD(1, 3, 7), SET_CLEAR_NEED);
    PUT(SEQUENCE(0), ALTERNATIVE, DO(0), CALL(0), ALTERNATIVE);
    /* any number of sets, none among them */
    RUNS_AND_EMPTY(LAST(1, 0, 1), FIRST(0, 1, 1), STANDS(1, 0, 1));
    PUT(SEQUENCE(1), ALTERNATIVE, CALL(1), DO(0), ALTERNATIVE);
    /* the same runs */
    RUNS_AND_EMPTY(LAST(1, 0, 1), FIRST(0, 1, 1), STANDS(1, 0, 1));
    PUT(SEQUENCE(2), ALTERNATIVE, DO(0), CALL(2), DO(1), ALTERNATIVE);
    /* sets, then as many clears: where there are any the last is a clear and
       the first a set */
    RUNS_AND_EMPTY(LAST(0, 1, 1), FIRST(0, 1, 1), STANDS(0, 1, 1));
    PUT(SEQUENCE(3), ALTERNATIVE, CALL(3), DO(1), ALTERNATIVE, DO(0));
    /* a set, then any number of clears */
    RUNS(LAST(1, 1, 0), FIRST(0, 1, 0), STANDS(1, 1, 0));
    PUT(SEQUENCE(4), ALTERNATIVE, DO(1), CALL(4), ALTERNATIVE, DO(0));
    /* any number of clears, then a set */
    RUNS(LAST(1, 0, 0), FIRST(0, 1, 0), STANDS(1, 0, 0));
    PUT(SEQUENCE(5), ALTERNATIVE, DO(2), CALL(5), ALTERNATIVE, DO(0));
    /* any number of needs, then a set: needed first where there are any */
    RUNS(LAST(1, 0, 0), FIRST(1, 1, 0), STANDS(1, 0, 0));
    PUT(SEQUENCE(6), ALTERNATIVE, CALL(6), DO(2), ALTERNATIVE, DO(0));
    /* a set, then any number of needs: never needed first */
    RUNS(LAST(1, 0, 0), FIRST(0, 1, 0), STANDS(1, 0, 0));
    judge();

    LIBRARY("itself twice in one alternative", HEAD(1, 3, 4), SET_CLEAR_NEED);
    PUT(SEQUENCE(0), ALTERNATIVE, CALL(0), CALL(0), ALTERNATIVE, DO(0));
    /* sets, one or more */
    RUNS(LAST(1, 0, 0), FIRST(0, 1, 0), STANDS(1, 0, 0));
    PUT(SEQUENCE(1), ALTERNATIVE, CALL(1), CALL(1), ALTERNATIVE, DO(0),
        ALTERNATIVE, DO(1));
    /* any steps 0 and 1, one or more; clears alone leave the first side
       untouched */
    RUNS(LAST(1, 1, 0), FIRST(0, 1, 1), STANDS(1, 1, 0));
    PUT(SEQUENCE(2), ALTERNATIVE, DO(0), CALL(2), CALL(2), ALTERNATIVE, DO(2));
    /* <step 2>, or a run that begins with a set: set last, as only needs follow
       the last set */
    RUNS(LAST(1, 0, 1), FIRST(1, 1, 0), STANDS(1, 0, 0));
    PUT(SEQUENCE(3), ALTERNATIVE, CALL(3), DO(2), CALL(3), ALTERNATIVE);
    /* any number of needs, none among them */
    RUNS_AND_EMPTY(LAST(0, 0, 1), FIRST(1, 0, 1), STANDS(1, 0, 1));
    judge();

    LIBRARY("two that call each other", HEAD(1, 3, 6), SET_CLEAR_NEED);
    PUT(SEQUENCE(0), ALTERNATIVE, DO(0), CALL(1));
    /* <0>, <0, 1, 0>, ..: begins and ends with the set */
    RUNS(LAST(1, 0, 0), FIRST(0, 1, 0), STANDS(1, 0, 0));
    PUT(SEQUENCE(1), ALTERNATIVE, DO(1), CALL(0), ALTERNATIVE);
    /* <>, <1, 0>, <1, 0, 1, 0>, ..: ends with the set, which is first past the
       clear */
    RUNS_AND_EMPTY(LAST(1, 0, 1), FIRST(0, 1, 1), STANDS(1, 0, 1));
    PUT(SEQUENCE(2), ALTERNATIVE, CALL(3), DO(0), ALTERNATIVE, DO(2));
    /* <2>, <2, 1, 0>, ..: needed first; last untouched or set */
    RUNS(LAST(1, 0, 1), FIRST(1, 0, 0), STANDS(1, 0, 0));
    PUT(SEQUENCE(3), ALTERNATIVE, CALL(2), DO(1));
    /* a run of sequence 2, then the clear */
    RUNS(LAST(0, 1, 0), FIRST(1, 0, 0), STANDS(0, 1, 0));
    PUT(SEQUENCE(4), ALTERNATIVE, CALL(5), ALTERNATIVE, DO(0));
    /* <0> and, by sequence 5, <1> */
    RUNS(LAST(1, 1, 0), FIRST(0, 1, 1), STANDS(1, 1, 0));
    PUT(SEQUENCE(5), ALTERNATIVE, CALL(4), ALTERNATIVE, DO(1));
    /* <1> and, by sequence 4, <0> */
    RUNS(LAST(1, 1, 0), FIRST(0, 1, 1), STANDS(1, 1, 0));
    judge();

    /* 0, 1, 2 with one way out; 3, 4, 5 with a step after each call */
    LIBRARY("rings of three", HEAD(1, 3, 6), SET_CLEAR_NEED);
    PUT(SEQUENCE(0), ALTERNATIVE, CALL(1));
    /* the way out of sequence 2, <step 0> */
    RUNS(LAST(1, 0, 0), FIRST(0, 1, 0), STANDS(1, 0, 0));
    PUT(SEQUENCE(1), ALTERNATIVE, CALL(2));
    /* likewise */
    RUNS(LAST(1, 0, 0), FIRST(0, 1, 0), STANDS(1, 0, 0));
    PUT(SEQUENCE(2), ALTERNATIVE, CALL(0), ALTERNATIVE, DO(0));
    /* likewise */
    RUNS(LAST(1, 0, 0), FIRST(0, 1, 0), STANDS(1, 0, 0));
    PUT(SEQUENCE(3), ALTERNATIVE, CALL(4), DO(1));
    /* a run of 4, then the clear; a run of 4 begins with a need */
    RUNS(LAST(0, 1, 0), FIRST(1, 0, 0), STANDS(0, 1, 0));
    PUT(SEQUENCE(4), ALTERNATIVE, CALL(5), DO(2));
    /* a run of 5, then the need: <2>, <2, 1, 0, 2>, .. */
    RUNS(LAST(1, 0, 1), FIRST(1, 0, 0), STANDS(1, 0, 0));
    PUT(SEQUENCE(5), ALTERNATIVE, CALL(3), DO(0), ALTERNATIVE);
    /* <>, <2, 1, 0>, <2, 1, 0, 2, 1, 0>, .. */
    RUNS_AND_EMPTY(LAST(1, 0, 1), FIRST(1, 0, 1), STANDS(1, 0, 1));
    judge();

    /* each has a way out of its own: every run is a run of all */
    LIBRARY("a ring of four", HEAD(1, 3, 4), SET_CLEAR_NEED);
    PUT(SEQUENCE(0), ALTERNATIVE, CALL(1), ALTERNATIVE, DO(0));
    /* <0>, <1>, <2> and <>: each outcome on both sides */
    RUNS_AND_EMPTY(LAST(1, 1, 1), FIRST(1, 1, 1), STANDS(1, 1, 1));
    PUT(SEQUENCE(1), ALTERNATIVE, CALL(2), ALTERNATIVE, DO(1));
    /* the same runs */
    RUNS_AND_EMPTY(LAST(1, 1, 1), FIRST(1, 1, 1), STANDS(1, 1, 1));
    PUT(SEQUENCE(2), ALTERNATIVE, CALL(3), ALTERNATIVE, DO(2));
    /* the same runs */
    RUNS_AND_EMPTY(LAST(1, 1, 1), FIRST(1, 1, 1), STANDS(1, 1, 1));
    PUT(SEQUENCE(3), ALTERNATIVE, CALL(0), ALTERNATIVE);
    /* the same runs */
    RUNS_AND_EMPTY(LAST(1, 1, 1), FIRST(1, 1, 1), STANDS(1, 1, 1));
    judge();

    LIBRARY("calls of later and of earlier sequences",
            HEAD(1, 3, 4), SET_CLEAR_NEED);
    PUT(SEQUENCE(0), ALTERNATIVE, CALL(2), CALL(1));
    /* sequence 1 is last and always touches. First: set or needed by sequence
       2, or where that is untouched, as by <1, 1>, set or untouched by sequence
       1. */
    RUNS(LAST(1, 1, 0), FIRST(1, 1, 1), STANDS(1, 1, 0));
    PUT(SEQUENCE(1), ALTERNATIVE, DO(0), ALTERNATIVE, DO(1));
    /* <0> and <1> */
    RUNS(LAST(1, 1, 0), FIRST(0, 1, 1), STANDS(1, 1, 0));
    PUT(SEQUENCE(2), ALTERNATIVE, CALL(1), CALL(1), ALTERNATIVE, CALL(3));
    /* <0, 0>, <0, 1>, <1, 0>, <1, 1>, and <>, <2> of sequence 3 */
    RUNS_AND_EMPTY(LAST(1, 1, 1), FIRST(1, 1, 1), STANDS(1, 1, 1));
    PUT(SEQUENCE(3), ALTERNATIVE, ALTERNATIVE, DO(2));
    /* <> and <2> */
    RUNS_AND_EMPTY(LAST(0, 0, 1), FIRST(1, 0, 1), STANDS(1, 0, 1));
    judge();

    LIBRARY("one sequence called twice: each call has a run of its own",
            HEAD(1, 3, 5), SET_CLEAR_NEED);
    PUT(SEQUENCE(0), ALTERNATIVE, DO(0), ALTERNATIVE);
    /* <0> and <> */
    RUNS_AND_EMPTY(LAST(1, 0, 1), FIRST(0, 1, 1), STANDS(1, 0, 1));
    PUT(SEQUENCE(1), ALTERNATIVE, CALL(0), CALL(0));
    /* <>, <0>, <0, 0> */
    RUNS_AND_EMPTY(LAST(1, 0, 1), FIRST(0, 1, 1), STANDS(1, 0, 1));
    PUT(SEQUENCE(2), ALTERNATIVE, DO(0), ALTERNATIVE, DO(1));
    /* <0> and <1> */
    RUNS(LAST(1, 1, 0), FIRST(0, 1, 1), STANDS(1, 1, 0));
    PUT(SEQUENCE(3), ALTERNATIVE, CALL(2), CALL(2));
    /* <0, 0>, <0, 1>, <1, 0>, <1, 1>: <0, 1> is first set and last cleared, <1,
       1> untouched on the first side */
    RUNS(LAST(1, 1, 0), FIRST(0, 1, 1), STANDS(1, 1, 0));
    PUT(SEQUENCE(4), ALTERNATIVE, CALL(2), DO(2), CALL(2));
    /* the need in between is first after a clear: set or needed, never
       untouched */
    RUNS(LAST(1, 1, 0), FIRST(1, 1, 0), STANDS(1, 1, 0));
    judge();

    LIBRARY("many alternatives",
            HEAD(8, 8, 4), STEP(0), SETS(0), STEP(1), SETS(1), STEP(2), SETS(2),
            STEP(3), SETS(3), STEP(4), SETS(4), STEP(5), SETS(5),
            STEP(6), SETS(6), STEP(7), SETS(7));
    PUT(SEQUENCE(0), ALTERNATIVE, DO(0), ALTERNATIVE, DO(1), ALTERNATIVE, DO(2),
        ALTERNATIVE, DO(3), ALTERNATIVE, DO(4), ALTERNATIVE, DO(5),
        ALTERNATIVE, DO(6), ALTERNATIVE, DO(7));
    /* each fact is set by one run and untouched by the seven others */
    RUNS(LAST(0xff, 0, 0xff), FIRST(0, 0xff, 0xff), STANDS(0xff, 0, 0xff));
    PUT(SEQUENCE(1),
        ALTERNATIVE, DO(0), DO(1), DO(2), DO(3), DO(4), DO(5), DO(6), DO(7));
    /* the one run sets all facts */
    RUNS(LAST(0xff, 0, 0), FIRST(0, 0xff, 0), STANDS(0xff, 0, 0));
    PUT(SEQUENCE(2), ALTERNATIVE, DO(0), ALTERNATIVE, DO(1), ALTERNATIVE,
        ALTERNATIVE, DO(2), ALTERNATIVE, DO(7));
    /* four facts can be set, each can stay untouched */
    RUNS_AND_EMPTY(LAST(0x87, 0, 0xff), FIRST(0, 0x87, 0xff),
                   STANDS(0x87, 0, 0xff));
    PUT(SEQUENCE(3), ALTERNATIVE, CALL(0), CALL(0));
    /* two steps: each fact can be set, and each can stay untouched */
    RUNS(LAST(0xff, 0, 0xff), FIRST(0, 0xff, 0xff), STANDS(0xff, 0, 0xff));
    judge();

    LIBRARY("the empty alternative first, in the middle, last, and twice",
            HEAD(1, 3, 4), SET_CLEAR_NEED);
    PUT(SEQUENCE(0), ALTERNATIVE, ALTERNATIVE, DO(0),
        ALTERNATIVE, DO(0), DO(2));
    /* <>, <0>, <0, 2> */
    RUNS_AND_EMPTY(LAST(1, 0, 1), FIRST(0, 1, 1), STANDS(1, 0, 1));
    PUT(SEQUENCE(1), ALTERNATIVE, DO(0), ALTERNATIVE, ALTERNATIVE, DO(1));
    /* <0>, <>, <1> */
    RUNS_AND_EMPTY(LAST(1, 1, 1), FIRST(0, 1, 1), STANDS(1, 1, 1));
    PUT(SEQUENCE(2), ALTERNATIVE, DO(1), ALTERNATIVE, DO(2), DO(1),
        ALTERNATIVE);
    /* <1>, <2, 1>, <> */
    RUNS_AND_EMPTY(LAST(0, 1, 1), FIRST(1, 0, 1), STANDS(0, 1, 1));
    PUT(SEQUENCE(3), ALTERNATIVE, ALTERNATIVE);
    /* the empty run */
    RUNS_AND_EMPTY(LAST(0, 0, 1), FIRST(0, 0, 1), STANDS(0, 0, 1));
    judge();
}
