/* Untouched is not empty: a run may have steps and never touch the fact. */
static void untouched(void)
{
    LIBRARY("runs of one step, and the empty run",
            HEAD(2, 4, 5), SET_NONE_NEED_CLEAR);
    PUT(SEQUENCE(0), ALTERNATIVE, DO(1));
    /* <step 1> has a step, so it is not empty, and touches nothing */
    RUNS(LAST(0, 0, 3), FIRST(0, 0, 3), STANDS(0, 0, 3));
    PUT(SEQUENCE(1), ALTERNATIVE, DO(0));
    /* fact 0 is set, fact 1 untouched, and the run is not empty */
    RUNS(LAST(1, 0, 2), FIRST(0, 1, 2), STANDS(1, 0, 2));
    PUT(SEQUENCE(2), ALTERNATIVE, DO(2));
    /* a need is no touch on the last side */
    RUNS(LAST(0, 0, 3), FIRST(1, 0, 2), STANDS(1, 0, 2));
    PUT(SEQUENCE(3), ALTERNATIVE, DO(3));
    /* a clear is no touch on the first side */
    RUNS(LAST(0, 1, 2), FIRST(0, 0, 3), STANDS(0, 1, 2));
    PUT(SEQUENCE(4), ALTERNATIVE);
    /* the empty run touches nothing */
    RUNS_AND_EMPTY(LAST(0, 0, 3), FIRST(0, 0, 3), STANDS(0, 0, 3));
    judge();

    /* sequence 0 is never empty and never touches a fact: what stands before
       and behind it is seen */
    LIBRARY("a sequence with steps that touches nothing",
            HEAD(2, 4, 6), SET_NONE_NEED_CLEAR);
    PUT(SEQUENCE(0), ALTERNATIVE, DO(1), DO(1));
    /* two steps without facts */
    RUNS(LAST(0, 0, 3), FIRST(0, 0, 3), STANDS(0, 0, 3));
    PUT(SEQUENCE(1), ALTERNATIVE, DO(0), CALL(0));
    /* the set stands before it, and is the last touch and the first */
    RUNS(LAST(1, 0, 2), FIRST(0, 1, 2), STANDS(1, 0, 2));
    PUT(SEQUENCE(2), ALTERNATIVE, CALL(0), DO(2));
    /* the need behind it is the first touch */
    RUNS(LAST(0, 0, 3), FIRST(1, 0, 2), STANDS(1, 0, 2));
    PUT(SEQUENCE(3), ALTERNATIVE, DO(3), CALL(0), DO(0), CALL(0));
    /* last the set, seen through sequence 0; first the set too, as a clear is
       no touch there */
    RUNS(LAST(1, 0, 2), FIRST(0, 1, 2), STANDS(1, 0, 2));
    PUT(SEQUENCE(4), ALTERNATIVE, DO(2), CALL(0), DO(3));
    /* last cleared, first needed */
    RUNS(LAST(0, 1, 2), FIRST(1, 0, 2), STANDS(0, 1, 2));
    PUT(SEQUENCE(5), ALTERNATIVE, DO(3), CALL(0), DO(2));
    /* the same in the other order: the need is no touch on the last side, the
       clear none on the first */
    RUNS(LAST(0, 1, 2), FIRST(1, 0, 2), STANDS(1, 0, 2));
    judge();

    /* an alternative has an empty run only where each of its entries has one */
    LIBRARY("an empty run of every entry",
            HEAD(2, 4, 7), SET_NONE_NEED_CLEAR);
    PUT(SEQUENCE(0), ALTERNATIVE, ALTERNATIVE, DO(0));
    /* runs <> and <step 0> */
    RUNS_AND_EMPTY(LAST(1, 0, 3), FIRST(0, 1, 3), STANDS(1, 0, 3));
    PUT(SEQUENCE(1), ALTERNATIVE, DO(1));
    /* run <step 1> */
    RUNS(LAST(0, 0, 3), FIRST(0, 0, 3), STANDS(0, 0, 3));
    PUT(SEQUENCE(2), ALTERNATIVE, CALL(0), CALL(0));
    /* both empty, or one of them sets */
    RUNS_AND_EMPTY(LAST(1, 0, 3), FIRST(0, 1, 3), STANDS(1, 0, 3));
    PUT(SEQUENCE(3), ALTERNATIVE, CALL(0), CALL(1));
    /* sequence 1 always has a step: no empty run, though both facts can stay
       untouched */
    RUNS(LAST(1, 0, 3), FIRST(0, 1, 3), STANDS(1, 0, 3));
    PUT(SEQUENCE(4), ALTERNATIVE, CALL(1), CALL(0));
    /* likewise the other way round */
    RUNS(LAST(1, 0, 3), FIRST(0, 1, 3), STANDS(1, 0, 3));
    PUT(SEQUENCE(5), ALTERNATIVE, CALL(2), CALL(0), CALL(2));
    /* all five calls can be empty */
    RUNS_AND_EMPTY(LAST(1, 0, 3), FIRST(0, 1, 3), STANDS(1, 0, 3));
    PUT(SEQUENCE(6), ALTERNATIVE, CALL(0), DO(1), ALTERNATIVE, CALL(0));
    /* alternative 0 is never empty, alternative 1 can be */
    RUNS_AND_EMPTY(LAST(1, 0, 3), FIRST(0, 1, 3), STANDS(1, 0, 3));
    judge();

    LIBRARY("untouched only where a whole run leaves the fact alone",
            HEAD(2, 4, 3), SET_NONE_NEED_CLEAR);
    PUT(SEQUENCE(0), ALTERNATIVE, DO(0), ALTERNATIVE, DO(3));
    /* each run touches fact 0 on the last side; on the first side <step 3> does
       not */
    RUNS(LAST(1, 1, 2), FIRST(0, 1, 3), STANDS(1, 1, 2));
    PUT(SEQUENCE(1), ALTERNATIVE, DO(0), ALTERNATIVE, DO(2));
    /* <step 2> leaves fact 0 untouched on the last side; on the first side each
       run touches it */
    RUNS(LAST(1, 0, 3), FIRST(1, 1, 2), STANDS(1, 0, 2));
    PUT(SEQUENCE(2), ALTERNATIVE, DO(0), DO(1), ALTERNATIVE, DO(1), DO(0));
    /* each alternative has a step that touches nothing, and still each run sets
       fact 0 */
    RUNS(LAST(1, 0, 2), FIRST(0, 1, 2), STANDS(1, 0, 2));
    judge();

    /* without and with the empty run */
    LIBRARY("calls of itself that touch nothing",
            HEAD(2, 4, 4), SET_NONE_NEED_CLEAR);
    PUT(SEQUENCE(0), ALTERNATIVE, CALL(0), DO(1), ALTERNATIVE, DO(1));
    /* runs of one step 1 or more */
    RUNS(LAST(0, 0, 3), FIRST(0, 0, 3), STANDS(0, 0, 3));
    PUT(SEQUENCE(1), ALTERNATIVE, CALL(1), DO(1), ALTERNATIVE);
    /* any number of steps 1, none among them */
    RUNS_AND_EMPTY(LAST(0, 0, 3), FIRST(0, 0, 3), STANDS(0, 0, 3));
    PUT(SEQUENCE(2), ALTERNATIVE, CALL(0), DO(0), CALL(0));
    /* steps 1 around one step 0 */
    RUNS(LAST(1, 0, 2), FIRST(0, 1, 2), STANDS(1, 0, 2));
    PUT(SEQUENCE(3), ALTERNATIVE, CALL(1), CALL(0));
    /* at least one step 1: not empty */
    RUNS(LAST(0, 0, 3), FIRST(0, 0, 3), STANDS(0, 0, 3));
    judge();
}
