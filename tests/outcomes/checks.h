/*
 * Checks: on the first side one needs its fact, on the last side it touches
 * nothing, its fact stands after it, and a run of checks alone is empty.
 */
static void checks(void)
{
    uint32_t f;

    LIBRARY("a check alone, and beside steps",
            HEAD(1, 5, 11), SET_CLEAR_NEED, STEP(3), STEP(4), NEEDS(0),
            CLEARS(0));
    PUT(SEQUENCE(0), ALTERNATIVE, CHECK(0));
    /* the run has no step: it is empty, and needs the fact */
    RUNS_AND_EMPTY(LAST(0, 0, 1), FIRST(1, 0, 0), STANDS(1, 0, 0));
    PUT(SEQUENCE(1), ALTERNATIVE, CHECK(0), ALTERNATIVE);
    /* two empty runs, and one does not name the fact */
    RUNS_AND_EMPTY(LAST(0, 0, 1), FIRST(1, 0, 1), STANDS(1, 0, 1));
    PUT(SEQUENCE(2), ALTERNATIVE, DO(0), ALTERNATIVE, CHECK(0));
    /* set, or checked where the work is done: it stands after both */
    RUNS_AND_EMPTY(LAST(1, 0, 1), FIRST(1, 1, 0), STANDS(1, 0, 0));
    PUT(SEQUENCE(3), ALTERNATIVE, DO(1), ALTERNATIVE, CHECK(0));
    /* cleared, or checked */
    RUNS_AND_EMPTY(LAST(0, 1, 1), FIRST(1, 0, 1), STANDS(1, 1, 0));
    PUT(SEQUENCE(4), ALTERNATIVE, CHECK(0), DO(1));
    /* the check is first, the clear is last */
    RUNS(LAST(0, 1, 0), FIRST(1, 0, 0), STANDS(0, 1, 0));
    PUT(SEQUENCE(5), ALTERNATIVE, DO(1), CHECK(0));
    /* past the clear the check is first; it names the fact last, and the clear
       is the last touch */
    RUNS(LAST(0, 1, 0), FIRST(1, 0, 0), STANDS(1, 0, 0));
    PUT(SEQUENCE(6), ALTERNATIVE, DO(0), DO(1), CHECK(0));
    /* likewise, and the set is first */
    RUNS(LAST(0, 1, 0), FIRST(0, 1, 0), STANDS(1, 0, 0));
    PUT(SEQUENCE(7), ALTERNATIVE, DO(3), CHECK(0), DO(3));
    /* it has steps, so it is not empty, and they touch nothing */
    RUNS(LAST(0, 0, 1), FIRST(1, 0, 0), STANDS(1, 0, 0));
    PUT(SEQUENCE(8), ALTERNATIVE, CHECK(0), DO(0), DO(1), DO(2));
    /* first the check, last the clear, and the need names the fact after it */
    RUNS(LAST(0, 1, 0), FIRST(1, 0, 0), STANDS(1, 0, 0));
    PUT(SEQUENCE(9), ALTERNATIVE, DO(4), CHECK(0));
    /* needed and cleared, and checked after it */
    RUNS(LAST(0, 1, 0), FIRST(1, 0, 0), STANDS(1, 0, 0));
    PUT(SEQUENCE(10), ALTERNATIVE, CHECK(0), DO(4));
    /* a step that needs and clears counts as clearing */
    RUNS(LAST(0, 1, 0), FIRST(1, 0, 0), STANDS(0, 1, 0));
    judge();

    /* step 0 sets fact 0, step 1 clears fact 1 */
    LIBRARY("checks of several facts",
            HEAD(3, 2, 5), STEP(0), SETS(0), STEP(1), CLEARS(1));
    PUT(SEQUENCE(0), ALTERNATIVE, CHECK(0), CHECK(2));
    /* facts 0 and 2 are needed and stand, fact 1 is not named */
    RUNS_AND_EMPTY(LAST(0, 0, 7), FIRST(5, 0, 2), STANDS(5, 0, 2));
    PUT(SEQUENCE(1), ALTERNATIVE, DO(0), CHECK(1), DO(1));
    /* fact 0 set; fact 1 checked, then cleared; fact 2 not named */
    RUNS(LAST(1, 2, 4), FIRST(2, 1, 4), STANDS(1, 2, 4));
    PUT(SEQUENCE(2), ALTERNATIVE, CHECK(2), DO(1), CHECK(1));
    /* fact 2 checked; fact 1 cleared, then checked; fact 0 not named */
    RUNS(LAST(0, 2, 5), FIRST(6, 0, 1), STANDS(6, 0, 1));
    PUT(SEQUENCE(3), ALTERNATIVE, CALL(0), ALTERNATIVE, CALL(2));
    /* the runs of both */
    RUNS_AND_EMPTY(LAST(0, 2, 7), FIRST(7, 0, 3), STANDS(7, 0, 3));
    PUT(SEQUENCE(4), ALTERNATIVE, CALL(0), CALL(1));
    /* <check 0, check 2, 0, check 1, 1>: each is checked first; then fact 0 is
       set and fact 1 cleared */
    RUNS(LAST(1, 2, 4), FIRST(7, 0, 0), STANDS(5, 2, 0));
    judge();

    /* step 0 sets fact 0 */
    LIBRARY("empty runs of checks, through calls",
            HEAD(2, 1, 6), STEP(0), SETS(0));
    PUT(SEQUENCE(0), ALTERNATIVE, CHECK(0));
    /* <check 0> */
    RUNS_AND_EMPTY(LAST(0, 0, 3), FIRST(1, 0, 2), STANDS(1, 0, 2));
    PUT(SEQUENCE(1), ALTERNATIVE, CALL(0), CALL(0));
    /* <check 0, check 0>: empty too */
    RUNS_AND_EMPTY(LAST(0, 0, 3), FIRST(1, 0, 2), STANDS(1, 0, 2));
    PUT(SEQUENCE(2), ALTERNATIVE, CALL(0), DO(0));
    /* <check 0, 0>: not empty; first needed, last set */
    RUNS(LAST(1, 0, 2), FIRST(1, 0, 2), STANDS(1, 0, 2));
    PUT(SEQUENCE(3), ALTERNATIVE, CALL(0), CHECK(1), ALTERNATIVE, DO(0));
    /* <check 0, check 1> is empty and needs both, <0> sets fact 0 */
    RUNS_AND_EMPTY(LAST(1, 0, 3), FIRST(3, 1, 2), STANDS(3, 0, 2));
    PUT(SEQUENCE(4), ALTERNATIVE, CHECK(1), CALL(2));
    /* <check 1, check 0, 0> */
    RUNS(LAST(1, 0, 2), FIRST(3, 0, 0), STANDS(3, 0, 0));
    PUT(SEQUENCE(5), ALTERNATIVE, ALTERNATIVE, CALL(3), CALL(3));
    /* <> leaves both. Of two runs of 3 both are the checks, or one is <0>, or
       both: <0, check 0, check 1> sets fact 0 first and needs fact 1. */
    RUNS_AND_EMPTY(LAST(1, 0, 3), FIRST(3, 1, 3), STANDS(3, 0, 3));
    judge();

    LIBRARY("checks and calls of itself", HEAD(1, 3, 7), SET_CLEAR_NEED);
    PUT(SEQUENCE(0), ALTERNATIVE, CALL(0), CHECK(0),
        ALTERNATIVE, CHECK(0), CHECK(0));
    /* two checks and more */
    RUNS_AND_EMPTY(LAST(0, 0, 1), FIRST(1, 0, 0), STANDS(1, 0, 0));
    PUT(SEQUENCE(1), ALTERNATIVE, ALTERNATIVE, CHECK(0), CALL(1));
    /* any number of checks, none among them */
    RUNS_AND_EMPTY(LAST(0, 0, 1), FIRST(1, 0, 1), STANDS(1, 0, 1));
    PUT(SEQUENCE(2), ALTERNATIVE, CHECK(0), CALL(2));
    /* a check does not end it */
    no_run();
    PUT(SEQUENCE(3), ALTERNATIVE, CHECK(0), CALL(3), DO(1), ALTERNATIVE, DO(0));
    /* <0>, <check, 0, 1>, <check, check, 0, 1, 1>, .. */
    RUNS(LAST(1, 1, 0), FIRST(1, 1, 0), STANDS(1, 1, 0));
    PUT(SEQUENCE(4), ALTERNATIVE, CALL(4), DO(1), CHECK(0),
        ALTERNATIVE, CHECK(0));
    /* <check>, <check, 1, check>, ..: the check is last, and the last touch is
       a clear where there is one */
    RUNS_AND_EMPTY(LAST(0, 1, 1), FIRST(1, 0, 0), STANDS(1, 0, 0));
    PUT(SEQUENCE(5), ALTERNATIVE, CALL(2), CHECK(0), ALTERNATIVE, DO(1));
    /* only <1> is left */
    RUNS(LAST(0, 1, 0), FIRST(0, 0, 1), STANDS(0, 1, 0));
    PUT(SEQUENCE(6), ALTERNATIVE, CALL(5), CALL(4));
    /* a clear, then a run of 4 */
    RUNS(LAST(0, 1, 0), FIRST(1, 0, 0), STANDS(1, 0, 0));
    judge();

    /* sequence 0 always checks, sequence 4 checks or is empty */
    LIBRARY("past a check", HEAD(1, 3, 9), SET_CLEAR_NEED);
    PUT(SEQUENCE(0), ALTERNATIVE, CHECK(0));
    /* <check> */
    RUNS_AND_EMPTY(LAST(0, 0, 1), FIRST(1, 0, 0), STANDS(1, 0, 0));
    PUT(SEQUENCE(1), ALTERNATIVE, DO(0), CALL(0));
    /* on the last side the set is seen past the check; it is first too */
    RUNS(LAST(1, 0, 0), FIRST(0, 1, 0), STANDS(1, 0, 0));
    PUT(SEQUENCE(2), ALTERNATIVE, CALL(0), DO(0));
    /* on the first side the set is not seen past the check */
    RUNS(LAST(1, 0, 0), FIRST(1, 0, 0), STANDS(1, 0, 0));
    PUT(SEQUENCE(3), ALTERNATIVE, DO(1), CALL(0), DO(1));
    /* past the clear the check is first, and the second clear is last */
    RUNS(LAST(0, 1, 0), FIRST(1, 0, 0), STANDS(0, 1, 0));
    PUT(SEQUENCE(4), ALTERNATIVE, CHECK(0), ALTERNATIVE);
    /* <check> and <> */
    RUNS_AND_EMPTY(LAST(0, 0, 1), FIRST(1, 0, 1), STANDS(1, 0, 1));
    PUT(SEQUENCE(5), ALTERNATIVE, DO(1), CALL(4));
    /* the clear, or the check after it */
    RUNS(LAST(0, 1, 0), FIRST(1, 0, 1), STANDS(1, 1, 0));
    PUT(SEQUENCE(6), ALTERNATIVE, CALL(4), DO(0));
    /* the check before the set, or the set alone */
    RUNS(LAST(1, 0, 0), FIRST(1, 1, 0), STANDS(1, 0, 0));
    PUT(SEQUENCE(7), ALTERNATIVE, CALL(4), CALL(4));
    /* two checks, one or none */
    RUNS_AND_EMPTY(LAST(0, 0, 1), FIRST(1, 0, 1), STANDS(1, 0, 1));
    PUT(SEQUENCE(8), ALTERNATIVE, DO(0), CALL(4), DO(1), CALL(4));
    /* first the set; the clear is the last touch, and a check may follow it */
    RUNS(LAST(0, 1, 0), FIRST(0, 1, 0), STANDS(1, 1, 0));
    judge();

    begin("checks of 64 facts");
    PUT(HEAD(64, 0, 3), SEQUENCE(0), ALTERNATIVE, CHECK(63));
    /* fact 63 alone */
    RUNS_AND_EMPTY(LAST(0, 0, FACTS(64)), FIRST(FACT(63), 0, FACTS(63)),
                   STANDS(FACT(63), 0, FACTS(63)));
    PUT(SEQUENCE(1), ALTERNATIVE);
    for (f = 0; f < 64; f++)
        put(CHECK(f));
    /* every fact in one run */
    RUNS_AND_EMPTY(LAST(0, 0, FACTS(64)), FIRST(FACTS(64), 0, 0),
                   STANDS(FACTS(64), 0, 0));
    put(SEQUENCE(2));
    for (f = 0; f < 64; f++)
        PUT(ALTERNATIVE, CHECK(f));
    /* each fact in a run of its own, and the 63 others leave it */
    RUNS_AND_EMPTY(LAST(0, 0, FACTS(64)), FIRST(FACTS(64), 0, FACTS(64)),
                   STANDS(FACTS(64), 0, FACTS(64)));
    judge();

    LIBRARY("checks of facts 31 and 32 of 33",
            HEAD(33, 1, 2), STEP(0), CLEARS(31), CLEARS(32));
    PUT(SEQUENCE(0), ALTERNATIVE, DO(0), CHECK(32));
    /* both cleared, and fact 32 checked after it */
    RUNS(LAST(0, FACT(31) | FACT(32), FACTS(31)),
         FIRST(FACT(32), 0, FACTS(32)),
         STANDS(FACT(32), FACT(31), FACTS(31)));
    PUT(SEQUENCE(1), ALTERNATIVE, CHECK(31), CHECK(32));
    /* both checked, in an empty run */
    RUNS_AND_EMPTY(LAST(0, 0, FACTS(33)),
                   FIRST(FACT(31) | FACT(32), 0, FACTS(31)),
                   STANDS(FACT(31) | FACT(32), 0, FACTS(31)));
    judge();
}
