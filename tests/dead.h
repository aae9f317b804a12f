/*
 * Libraries about dead alternatives, which have no run since an entry names a
 * sequence that has none. Document 02, request 3: "each walk that asks whether
 * an alternative gives a run shall end at the first entry, in its order, that
 * names a sequence not found to have one by then [..] Cards and chains must
 * come out as before". Step 0 sets fact 0, step 1 clears it. C11 and C++17.
 */
#ifndef DULIMOVEN_TESTS_DEAD_H
#define DULIMOVEN_TESTS_DEAD_H

#include "harness.h"

/*
 * Sequence 0 is <1, set>, <set, 1>, <set, clear, 1, and set five times>,
 * <clear>: dead at the first entry, at the last, in the middle, and alive.
 * Sequence 1, <1, set>, is endless. 2 is <0, 1>, dead at its last entry, before
 * the next sequence. 3 is <1, 1, set>, <>. 4 is <3, 0>, <2, set>, the second
 * dead at the end of the part.
 *
 * The sum word: taken 44 times for the head, 43 times for the next word and so
 * on to once for the last, the payloads after the head's add up to 387, and the
 * kinds to 6782: 44 * 0x280401 + 387 + 1024 * 6782 = 0x74aa9af.
 */
static const uint32_t dead_places[] = {
    HEAD(1, 2, 5), STEP(0), SETS(0), STEP(1), CLEARS(0),
    SEQUENCE(0), ALTERNATIVE, CALL(1), DO(0), ALTERNATIVE, DO(0), CALL(1),
        ALTERNATIVE, DO(0), DO(1), CALL(1), DO(0), DO(0), DO(0), DO(0), DO(0),
        ALTERNATIVE, DO(1),
    SEQUENCE(1), ALTERNATIVE, CALL(1), DO(0),
    SEQUENCE(2), ALTERNATIVE, CALL(0), CALL(1),
    SEQUENCE(3), ALTERNATIVE, CALL(1), CALL(1), DO(0), ALTERNATIVE,
    SEQUENCE(4), ALTERNATIVE, CALL(3), CALL(0), ALTERNATIVE, CALL(2), DO(0),
    0xf74aa9af};

/*
 * Sequence 0 is <1, set>, <3>; 1 is <2, 2>, <0>; 2 is <3>, <1>; 3 is <set>, <>.
 * Read in the image's order no call has a run at the first look, and in the end
 * all have one: what was left early is read again.
 *
 * The sum word: so taken, 24 times for the head, the payloads add up to 188,
 * the kinds to 1957: 24 * 0x200201 + 188 + 1024 * 1957 = 0x31ec4d4.
 */
static const uint32_t found_later[] = {
    HEAD(1, 1, 4), STEP(0), SETS(0),
    SEQUENCE(0), ALTERNATIVE, CALL(1), DO(0), ALTERNATIVE, CALL(3),
    SEQUENCE(1), ALTERNATIVE, CALL(2), CALL(2), ALTERNATIVE, CALL(0),
    SEQUENCE(2), ALTERNATIVE, CALL(3), ALTERNATIVE, CALL(1),
    SEQUENCE(3), ALTERNATIVE, DO(0), ALTERNATIVE,
    0xf31ec4d4};

/* One of these two, with the sum word that the builder gives it. */
static inline void build_dead(const uint32_t *given, size_t count)
{
    build(given, count - 1);
    hold("the sum word", *word_at(count - 1) == given[count - 1]);
}

#define BUILD_DEAD(library) build_dead(library, COUNT(library))

/*
 * Sequence 0 is <1, ..>, <clear>; sequence 1, <1, ..>, is endless; sequence 2
 * is <clear>, <1, ..>. The dots are `left` entries, by turns a set and a call
 * of sequence 0. After them comes an alternative, a sequence, or the end of the
 * part.
 */
enum { MOST_LEFT = 9 };

static inline void put_dead(uint32_t left)
{
    uint32_t i;
    PUT(ALTERNATIVE, CALL(1));
    for (i = 0; i < left; i++)
        put(i % 2 == 0 ? DO(0) : CALL(0));
}

static inline void build_left(uint32_t left)
{
    start();
    PUT(HEAD(1, 2, 3), STEP(0), SETS(0), STEP(1), CLEARS(0));
    put(SEQUENCE(0));
    put_dead(left);
    PUT(ALTERNATIVE, DO(1));
    put(SEQUENCE(1));
    put_dead(left);
    PUT(SEQUENCE(2), ALTERNATIVE, DO(1));
    put_dead(left);
    put_sum();
}

#endif
