/*
 * The library with which README.md begins, and what the samples make of it.
 * Facts: 0 the bus is granted, 1 delays are in picoseconds, 2 a measurement is
 * stored. Sequence 0 is a setup that can be passed over by its last
 * alternative, sequence 1 one that cannot; 2 and 3 measure after either. C11
 * and C++17.
 */
#ifndef DULIMOVEN_TESTS_SETUP_H
#define DULIMOVEN_TESTS_SETUP_H

#include "harness.h"

/* An alternative with its entries. Entries that are steps have names below. */
#define TAKES(...) ALTERNATIVE, __VA_ARGS__

#define REQUEST DO(0)
#define UNIT DO(1)
#define RELEASE DO(2)
#define MEASURE DO(3)

/*
 * The words without the sum word: the fact that release clears, and after it
 * the last alternative of sequence 0.
 */
#define SETUP_WORDS(released, ...)                               \
    HEAD(3, 4, 4),                                               \
        STEP(0), SETS(0),                                        \
        STEP(1), NEEDS(0), SETS(1),                              \
        STEP(2), NEEDS(0), CLEARS(released),                     \
        STEP(3), NEEDS(0), NEEDS(1), SETS(2),                    \
        SEQUENCE(0), TAKES(REQUEST, UNIT, RELEASE), __VA_ARGS__, \
        SEQUENCE(1), TAKES(REQUEST, UNIT, RELEASE),              \
        SEQUENCE(2), TAKES(CALL(0), REQUEST, MEASURE, RELEASE),  \
        SEQUENCE(3), TAKES(CALL(1), REQUEST, MEASURE, RELEASE)

/* setup: the last alternative is empty. */
#define SETUP SETUP_WORDS(0, ALTERNATIVE)

/* refused: release clears a fact that is not below F. */
#define REFUSED_SETUP SETUP_WORDS(3, ALTERNATIVE)

/* skip: the last alternative checks that delays are in picoseconds. */
#define SKIP SETUP_WORDS(0, TAKES(CHECK(1)))

#endif
