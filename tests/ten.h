/*
 * Ten sequences, eight of which have no run: the library of
 * examples/endless.image. Step 0 sets fact 0. Sequence 0 is <3, set>, <set, 1>;
 * 1 is <0>; 2 is <2>, <>; 3 has no alternative; 4 is <2, 4>; 5 is <6, 5>; 6 is
 * <7>, <check 0>; 7 is <7>; 8 is <9, 1>; 9 is <3>, <7, set>. C11 and C++17.
 *
 * The sum word: taken 44 times for the head, 43 times for the next word and so
 * on to once for the last, the payloads after the head's add up to 1583, and
 * the kinds to 6881: 44 * 0x500201 + 1583 + 1024 * 6881 = 0xe2be25b.
 */
#ifndef DULIMOVEN_TESTS_TEN_H
#define DULIMOVEN_TESTS_TEN_H

#include "harness.h"

enum { TEN = 10, TEN_SUM = 44 };
static const uint32_t ten[] = {
    0x10500201, 0x50000000, 0x30000000, 0x60000000, 0x70000000, 0x90000003,
    0x80000000, 0x70000000, 0x80000000, 0x90000001, 0x60000001, 0x70000000,
    0x90000000, 0x60000002, 0x70000000, 0x90000002, 0x70000000, 0x60000003,
    0x60000004, 0x70000000, 0x90000002, 0x90000004, 0x60000005, 0x70000000,
    0x90000006, 0x90000005, 0x60000006, 0x70000000, 0x90000007, 0x70000000,
    0xd0000000, 0x60000007, 0x70000000, 0x90000007, 0x60000008, 0x70000000,
    0x90000009, 0x90000001, 0x60000009, 0x70000000, 0x90000003, 0x70000000,
    0x90000007, 0x80000000, 0xfe2be25b};

/* The same words by name, without the sum word. */
#define TEN_WORDS                                                             \
    HEAD(1, 1, TEN), STEP(0), SETS(0),                                        \
        SEQUENCE(0), ALTERNATIVE, CALL(3), DO(0), ALTERNATIVE, DO(0), CALL(1), \
        SEQUENCE(1), ALTERNATIVE, CALL(0),                                    \
        SEQUENCE(2), ALTERNATIVE, CALL(2), ALTERNATIVE,                       \
        SEQUENCE(3),                                                          \
        SEQUENCE(4), ALTERNATIVE, CALL(2), CALL(4),                           \
        SEQUENCE(5), ALTERNATIVE, CALL(6), CALL(5),                           \
        SEQUENCE(6), ALTERNATIVE, CALL(7), ALTERNATIVE, CHECK(0),             \
        SEQUENCE(7), ALTERNATIVE, CALL(7),                                    \
        SEQUENCE(8), ALTERNATIVE, CALL(9), CALL(1),                           \
        SEQUENCE(9), ALTERNATIVE, CALL(3), ALTERNATIVE, CALL(7), DO(0)

#endif
