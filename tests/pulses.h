/*
 * Images about refusal 13, with the answer of the check. Document 02: "13 for a
 * clear word naming a fact that an earlier word of the same step sets, at the
 * clear word; it joins 4 to 6, where the earliest word decides, and comes last
 * within one word." C11 and C++17.
 */
#ifndef DULIMOVEN_TESTS_PULSES_H
#define DULIMOVEN_TESTS_PULSES_H

#include "harness.h"

/*
 * The words of an image without the sum word, and the refusal that it gets with
 * its position, or 0 and 0 where it is accepted; none of those has a sequence.
 */
struct pulse {
    const char *why;
    uint64_t number, position;
    size_t count;
    uint32_t words[7];
};

static const struct pulse pulses[] = {
    {"the sample", 13, 3, 7,
     {HEAD(1, 1, 1), STEP(0), SETS(0), CLEARS(0), SEQUENCE(0), ALTERNATIVE,
      DO(0)}},
    {"needed, set and cleared", 13, 4, 5,
     {HEAD(1, 1, 0), STEP(0), NEEDS(0), SETS(0), CLEARS(0)}},
    {"the second of two set words", 13, 4, 5,
     {HEAD(2, 1, 0), STEP(0), SETS(0), SETS(1), CLEARS(1)}},
    {"another clear word before it", 13, 4, 5,
     {HEAD(2, 1, 0), STEP(0), SETS(1), CLEARS(0), CLEARS(1)}},
    {"fact 63 of 64", 13, 5, 6,
     {HEAD(64, 1, 0), STEP(0), SETS(62), SETS(63), CLEARS(0), CLEARS(63)}},
    {"fact 255 of 256", 13, 5, 6,
     {HEAD(256, 1, 0), STEP(0), SETS(254), SETS(255), CLEARS(0), CLEARS(255)}},
    {"fact 191 of 256", 13, 3, 4,
     {HEAD(256, 1, 0), STEP(0), SETS(191), CLEARS(191)}},
    {"facts 127 and 191, which agree in their last six bits", 0, 0, 4,
     {HEAD(256, 1, 0), STEP(0), SETS(127), CLEARS(191)}},
    {"facts 191 and 255, which agree in their last six bits", 0, 0, 4,
     {HEAD(256, 1, 0), STEP(0), SETS(191), CLEARS(255)}},
    {"fact 63, and after it 255, which agrees with it so", 13, 3, 5,
     {HEAD(256, 1, 0), STEP(0), SETS(63), CLEARS(63), CLEARS(255)}},
    {"fact 64 cleared where 0 is set, and 128 where 128 is", 13, 5, 6,
     {HEAD(256, 1, 0), STEP(0), SETS(0), SETS(128), CLEARS(64), CLEARS(128)}},
    {"6 and 13 in one word", 6, 4, 5,
     {HEAD(2, 1, 0), STEP(0), SETS(0), CLEARS(1), CLEARS(0)}},
    {"6 at an earlier word", 6, 3, 5,
     {HEAD(2, 1, 0), STEP(0), SETS(0), SETS(0), CLEARS(0)}},
    {"6 at a later word", 13, 3, 5,
     {HEAD(2, 1, 0), STEP(0), SETS(0), CLEARS(0), SETS(1)}},
    {"the set word names no fact", 5, 2, 4,
     {HEAD(1, 1, 0), STEP(0), SETS(1), CLEARS(1)}},
    {"5 at a later word", 13, 3, 5,
     {HEAD(1, 1, 0), STEP(0), SETS(0), CLEARS(0), CLEARS(1)}},
    {"4 at a later word", 13, 3, 5,
     {HEAD(1, 1, 0), STEP(0), SETS(0), CLEARS(0), WORD(0, 0)}},
    {"cleared, then set: out of order", 6, 3, 4,
     {HEAD(1, 1, 0), STEP(0), CLEARS(0), SETS(0)}},
    {"set by one step, cleared by the next", 0, 0, 5,
     {HEAD(1, 2, 0), STEP(0), SETS(0), STEP(1), CLEARS(0)}},
    {"step 1 clears what step 0 sets, and what it sets itself", 13, 6, 7,
     {HEAD(2, 2, 0), STEP(0), SETS(0), STEP(1), SETS(1), CLEARS(0),
      CLEARS(1)}},
    {"two such words: the earliest", 13, 4, 6,
     {HEAD(2, 1, 0), STEP(0), SETS(0), SETS(1), CLEARS(0), CLEARS(1)}},
    {"step 1 and the sequence are missing: before 7", 13, 3, 4,
     {HEAD(1, 2, 1), STEP(0), SETS(0), CLEARS(0)}},
    {"needed and cleared", 0, 0, 4,
     {HEAD(1, 1, 0), STEP(0), NEEDS(0), CLEARS(0)}},
    {"sets one fact, clears another", 0, 0, 4,
     {HEAD(2, 1, 0), STEP(0), SETS(0), CLEARS(1)}},
    {"a clear word after a sequence's opener", 4, 4, 5,
     {HEAD(1, 1, 1), STEP(0), SETS(0), SEQUENCE(0), CLEARS(0)}}};

#endif
