/*
 * What document 01 prints under "Sample libraries", word by word, with the sum
 * words of document 02, request 6, and the heads of request 8. C11 and C++17.
 */
#ifndef DULIMOVEN_TESTS_SAMPLES_H
#define DULIMOVEN_TESTS_SAMPLES_H

#include "columns.h"

/*
 * Library L: 3 facts, 3 steps, 3 sequences. Its head's payload is 3 + 3 * 2^9 +
 * 3 * 2^19, which is 0x180603. Its sum word: the words count 1575427 5120 3072
 * 5121 2048 3073 5122 4097 6144 7168 8192 7168 6145 7168 9216 8193 6146 7168
 * 9218. The running sums are 1575427 1580547 1583619 1588740 1590788 1593861
 * 1598983 1603080 1609224 1616392 1624584 1631752 1637897 1645065 1654281
 * 1662474 1668620 1675788 1685006, and they add up to 30826128, which is
 * 0x1d65e90.
 */
enum { L_WORDS = 20, L_SUM = L_WORDS - 1, L_SEQUENCES = 3 };
static const uint32_t library_l[L_WORDS] = {
    0x10180603, 0x50000000, 0x30000000, 0x50000001, 0x20000000,
    0x30000001, 0x50000002, 0x40000001, 0x60000000, 0x70000000,
    0x80000000, 0x70000000, 0x60000001, 0x70000000, 0x90000000,
    0x80000001, 0x60000002, 0x70000000, 0x90000002, 0xf1d65e90};

/*
 * The numbers of its cards. Document 02, request 4: "L's lines now end in 0, 3
 * and 0"; request 5: "L's lines go on with 1 7 7 0 7, 3 4 5 0 4 and five
 * zeros".
 */
static const uint64_t cards_of_l[L_SEQUENCES][NUMBERS] = {
    {0x103, 0, 0, 1, 0, 0, 0, 0, 1, 7, 7, 0, 7},
    {0x201, 0, 1, 3, 0, 2, 0, 3, 3, 4, 5, 0, 4},
    {0, 0, 0, 0, 0, 0, 0, 0, 0, 0, 0, 0, 0}};

/* Its chains of sequence 1 and fact 0, for question 2 and for question 0. */
static const uint32_t untouched_in_l[2] = {0xa0000001, 0xc0000000};
static const uint32_t set_in_l[4] = {0xa0000001, 0xb0000000, 0xa0000000,
                                     0xb0000000};

/*
 * An image that is accepted and has no sequence, and one that gets 3. The head
 * counts 1 + 1024 and 0 + 1024, and there is one running sum.
 */
static const uint32_t no_sequence[2] = {0x10000001, 0xf0000401};
static const uint32_t no_fact[2] = {0x10000000, 0xf0000400};

#endif
