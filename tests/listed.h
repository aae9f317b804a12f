/*
 * Lists that say why sequences have no run, by the words of an image alone, for
 * tests. Document 02, request 7: "Give the list, in rising order, of all
 * sequences without a run that the asked one reaches through entries of
 * sequences without a run, itself included. Every alternative of each listed
 * sequence names a listed one." It shares no code with the library. C11 and
 * C++17.
 */
#ifndef DULIMOVEN_TESTS_LISTED_H
#define DULIMOVEN_TESTS_LISTED_H

#include "image.h"

/* "in rising order": each number is above the one before it. */
static inline int list_rises(const uint32_t *list, size_t count)
{
    size_t i;
    for (i = 1; i < count; i++)
        if (list[i] <= list[i - 1])
            return 0;
    return 1;
}

/*
 * "Every alternative of each listed sequence names a listed one": each
 * alternative of a member has an entry that names a member. `listed` says which
 * sequences are members.
 */
static inline int alternatives_name(const uint32_t *image, size_t length,
                                    const unsigned char *listed)
{
    int asks = 0, open = 0;
    size_t i;
    for (i = 1; i < length; i++) {
        uint32_t kind = kind_of(image[i]), number = payload_of(image[i]);
        if (kind == KIND_SEQUENCE_ENTRY) {
            open &= !listed[number];
            continue;
        }
        if (kind != KIND_SEQUENCE && kind != KIND_ALTERNATIVE &&
            kind != KIND_SUM)
            continue;
        /* the alternative before this word has ended */
        if (open)
            return 0;
        if (kind == KIND_SEQUENCE)
            asks = listed[number];
        open = kind == KIND_ALTERNATIVE && asks;
    }
    return 1;
}

/* The same of a list of numbers, all of which name sequences. */
static inline int list_supports(const uint32_t *image, size_t length,
                                const uint32_t *list, size_t count)
{
    unsigned char listed[MOST_SEQUENCES] = {0};
    size_t i;
    for (i = 0; i < count; i++) {
        if (list[i] >= sequences_of(image[0]))
            return 0;
        listed[list[i]] = 1;
    }
    return alternatives_name(image, length, listed);
}

/*
 * The list of a sequence, where `runs` says which sequences have a run; answers
 * its length, 0 where the sequence has a run. By rounds over the words: a
 * sequence joins where an entry of one that is found names it, until a round
 * finds none.
 */
static inline size_t list_of(const uint32_t *image, size_t length,
                             const unsigned char *runs, uint32_t sequence,
                             uint32_t *list)
{
    unsigned char found[MOST_SEQUENCES] = {0};
    int changed = 1, from = 0;
    size_t i, count = 0;
    uint32_t c;
    found[sequence] = !runs[sequence];
    while (changed) {
        changed = 0;
        for (i = 1; i + 1 < length; i++) {
            uint32_t kind = kind_of(image[i]), number = payload_of(image[i]);
            if (kind == KIND_SEQUENCE)
                from = found[number];
            if (kind != KIND_SEQUENCE_ENTRY || !from || runs[number] ||
                found[number])
                continue;
            found[number] = 1;
            changed = 1;
        }
    }
    for (c = 0; c < MOST_SEQUENCES; c++)
        if (found[c])
            list[count++] = c;
    return count;
}

#endif
