/*
 * A library with its names, as a text gives it, or as an image gives it with
 * names made up. Facts, steps and sequences are numbered in the order in which
 * they stand; all numbers count from 0. What belongs to a step, a sequence or
 * an alternative is a range of the arrays below.
 */
#ifndef DLM_LIBRARY_H
#define DLM_LIBRARY_H

#include "dulimoven.h"

/* No name or note, and no place in a text. */
#define NO_PLACE ((size_t)-1)

/* What can be named: its name, its note or NULL, and where the name stands. */
struct named {
    const char *name, *note;
    size_t at;
};

/* Members `begin` to `end` - 1 of an array. */
struct range {
    size_t begin, end;
};

/* What a step does to a fact: DULIMOVEN_KIND_NEEDS, _SETS or _CLEARS. */
struct use {
    uint32_t kind, fact;
    const char *name;
    size_t at;
};

struct step {
    struct named named;
    struct range uses;
};

/* An entry: DULIMOVEN_KIND_STEP_ENTRY, _SEQUENCE_ENTRY or _CHECK with the
 * number of the step, the sequence or the fact. */
struct entry {
    uint32_t kind, number;
    const char *name;
    size_t at;
};

/* An alternative, its label or NULL, and where it begins. */
struct alternative {
    const char *label, *note;
    size_t at;
    struct range entries;
};

struct sequence {
    struct named named;
    struct range alternatives, claims;
};

/* What a claim, and a row of a card, is about. */
enum verb { VERB_NEEDS, VERB_SETS, VERB_CLEARS, VERB_STANDS, VERBS };

/* A claim: that a sequence does something to a fact always, or never. */
struct claim {
    enum verb verb;
    int always;
    uint32_t sequence, fact;
    const char *name;
    size_t at;
};

/* What the words between head and sum word can be at most. */
enum { MOST_BETWEEN = DULIMOVEN_MOST_IMAGE_WORDS - 2 };

struct library {
    const char *name, *note; /* or NULL */
    char *names;             /* where the names and notes stand */
    size_t facts, steps, sequences, uses, entries, alternatives, claims;
    struct named fact[DULIMOVEN_MOST_FACTS];
    struct step step[DULIMOVEN_MOST_STEPS];
    struct sequence sequence[DULIMOVEN_MOST_SEQUENCES];
    struct use use[MOST_BETWEEN];
    struct entry entry[MOST_BETWEEN];
    struct alternative alternative[MOST_BETWEEN];
    struct claim *claim;
    size_t claim_room;
};

/* How many words stand between head and sum word. */
size_t library_words(const struct library *library);

/* The alternative of a number within its sequence. */
const struct alternative *library_alternative(const struct library *library,
                                              uint32_t sequence,
                                              uint32_t alternative);

void library_free(struct library *library);

#endif
