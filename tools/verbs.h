/*
 * What a card says of a sequence and a fact in the words of claims: needs,
 * sets, clears, stands; always, sometimes, never.
 */
#ifndef DLM_VERBS_H
#define DLM_VERBS_H

#include "reasons.h"

/*
 * A verb: its words, the columns of a card that say "always" and "may", the
 * outcome of a run that does it, and those of a run that does not, in the order
 * in which they are looked for. There is no column and no outcome for "may
 * stand".
 */
struct verb_rule {
    const char *does, *infinitive;
    int always, may;
    enum outcome outcome, rivals[2];
};

extern const struct verb_rule verb_rules[VERBS];

/* On which runs a sequence does something to a fact. */
enum mark { ON_NO_RUN, ON_SOME_RUNS, ON_EVERY_RUN };

/* The mark of a verb. Where a fact does not always stand nothing is known,
 * since there is no column "may stand", and the mark is ON_NO_RUN. */
enum mark mark_of(const struct loaded *loaded, size_t sequence, enum verb verb,
                  size_t fact);

/* Whether a fact is in a verb's "always" column. */
int is_always(const struct loaded *loaded, size_t sequence, enum verb verb,
              size_t fact);

/* The outcome of a run that shows that a sequence with a run does not always do
 * it: the first of the two rivals that there is. */
enum outcome rival_of(const struct loaded *loaded, size_t sequence,
                      enum verb verb, size_t fact);

#endif
