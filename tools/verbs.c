#include "verbs.h"

const struct verb_rule verb_rules[VERBS] = {
    {"needs",
     "need",
     DULIMOVEN_ALWAYS_NEEDED,
     DULIMOVEN_MAY_NEED,
     FIRST_NEEDED,
     {FIRST_UNTOUCHED, FIRST_SET}},
    {"sets",
     "set",
     DULIMOVEN_ALWAYS_SET,
     DULIMOVEN_MAY_SET,
     LAST_SET,
     {LAST_UNTOUCHED, LAST_CLEARED}},
    {"clears",
     "clear",
     DULIMOVEN_ALWAYS_CLEARED,
     DULIMOVEN_MAY_CLEAR,
     LAST_CLEARED,
     {LAST_UNTOUCHED, LAST_SET}},
    {"stands",
     "stand",
     DULIMOVEN_ALWAYS_STANDS,
     0,
     OUTCOMES,
     {END_UNMENTIONED, END_CLEARED}}};

int is_always(const struct loaded *loaded, size_t sequence, enum verb verb,
              size_t fact)
{
    return dulimoven_card_has(card_of(loaded, sequence),
                              verb_rules[verb].always, fact);
}

enum mark mark_of(const struct loaded *loaded, size_t sequence, enum verb verb,
                  size_t fact)
{
    int may = verb_rules[verb].may;
    if (is_always(loaded, sequence, verb, fact))
        return ON_EVERY_RUN;
    return may != 0 && dulimoven_card_has(card_of(loaded, sequence), may, fact)
               ? ON_SOME_RUNS
               : ON_NO_RUN;
}

enum outcome rival_of(const struct loaded *loaded, size_t sequence,
                      enum verb verb, size_t fact)
{
    const enum outcome *rivals = verb_rules[verb].rivals;
    return has_outcome(loaded, sequence, rivals[0], fact) ? rivals[0]
                                                          : rivals[1];
}
