/*
 * What a report says beyond the cards: for each fact that a sequence needs,
 * sets or clears on some runs only, the cause of a run where it does and of one
 * where it does not; and of each alternative what it is the cause of.
 */
#ifndef DLM_FINDINGS_H
#define DLM_FINDINGS_H

#include "verbs.h"

/* A cause: the line of a reason that names it. The alternative is one of the
 * library's array; the position counts where an entry gives the touch. */
struct cause {
    uint32_t alternative, position;
    enum line_kind kind;
    enum outcome outcome; /* what the line says, on its side */
};

/* What a sequence does on some runs only. */
struct finding {
    uint32_t sequence, fact;
    enum verb verb;
    enum outcome rival;
    struct cause does, does_not;
};

/* A cause of a finding: of the run where it does, or where it does not. */
struct effect {
    struct cause cause;
    uint32_t sequence, fact;
};

struct findings {
    const struct loaded *loaded;
    struct asker *asker;
    size_t count;
    struct finding *finding; /* by sequence, verb and fact */
    struct effect *effect;   /* two for each finding, by their causes */
    uint32_t *owner;         /* by alternative: its sequence */
};

/* Finds all there is to say of a loaded file. Without memory the program ends.
 */
void find_all(struct findings *findings, const struct loaded *loaded);
void findings_free(struct findings *findings);

/* The reason behind a finding: of a run where it does, or does not. */
void finding_reason(const struct findings *findings,
                    const struct finding *finding, int does,
                    struct reason *reason);

/* Whether two causes are the same. */
int same_cause(const struct cause *one, const struct cause *other);

#endif
