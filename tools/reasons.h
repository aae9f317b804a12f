/*
 * Reasons: the chain behind what a card says, followed to its cause. A chain
 * ends at a step or a check, or says that an alternative leaves the fact alone;
 * where other sequences must leave it alone too, how each of them does is
 * followed down to alternatives that do so by themselves.
 *
 * What is shown comes from the chain call and the cards. "Always stands" has no
 * question of its own: its two rivals are asked of the mirrored image
 * (mirror.h).
 */
#ifndef DLM_REASONS_H
#define DLM_REASONS_H

#include "loaded.h"
#include "text.h"

/*
 * What a run can do with a fact: the six questions of dulimoven_chain, and two
 * more. The last item of a run that sets, clears, needs or checks the fact
 * clears it; a run has no such item.
 */
enum outcome {
    LAST_SET = DULIMOVEN_LAST_SET,
    LAST_CLEARED = DULIMOVEN_LAST_CLEARED,
    LAST_UNTOUCHED = DULIMOVEN_LAST_UNTOUCHED,
    FIRST_NEEDED = DULIMOVEN_FIRST_NEEDED,
    FIRST_SET = DULIMOVEN_FIRST_SET,
    FIRST_UNTOUCHED = DULIMOVEN_FIRST_UNTOUCHED,
    END_CLEARED,
    END_UNMENTIONED,
    OUTCOMES
};

/* Whether some run of a sequence has an outcome, by its card. */
int has_outcome(const struct loaded *loaded, size_t sequence,
                enum outcome outcome, size_t fact);

/* The outcome of the same side that leaves the fact alone. */
enum outcome alone_beside(enum outcome outcome);

/* "sets it last", "neither sets nor clears it", and so on. */
const char *outcome_text(enum outcome outcome);

/* What a line of a reason says of the alternative that it names. */
enum line_kind {
    LINE_CALL,   /* its entry at the position is a sequence: the next line */
    LINE_TOUCH,  /* its entry at the position, a step or a check, does it */
    LINE_THROUGH, /* it leaves the fact alone where those it calls do */
    LINE_ALONE   /* it leaves the fact alone by itself */
};

/* A line: `aside` where it is no link of the chain, but says how a sequence
 * that is run before or after the touch leaves the fact alone. */
struct line {
    enum line_kind kind;
    int aside;
    uint32_t sequence, alternative, position;
};

/*
 * A reason. The lines of the chain come first, then those aside, each before
 * those that it calls. The last line is of LINE_TOUCH or of LINE_ALONE, so that
 * its alternative does by itself what the line says.
 */
enum { MOST_LINES = 2 * DULIMOVEN_MOST_SEQUENCES };
struct reason {
    enum outcome outcome;
    uint32_t fact;
    size_t count;
    struct line lines[MOST_LINES];
};

/* Asks about a loaded file, and keeps what was answered. */
struct asker;
struct asker *asker_new(const struct loaded *loaded);
void asker_free(struct asker *asker);

/* Finds why a sequence has a run with an outcome, which it has. */
void find_reason(struct asker *asker, uint32_t sequence, enum outcome outcome,
                 uint32_t fact, struct reason *reason);

/* The line that names the cause: the touch where there is one, and otherwise
 * the last line. */
const struct line *cause_of(const struct reason *reason);

/*
 * Puts what the alternative of a LINE_TOUCH or LINE_ALONE does by itself, up to
 * the fact: "entry 1, unit, sets ", "neither sets nor clears ".
 */
void put_deed(struct text *text, const struct loaded *loaded,
              enum outcome outcome, const struct line *line);

/* Puts "setup: alternative 1 (done)". */
void put_alternative(struct text *text, const struct loaded *loaded,
                     uint32_t sequence, uint32_t alternative);

/*
 * Puts a line in words: "setup: alternative 1 (done), which is empty". `it`
 * stands for the fact.
 */
void put_line(struct text *text, const struct loaded *loaded,
              const struct reason *reason, const struct line *line,
              const char *it);

/* Puts why a sequence that has no run has none: "it calls itself in each of its
 * alternatives". */
void put_endless(struct text *text, const struct loaded *loaded,
                 uint32_t sequence);

#endif
