#include "reasons.h"

#include "mirror.h"

#include <stdio.h>
#include <stdlib.h>
#include <string.h>

/* ---- outcomes */

/*
 * By outcome: the column of a card that has it, the outcome of the same side
 * that leaves the fact alone, and what a run does, what a step does by itself
 * and what an alternative does.
 */
static const struct {
    int column;
    enum outcome alone;
    const char *run, *step, *alternative;
} outcomes[OUTCOMES] = {
    {DULIMOVEN_MAY_SET, LAST_UNTOUCHED, "sets it last", "sets", NULL},
    {DULIMOVEN_MAY_CLEAR, LAST_UNTOUCHED, "clears it last", "clears", NULL},
    {DULIMOVEN_MAY_LAST_UNTOUCHED, LAST_UNTOUCHED,
     "neither sets nor clears it", NULL, "neither sets nor clears"},
    {DULIMOVEN_MAY_NEED, FIRST_UNTOUCHED, "needs it first", "needs", NULL},
    {DULIMOVEN_MAY_FIRST_SET, FIRST_UNTOUCHED, "sets it first", "sets", NULL},
    {DULIMOVEN_MAY_FIRST_UNTOUCHED, FIRST_UNTOUCHED,
     "neither needs nor sets it", NULL, "neither needs nor sets"},
    {DULIMOVEN_MAY_END_CLEARED, END_UNMENTIONED,
     "clears it, and then neither sets, needs nor checks it", "clears", NULL},
    {DULIMOVEN_MAY_END_UNMENTIONED, END_UNMENTIONED, "does not mention it",
     NULL, "does not mention"}};

const char *outcome_text(enum outcome outcome)
{
    return outcomes[outcome].run;
}

int has_outcome(const struct loaded *loaded, size_t sequence,
                enum outcome outcome, size_t fact)
{
    return dulimoven_card_has(card_of(loaded, sequence),
                              outcomes[outcome].column, fact);
}

enum outcome alone_beside(enum outcome outcome)
{
    return outcomes[outcome].alone;
}

static int is_first_side(enum outcome outcome)
{
    return outcomes[outcome].alone == FIRST_UNTOUCHED;
}

static int is_alone(enum outcome outcome)
{
    return outcomes[outcome].alone == outcome;
}

/*
 * Whether some run of a sequence touches a fact on an outcome's side. An item
 * mentions a fact where it touches it on the first side or on the last.
 */
static int can_touch(const struct loaded *loaded, uint32_t sequence,
                     enum outcome outcome, uint32_t fact)
{
    int first = has_outcome(loaded, sequence, FIRST_NEEDED, fact) ||
                has_outcome(loaded, sequence, FIRST_SET, fact);
    int last = has_outcome(loaded, sequence, LAST_SET, fact) ||
               has_outcome(loaded, sequence, LAST_CLEARED, fact);
    enum outcome alone = outcomes[outcome].alone;
    return (alone != LAST_UNTOUCHED && first) ||
           (alone != FIRST_UNTOUCHED && last);
}

/* ---- links */

/* The first link of the chain of a sequence: what is `known` was asked. */
struct link {
    uint16_t known, alternative, position;
};

struct asker {
    const struct loaded *loaded;
    struct link links[OUTCOMES][DULIMOVEN_MOST_FACTS][DULIMOVEN_MOST_SEQUENCES];
    struct image mirrored;
    size_t mirrored_fact;
};

struct asker *asker_new(const struct loaded *loaded)
{
    struct asker *asker = (struct asker *)calloc(1, sizeof *asker);
    if (asker == NULL) {
        fprintf(stderr, "dlm: there is no memory for reasons\n");
        exit(1);
    }
    asker->loaded = loaded;
    asker->mirrored_fact = DULIMOVEN_MOST_FACTS;
    return asker;
}

void asker_free(struct asker *asker)
{
    free(asker);
}

/* Asks the chain call, of the mirrored image where the outcome has no question.
 * Answers the number of links. */
static uint64_t ask(struct asker *asker, uint32_t sequence,
                    enum outcome outcome, uint32_t fact, uint32_t *chain)
{
    const struct image *image = &asker->loaded->image;
    uint64_t question = (uint64_t)outcome;
    if (outcome == END_CLEARED || outcome == END_UNMENTIONED) {
        if (asker->mirrored_fact != fact)
            mirror_image(&asker->loaded->library, fact, &asker->mirrored);
        asker->mirrored_fact = fact;
        image = &asker->mirrored;
        question = outcome == END_CLEARED ? DULIMOVEN_FIRST_SET
                                          : DULIMOVEN_FIRST_UNTOUCHED;
    }
    return dulimoven_chain(image->words, image->length, sequence, question,
                           fact, chain, DULIMOVEN_MOST_CHAIN_WORDS);
}

/* The entries of the alternative that a sequence takes. */
static struct range entries_of(const struct asker *asker, uint32_t sequence,
                               uint32_t alternative)
{
    return library_alternative(&asker->loaded->library, sequence, alternative)
        ->entries;
}

/* The first link of a chain that there is. The rest of a chain is the chain of
 * the sequence that it goes on with, so all its links are kept. */
static struct link link_of(struct asker *asker, uint32_t sequence,
                           enum outcome outcome, uint32_t fact)
{
    uint32_t chain[DULIMOVEN_MOST_CHAIN_WORDS];
    const uint32_t *words = chain;
    struct link *links = asker->links[outcome][fact];
    uint64_t left = 0;
    if (!links[sequence].known)
        left = ask(asker, sequence, outcome, fact, chain);
    for (; left > 0; left--, words += DULIMOVEN_LINK_WORDS) {
        uint32_t about = dulimoven_link_sequence(words);
        struct link *link = &links[about];
        struct range entries;
        link->known = 1;
        link->alternative = (uint16_t)dulimoven_link_alternative(words);
        link->position = (uint16_t)dulimoven_link_position(words);
        entries = entries_of(asker, about, link->alternative);
        if (outcome == END_CLEARED)
            link->position =
                (uint16_t)(entries.end - entries.begin - 1 - link->position);
    }
    return links[sequence];
}

/* ---- reasons */

/*
 * How sequences leave a fact alone: those that a reason asks it of, each once,
 * in the order in which they come up, and of each how far it is from
 * alternatives that do so by themselves.
 */
struct alone {
    size_t count;
    uint32_t sequence[DULIMOVEN_MOST_SEQUENCES];
    size_t height[DULIMOVEN_MOST_SEQUENCES]; /* 0 where it is not asked of */
};

static size_t add_entries(struct asker *asker, enum outcome outcome,
                          uint32_t fact, struct range entries,
                          struct alone *alone);

/* Adds a sequence and those that its alternative calls. The depth of what is
 * left alone falls with each call, so this ends. */
static size_t add_alone(struct asker *asker, enum outcome outcome,
                        uint32_t fact, uint32_t sequence, struct alone *alone)
{
    struct link link;
    if (alone->height[sequence] == 0) {
        alone->sequence[alone->count++] = sequence;
        link = link_of(asker, sequence, outcome, fact);
        alone->height[sequence] =
            1 + add_entries(asker, outcome, fact,
                            entries_of(asker, sequence, link.alternative),
                            alone);
    }
    return alone->height[sequence];
}

/* Adds the sequences among entries that can touch the fact. Answers how far the
 * farthest is. */
static size_t add_entries(struct asker *asker, enum outcome outcome,
                          uint32_t fact, struct range entries,
                          struct alone *alone)
{
    size_t farthest = 0, height, i;
    for (i = entries.begin; i < entries.end; i++) {
        const struct entry *entry = &asker->loaded->library.entry[i];
        if (entry->kind != DULIMOVEN_KIND_SEQUENCE_ENTRY ||
            !can_touch(asker->loaded, entry->number, outcome, fact))
            continue;
        height = add_alone(asker, outcome, fact, entry->number, alone);
        if (height > farthest)
            farthest = height;
    }
    return farthest;
}

static void add_line(struct reason *reason, enum line_kind kind, int aside,
                     uint32_t sequence, struct link link)
{
    struct line *line = &reason->lines[reason->count++];
    line->kind = kind;
    line->aside = aside;
    line->sequence = sequence;
    line->alternative = link.alternative;
    line->position = link.position;
}

/* The links of a chain to a step or a check, and what they ask of the sequences
 * before or after it. */
static void add_chain(struct asker *asker, uint32_t sequence,
                      struct reason *reason, struct alone *alone)
{
    enum outcome outcome = reason->outcome;
    int calls = 1;
    while (calls) {
        struct link link = link_of(asker, sequence, outcome, reason->fact);
        struct range entries = entries_of(asker, sequence, link.alternative);
        size_t at = entries.begin + link.position;
        const struct entry *entry = &asker->loaded->library.entry[at];
        calls = entry->kind == DULIMOVEN_KIND_SEQUENCE_ENTRY;
        add_line(reason, calls ? LINE_CALL : LINE_TOUCH, 0, sequence, link);
        if (is_first_side(outcome))
            entries.end = at;
        else
            entries.begin = at + 1;
        add_entries(asker, outcomes[outcome].alone, reason->fact, entries,
                    alone);
        sequence = entry->number;
    }
}

void find_reason(struct asker *asker, uint32_t sequence, enum outcome outcome,
                 uint32_t fact, struct reason *reason)
{
    struct alone alone;
    enum outcome side = outcomes[outcome].alone;
    size_t farthest, height, i;
    memset(&alone, 0, sizeof alone);
    reason->outcome = outcome;
    reason->fact = fact;
    reason->count = 0;
    if (is_alone(outcome))
        add_alone(asker, outcome, fact, sequence, &alone);
    else
        add_chain(asker, sequence, reason, &alone);
    for (farthest = 0, i = 0; i < alone.count; i++)
        if (alone.height[alone.sequence[i]] > farthest)
            farthest = alone.height[alone.sequence[i]];
    for (height = farthest; height > 0; height--)
        for (i = 0; i < alone.count; i++)
            if (alone.height[alone.sequence[i]] == height)
                add_line(reason, height > 1 ? LINE_THROUGH : LINE_ALONE,
                         !is_alone(outcome), alone.sequence[i],
                         link_of(asker, alone.sequence[i], side, fact));
}

const struct line *cause_of(const struct reason *reason)
{
    const struct line *line = &reason->lines[reason->count - 1];
    while (line->aside)
        line--;
    return line;
}

/* ---- in words */

void put_alternative(struct text *text, const struct loaded *loaded,
                     uint32_t sequence, uint32_t alternative)
{
    const char *label =
        library_alternative(&loaded->library, sequence, alternative)->label;
    text_format(text, "%s: alternative %u",
                loaded->library.sequence[sequence].named.name, alternative);
    if (label != NULL)
        text_format(text, " (%s)", label);
}

/* The entry that gives the touch, up to the fact. */
static void put_touch(struct text *text, const struct loaded *loaded,
                      enum outcome outcome, const struct line *line)
{
    const struct library *library = &loaded->library;
    const struct alternative *alternative =
        library_alternative(library, line->sequence, line->alternative);
    const struct entry *entry =
        &library->entry[alternative->entries.begin + line->position];
    text_format(text, "entry %u, ", line->position);
    if (entry->kind == DULIMOVEN_KIND_SEQUENCE_ENTRY)
        text_format(text, "calls %s",
                    library->sequence[entry->number].named.name);
    else if (entry->kind == DULIMOVEN_KIND_CHECK)
        text_put(text, "checks ");
    else
        text_format(text, "%s, %s ", library->step[entry->number].named.name,
                    outcomes[outcome].step);
}

/* The sequences that an alternative calls and that can touch the fact, each
 * once, the first of them by name. */
static void put_called(struct text *text, const struct loaded *loaded,
                       enum outcome outcome, uint32_t fact,
                       struct range entries)
{
    enum { NAMED = 4 };
    const struct library *library = &loaded->library;
    char seen[DULIMOVEN_MOST_SEQUENCES] = {0};
    size_t count = 0, i;
    for (i = entries.begin; i < entries.end; i++) {
        const struct entry *entry = &library->entry[i];
        if (entry->kind != DULIMOVEN_KIND_SEQUENCE_ENTRY ||
            seen[entry->number] ||
            !can_touch(loaded, entry->number, outcome, fact))
            continue;
        seen[entry->number] = 1;
        if (count < NAMED)
            text_format(text, "%s%s", count == 0 ? "which calls " : ", ",
                        library->sequence[entry->number].named.name);
        count++;
    }
    if (count > NAMED)
        text_format(text, " and %zu more", count - NAMED);
}

/* Whether one of the entries checks a fact. */
static int checks_fact(const struct library *library, struct range entries,
                       uint32_t fact)
{
    size_t i;
    for (i = entries.begin; i < entries.end; i++)
        if (library->entry[i].kind == DULIMOVEN_KIND_CHECK &&
            library->entry[i].number == fact)
            return 1;
    return 0;
}

/* How an alternative leaves the fact alone. */
static void put_alone(struct text *text, const struct loaded *loaded,
                      const struct reason *reason, const struct line *line,
                      const char *it)
{
    enum outcome alone = outcomes[reason->outcome].alone;
    struct range entries =
        library_alternative(&loaded->library, line->sequence, line->alternative)
            ->entries;
    if (line->kind == LINE_THROUGH) {
        put_called(text, loaded, alone, reason->fact, entries);
        return;
    }
    text_put(text, "which ");
    if (checks_fact(&loaded->library, entries, reason->fact))
        text_format(text, "checks %s and ", it);
    if (entries.begin == entries.end)
        text_put(text, "is empty");
    else
        text_format(text, "%s %s", outcomes[alone].alternative, it);
}

void put_deed(struct text *text, const struct loaded *loaded,
              enum outcome outcome, const struct line *line)
{
    if (line->kind == LINE_TOUCH)
        put_touch(text, loaded, outcome, line);
    else
        text_format(text, "%s ",
                    outcomes[outcomes[outcome].alone].alternative);
}

void put_line(struct text *text, const struct loaded *loaded,
              const struct reason *reason, const struct line *line,
              const char *it)
{
    if (line->aside)
        text_put(text, is_first_side(reason->outcome) ? "before that, "
                                                      : "after that, ");
    put_alternative(text, loaded, line->sequence, line->alternative);
    text_put(text, ", ");
    if (line->kind == LINE_CALL || line->kind == LINE_TOUCH)
        put_touch(text, loaded, reason->outcome, line);
    else
        put_alone(text, loaded, reason, line, it);
    if (line->kind == LINE_TOUCH)
        text_put(text, it);
}

void put_endless(struct text *text, const struct loaded *loaded,
                 uint32_t sequence)
{
    const struct sequence *sequences = loaded->library.sequence;
    const struct range *own = &sequences[sequence].alternatives;
    uint32_t list[DULIMOVEN_MOST_ENDLESS_WORDS];
    uint64_t count = dulimoven_endless(
        loaded->image.words, loaded->image.length, sequence, list,
        DULIMOVEN_MOST_ENDLESS_WORDS);
    uint64_t without = 0, i;
    if (count == 1) {
        text_put(text, own->begin == own->end
                           ? "it has no alternative"
                           : "it calls itself in each of its alternatives");
        return;
    }
    text_put(text, "each alternative of");
    for (i = 0; i < count; i++)
        text_format(text, "%s %s", i == 0 ? "" : ",",
                    sequences[list[i]].named.name);
    text_put(text, " calls one of them");
    for (i = 0; i < count; i++) {
        own = &sequences[list[i]].alternatives;
        if (own->begin == own->end)
            text_format(text, "%s %s", without++ == 0 ? ";" : ",",
                        sequences[list[i]].named.name);
    }
    if (without > 0)
        text_put(text, without == 1 ? " has none" : " have none");
}
