/*
 * The reasons of tools/reasons.h, over libraries made from a seed, held against
 * the judge (second/judge.h) and the words of the image.
 *
 * For every sequence, fact and outcome: the tool says that a run has the
 * outcome exactly where the judge does. Where one has, the lines of the reason
 * are held, one by one, against the words:
 *   - The first line is about the sequence asked about; each names an
 *     alternative that there is.
 *   - A line that calls names an entry that is the sequence of the next line;
 *     the chain ends at a line whose entry is a step or a check that by itself
 *     gives the touch. It has the fewest links, by rounds of the test's own,
 *     and for the chain call's questions the links that the call answers.
 *   - Beside the entry, on the side where nothing may touch the fact, no step
 *     and no check does; each sequence there has a run that leaves it alone,
 *     and a line aside where another run of it touches it. On the other side
 *     every sequence has a run.
 *   - A line that leaves the fact alone names an alternative without a step or
 *     a check that touches it. Each sequence called there has a run that
 *     leaves it alone, and those that can touch it have a line further down.
 *     Where there are none the alternative does it by itself.
 *   - No sequence has two lines aside, and none has one that nothing asks for.
 *   - The last line is of a step or a check that gives the touch, or of an
 *     alternative that leaves the fact alone by itself. The cause is the line
 *     of the touch where there is one, and otherwise the last.
 * And of the marks (tools/verbs.h): a fact is always needed, set, cleared or
 * standing exactly where there is a run, and none that does otherwise; the
 * outcome that is shown against "always" is one that a run has.
 *
 * Tried: the tool was broken on a copy, 41 times, and each break was reported.
 * In reasons.c: the sides of an outcome, of what can touch or of the entries
 * beside the touch exchanged; END_CLEARED and END_UNMENTIONED asked by each
 * other's question, or read from a column of the last side; a position that is
 * not mirrored; every sequence can touch, none can, or a touch is forgotten;
 * the entry itself asked to leave the fact alone, or those further down not;
 * lines in another order, all through, all alone, or aside where they are not;
 * links kept for another fact, outcome or sequence, or a mirrored image for
 * another fact; the first line as the cause, or the last where it is aside. In
 * mirror.c: what needs and clears counts as standing; needs, sets or checks left
 * out; clears are needs; uses of other facts, or all of fact 0. In verbs.c: a
 * rival or a column exchanged, the second rival shown always. Of four the tool
 * itself does not end, and runs out of its arrays or its stack at once: a
 * mirrored position that is one off, a mirrored image with its entries in
 * order, without the last entry, or without its sum word.
 *
 * C11, as tools/ is. Prints a line for each of the first dozen failures, and
 * last the counts; the exit status is 0 where nothing failed. The output is
 * fixed by the seed.
 */
#include "lister.h"
#include "second/judge.h"
#include "seeded_words.h"
#include "verbs.h"

#include <inttypes.h>
#include <stdio.h>
#include <stdlib.h>
#include <string.h>

/* With the sanitizers, which are slow, one library in so many is tried. */
#ifdef __SANITIZE_ADDRESS__
enum { SHARE = 4 };
#else
enum { SHARE = 1 };
#endif

static uint64_t state = UINT64_C(0xd1342543de82ef95);
static uint64_t libraries, reasons, lines_seen, asides, failed;

/* ---- the library under trial, by its words */

static struct loaded loaded;
static uint32_t facts, sequences;

/* The alternatives, one after the other: where the entries of each begin, and
 * how many there are; and the first alternative of each sequence. */
static struct {
    size_t begin;
    uint32_t entries;
} taken[DULIMOVEN_MOST_IMAGE_WORDS];
static size_t first_of[DULIMOVEN_MOST_SEQUENCES + 1];

static void read_words(void)
{
    const struct image *image = &loaded.image;
    size_t i, count = 0, last = 0;
    facts = dulimoven_facts(word_payload(image->words[0]));
    sequences = dulimoven_sequences(word_payload(image->words[0]));
    for (i = 1; i + 1 < image->length; i++) {
        uint32_t kind = word_kind(image->words[i]);
        if (kind == DULIMOVEN_KIND_SEQUENCE) {
            first_of[last++] = count;
        } else if (kind == DULIMOVEN_KIND_ALTERNATIVE) {
            taken[count].begin = i + 1;
            taken[count++].entries = 0;
        } else if (kind > DULIMOVEN_KIND_ALTERNATIVE) {
            taken[count - 1].entries++;
        }
    }
    first_of[last] = count;
}

static size_t alternatives_of(uint32_t sequence)
{
    return first_of[sequence + 1] - first_of[sequence];
}

static uint32_t entries_of(uint32_t sequence, uint32_t alternative)
{
    return taken[first_of[sequence] + alternative].entries;
}

static uint32_t entry_of(uint32_t sequence, uint32_t alternative,
                         uint32_t position)
{
    size_t begin = taken[first_of[sequence] + alternative].begin;
    return loaded.image.words[begin + position];
}

static int is_call(uint32_t entry)
{
    return word_kind(entry) == DULIMOVEN_KIND_SEQUENCE_ENTRY;
}

/* ---- what steps and checks do with the fact under trial */

static uint32_t fact;

enum { NEEDS = 1, SETS = 2, CLEARS = 4, CHECKS = 8 };
static unsigned does[DULIMOVEN_MOST_STEPS];

static void read_fact(void)
{
    const uint32_t *words = loaded.image.words;
    unsigned *step = does;
    size_t i;
    for (i = 1; word_kind(words[i]) <= DULIMOVEN_KIND_STEP; i++) {
        if (word_kind(words[i]) == DULIMOVEN_KIND_STEP) {
            step = &does[word_payload(words[i])];
            *step = 0;
        } else if (word_payload(words[i]) == fact) {
            *step |= word_kind(words[i]) == DULIMOVEN_KIND_NEEDS  ? NEEDS
                     : word_kind(words[i]) == DULIMOVEN_KIND_SETS ? SETS
                                                                  : CLEARS;
        }
    }
}

/* What an entry that is no call does with the fact. */
static unsigned done_by(uint32_t entry)
{
    if (word_kind(entry) == DULIMOVEN_KIND_CHECK)
        return word_payload(entry) == fact ? CHECKS : 0;
    return does[word_payload(entry)];
}

/*
 * The sides. "On the last side a step touches f if it sets or clears f. On the
 * first side it touches f if it needs or sets f", where a check is a need; and
 * at the end an item counts that does anything with it.
 */
enum side { LAST_SIDE, FIRST_SIDE, END_SIDE };

static enum side side_of(enum outcome outcome)
{
    return outcome >= END_CLEARED    ? END_SIDE
           : outcome >= FIRST_NEEDED ? FIRST_SIDE
                                     : LAST_SIDE;
}

static int touches(uint32_t entry, enum side side)
{
    static const unsigned touching[] = {SETS | CLEARS, NEEDS | SETS | CHECKS,
                                        NEEDS | SETS | CLEARS | CHECKS};
    return (done_by(entry) & touching[side]) != 0;
}

/* Whether an entry that is no call gives the touch of an outcome. "A step that
 * needs and sets a fact needs it." */
static int gives(uint32_t entry, enum outcome outcome)
{
    unsigned deeds = done_by(entry);
    switch (outcome) {
    case LAST_SET:
        return (deeds & SETS) != 0;
    case LAST_CLEARED:
    case END_CLEARED:
        return (deeds & CLEARS) != 0;
    case FIRST_NEEDED:
        return (deeds & (NEEDS | CHECKS)) != 0;
    case FIRST_SET:
        return (deeds & (NEEDS | SETS)) == SETS;
    default:
        return 0;
    }
}

/* ---- what the judge says */

static int possible(uint32_t sequence, enum outcome outcome)
{
    return judge_possible(sequence, outcome == END_CLEARED
                                        ? JUDGE_STANDING_CLEARED
                                    : outcome == END_UNMENTIONED
                                        ? JUDGE_STANDING_UNTOUCHED
                                        : (uint32_t)outcome);
}

/* Whether a sequence has a run that leaves the fact alone. */
static int can_leave(uint32_t sequence, enum side side)
{
    static const enum outcome alone[] = {LAST_UNTOUCHED, FIRST_UNTOUCHED,
                                         END_UNMENTIONED};
    return possible(sequence, alone[side]);
}

/* Whether it has one that does not. A run has an item that does anything with
 * the fact where it touches it on the first side or on the last. */
static int can_touch(uint32_t sequence, enum side side)
{
    int first = possible(sequence, FIRST_NEEDED) ||
                possible(sequence, FIRST_SET);
    int last = possible(sequence, LAST_SET) ||
               possible(sequence, LAST_CLEARED);
    return side == FIRST_SIDE  ? first
           : side == LAST_SIDE ? last
                               : first || last;
}

/* Whether an entry can leave the fact alone. */
static int leaves(uint32_t entry, enum side side)
{
    return is_call(entry) ? can_leave(word_payload(entry), side)
                          : !touches(entry, side);
}

/* Whether all is right beside a position: what comes after it, on the first
 * side before it, can leave the fact alone, and the sequences on the other side
 * have a run. */
static int right_beside(uint32_t sequence, uint32_t alternative,
                        uint32_t position, enum side side)
{
    uint32_t i, entry;
    for (i = 0; i < entries_of(sequence, alternative); i++) {
        entry = entry_of(sequence, alternative, i);
        if (i != position &&
            ((i < position) == (side == FIRST_SIDE)
                 ? !leaves(entry, side)
                 : is_call(entry) && !judge_has_run(word_payload(entry))))
            return 0;
    }
    return 1;
}

/* ---- the fewest links, by rounds */

static uint32_t fewest[DULIMOVEN_MOST_SEQUENCES];

/* Whether a sequence has a link to a touch, or to a sequence that has its
 * fewest links from a round before. */
static int has_link(uint32_t sequence, enum outcome outcome, uint32_t round)
{
    uint32_t a, i, entry;
    for (a = 0; a < alternatives_of(sequence); a++)
        for (i = 0; i < entries_of(sequence, a); i++) {
            entry = entry_of(sequence, a, i);
            if ((is_call(entry) ? fewest[word_payload(entry)] != 0 &&
                                      fewest[word_payload(entry)] < round
                                : gives(entry, outcome)) &&
                right_beside(sequence, a, i, side_of(outcome)))
                return 1;
        }
    return 0;
}

static void find_fewest(enum outcome outcome)
{
    uint32_t sequence, round;
    int found = 1;
    memset(fewest, 0, sizeof fewest);
    for (round = 1; found; round++) {
        found = 0;
        for (sequence = 0; sequence < sequences; sequence++)
            if (fewest[sequence] == 0 && has_link(sequence, outcome, round)) {
                fewest[sequence] = round;
                found = 1;
            }
    }
}

/* ---- a reason */

static struct reason reason;
static const char *library_name;
static uint32_t asked;

static void hold(int right, const char *what)
{
    enum { MOST_PRINTED = 12 };
    if (right)
        return;
    failed++;
    if (failed <= MOST_PRINTED)
        printf("%s, library %" PRIu64 ", sequence %" PRIu32 ", fact %" PRIu32
               ", a run %s: %s\n",
               library_name, libraries, asked, fact,
               outcome_text(reason.outcome), what);
}

/* Which sequences must have a line that leaves the fact alone, from a line on;
 * those that have one are taken out. */
static char due[DULIMOVEN_MOST_SEQUENCES];

/* The sequences among entries that must leave the fact alone. Answers how many
 * of them can touch it. */
static uint32_t ask_for(uint32_t sequence, uint32_t alternative, uint32_t from,
                        uint32_t to, enum side side)
{
    uint32_t i, entry, count = 0;
    for (i = from; i < to; i++) {
        entry = entry_of(sequence, alternative, i);
        hold(leaves(entry, side), "an entry cannot leave the fact alone");
        if (is_call(entry) && can_touch(word_payload(entry), side)) {
            due[word_payload(entry)] = 1;
            count++;
        }
    }
    return count;
}

/* A line of the chain. Answers whether the chain goes on after it. */
static int try_link(size_t number)
{
    const struct line *line = &reason.lines[number];
    enum side side = side_of(reason.outcome);
    uint32_t count, entry;
    hold(!line->aside, "a line of the chain is aside");
    hold(line->alternative < alternatives_of(line->sequence),
         "there is no such alternative");
    if (line->alternative >= alternatives_of(line->sequence))
        return 0;
    count = entries_of(line->sequence, line->alternative);
    hold(line->position < count, "there is no such entry");
    if (line->position >= count)
        return 0;
    entry = entry_of(line->sequence, line->alternative, line->position);
    hold(right_beside(line->sequence, line->alternative, line->position, side),
         "beside the entry another touches the fact, or has no run");
    if (side == FIRST_SIDE)
        ask_for(line->sequence, line->alternative, 0, line->position, side);
    else
        ask_for(line->sequence, line->alternative, line->position + 1, count,
                side);
    hold(line->kind == (is_call(entry) ? LINE_CALL : LINE_TOUCH),
         "a line of the chain is of another kind");
    if (!is_call(entry)) {
        hold(gives(entry, reason.outcome), "the entry does not do it");
        return 0;
    }
    hold(number + 1 < reason.count &&
             reason.lines[number + 1].sequence == word_payload(entry),
         "the next line is about another sequence");
    return number + 1 < reason.count;
}

/* A line that says how a sequence leaves the fact alone. */
static void try_alone(size_t number, int aside)
{
    const struct line *line = &reason.lines[number];
    enum side side = side_of(reason.outcome);
    hold(line->aside == aside, "a line is aside, or is not, and should not");
    hold(due[line->sequence] == 1, "nothing asks for this line here");
    due[line->sequence] = 0;
    hold(line->alternative < alternatives_of(line->sequence),
         "there is no such alternative");
    if (line->alternative < alternatives_of(line->sequence)) {
        uint32_t count = entries_of(line->sequence, line->alternative);
        uint32_t more =
            ask_for(line->sequence, line->alternative, 0, count, side);
        hold(line->kind == (more > 0 ? LINE_THROUGH : LINE_ALONE),
             "a line that leaves the fact alone is of another kind");
    }
}

/* The chain call's own links are the lines of the chain, or of the alternative
 * that leaves the fact alone. */
static void try_call(size_t links)
{
    uint32_t chain[DULIMOVEN_MOST_CHAIN_WORDS];
    const uint32_t *link = chain;
    uint64_t answer = dulimoven_chain(
        loaded.image.words, loaded.image.length, asked,
        (uint64_t)reason.outcome, fact, chain, DULIMOVEN_MOST_CHAIN_WORDS);
    size_t i;
    hold(answer == links, "the chain call answers another number of links");
    for (i = 0; i < links && i < answer; i++, link += DULIMOVEN_LINK_WORDS)
        hold(dulimoven_link_sequence(link) == reason.lines[i].sequence &&
                 dulimoven_link_alternative(link) ==
                     reason.lines[i].alternative &&
                 (dulimoven_link_untouched(link) ||
                  dulimoven_link_position(link) == reason.lines[i].position),
             "the chain call answers another link");
}

/* A reason that there is, line by line. */
static void try_reason(struct asker *asker, enum outcome outcome)
{
    int alone = outcome == LAST_UNTOUCHED || outcome == FIRST_UNTOUCHED ||
                outcome == END_UNMENTIONED;
    size_t links = 0, i;
    int goes_on = !alone;
    memset(&reason, 0xa5, sizeof reason);
    find_reason(asker, asked, outcome, fact, &reason);
    hold(reason.outcome == outcome && reason.fact == fact &&
             reason.count > 0 && reason.count <= MOST_LINES,
         "the reason is about something else");
    hold(reason.lines[0].sequence == asked,
         "the first line is about another sequence");
    memset(due, 0, sizeof due);
    while (goes_on)
        goes_on = try_link(links++);
    if (alone)
        due[asked] = 1;
    else if (sequences <= 40)
        hold(links == fewest[asked], "the links are not the fewest");
    for (i = links; i < reason.count; i++)
        try_alone(i, !alone);
    for (i = 0; i < sequences; i++)
        hold(!due[i], "a sequence that must leave the fact alone has no line");
    if (outcome < END_CLEARED)
        try_call(alone ? 1 : links);
    hold(reason.lines[reason.count - 1].kind == LINE_TOUCH ||
             reason.lines[reason.count - 1].kind == LINE_ALONE,
         "the last line does nothing by itself");
    hold(cause_of(&reason) == &reason.lines[(alone ? reason.count : links) - 1],
         "the cause is another line");
    reasons++;
    lines_seen += reason.count;
    asides += alone ? 0 : reason.count - links;
}

/* ---- marks */

/* "Always" and "may" by the judge: what a run does, and the two things that it
 * does otherwise. */
static void try_marks(void)
{
    static const enum outcome otherwise[VERBS][2] = {
        {FIRST_SET, FIRST_UNTOUCHED},
        {LAST_CLEARED, LAST_UNTOUCHED},
        {LAST_SET, LAST_UNTOUCHED},
        {END_CLEARED, END_UNMENTIONED}};
    static const enum outcome may[] = {FIRST_NEEDED, LAST_SET, LAST_CLEARED};
    int verb;
    for (verb = 0; verb < VERBS; verb++) {
        int rival = possible(asked, otherwise[verb][0]) ||
                    possible(asked, otherwise[verb][1]);
        int always = judge_has_run(asked) && !rival;
        enum verb which = (enum verb)verb;
        hold(is_always(&loaded, asked, which, fact) == always,
             "\"always\" is said where it is not so, or the other way round");
        hold(mark_of(&loaded, asked, which, fact) ==
                 (always                       ? ON_EVERY_RUN
                  : which != VERB_STANDS &&
                          possible(asked, may[verb])
                      ? ON_SOME_RUNS
                      : ON_NO_RUN),
             "another mark is due");
        if (rival)
            hold(possible(asked, rival_of(&loaded, asked, which, fact)),
                 "no run has what is shown against \"always\"");
    }
}

/* ---- the libraries */

/* How many libraries of a kind are tried, and of how many facts and sequences
 * one is asked about. */
static const struct {
    unsigned libraries, facts, sequences;
} trials[SEEDED_WORDS_KINDS] = {
    {800, 1, 1}, {500, 1, 1}, {500, 1, 1}, {500, 1, 1}, {200, 1, 1},
    {200, 1, 1}, {300, 1, 1}, {8, 1, 1},   {300, 1, 1}, {60, 5, 1},
    {500, 1, 1}, {8, 1, 9},   {6, 1, 9},   {6, 1, 9},   {4, 21, 9},
    {800, 1, 1}, {20, 1, 9}};

/* Of a wide library's facts one in so many is asked about. */
enum { WIDE_APART = 23 };

static void try_library(unsigned kind, int wide)
{
    unsigned apart = wide ? WIDE_APART : trials[kind].facts;
    struct asker *asker;
    int outcome;
    libraries++;
    library_name = seeded_kind(kind);
    loaded.image.length =
        seeded_words(&state, kind, wide, loaded.image.words);
    if (!library_of_image(&loaded.image, &loaded.library))
        exit(1);
    dulimoven_cards(loaded.image.words, loaded.image.length, loaded.cards,
                    DULIMOVEN_MOST_CARD_WORDS);
    read_words();
    judge_library(loaded.image.words, loaded.image.length);
    asker = asker_new(&loaded);
    for (fact = seeded_below(&state, apart); fact < facts; fact += apart) {
        read_fact();
        judge_fact(fact);
        for (outcome = 0; outcome < OUTCOMES; outcome++) {
            reason.outcome = (enum outcome)outcome;
            if (sequences <= 40)
                find_fewest(reason.outcome);
            for (asked = seeded_below(&state, trials[kind].sequences);
                 asked < sequences; asked += trials[kind].sequences) {
                int has = has_outcome(&loaded, asked, (enum outcome)outcome,
                                      fact);
                hold(has == possible(asked, (enum outcome)outcome),
                     "the judge says otherwise");
                if (has && possible(asked, (enum outcome)outcome))
                    try_reason(asker, (enum outcome)outcome);
            }
        }
        for (asked = 0; asked < sequences; asked++)
            try_marks();
    }
    asker_free(asker);
    library_free(&loaded.library);
}

int main(void)
{
    unsigned kind, i;
    /* what was found is printed though a wrong reason should crash */
    setvbuf(stdout, NULL, _IOLBF, 0);
    for (kind = 0; kind < SEEDED_WORDS_KINDS; kind++)
        for (i = 0; i < trials[kind].libraries; i += SHARE)
            try_library(kind, i / SHARE % 3 == 2);
    printf("dlm_reasons_test: %" PRIu64 " libraries, %" PRIu64
           " reasons, %" PRIu64 " lines, %" PRIu64 " of them aside, %" PRIu64
           " failed\n",
           libraries, reasons, lines_seen, asides, failed);
    return failed == 0 ? 0 : 1;
}
