/*
 * Document 01, "Chains", and document 02, requests 2, 4 and 7. A sequence is a
 * compound task of the domain, an alternative a method, an entry a task, a step
 * or a check an action. So a check ends a chain of question 3 about its fact,
 * and stays untouched otherwise, with depth 0 as a step.
 *
 * Ranks are found by rounds. Round r looks at the ranks of the rounds before
 * it alone, and gives rank r to each sequence that has none yet and one of
 * whose alternatives now comes to what is asked for. So a rank is the least
 * depth of a derivation, or the fewest links of a chain. 0 is no rank.
 */
#include "judge.h"

#include "../listed.h"
#include "domain.h"
#include "dulimoven.h"

#include <string.h>

static const uint32_t *image;
static size_t length;
static struct domain library;
/* the alternatives of sequence c: from first[c] up to and without first[c+1] */
static uint32_t first[MOST_SEQUENCES + 1];
static struct actions actions;

/* A rank for each sequence, with the newest choice that gives it. */
struct ranks {
    uint32_t rank[MOST_SEQUENCES];
    uint32_t alternative[MOST_SEQUENCES];
    uint32_t position[MOST_SEQUENCES];
};

/* Which sequences have a run, and for each question its ranks. */
static struct ranks runs;
static struct ranks asked[JUDGE_QUESTIONS];

/*
 * The sides: what an action does that touches the fact there, and the question
 * about no touch. The standing view is read as the last side is.
 */
struct side {
    unsigned touches;
    uint32_t untouched;
    int first;
};

static const struct side last_side = {ADD | DEL, DULIMOVEN_LAST_UNTOUCHED, 0};
static const struct side first_side = {PREC | FIRST_ADD,
                                       DULIMOVEN_FIRST_UNTOUCHED, 1};
static const struct side standing = {STAND | DEL, JUDGE_STANDING_UNTOUCHED, 0};

static const struct side *side_of(uint32_t question)
{
    if (question >= JUDGE_STANDING_CLEARED)
        return &standing;
    return question >= DULIMOVEN_FIRST_NEEDED ? &first_side : &last_side;
}

/* What an action does that gives the question's touch; 0 for "untouched". */
static unsigned touch(uint32_t question)
{
    switch (question) {
    case DULIMOVEN_LAST_SET:
        return ADD;
    case DULIMOVEN_LAST_CLEARED:
    case JUDGE_STANDING_CLEARED:
        return DEL;
    case DULIMOVEN_FIRST_NEEDED:
        return PREC;
    case DULIMOVEN_FIRST_SET:
        return FIRST_ADD;
    default:
        return 0;
    }
}

/* The ranks of "untouched" on the question's side. */
static const struct ranks *untouched(uint32_t question)
{
    return &asked[side_of(question)->untouched];
}

/* Whether an entry passes: an action that does not touch, or one with rank. */
static int passes(const struct task *t, const struct ranks *ranks,
                  unsigned touching)
{
    return t->is_action ? (does(&actions, t) & touching) == 0
                        : ranks->rank[t->number] != 0;
}

/* Whether an entry has a run. */
static int has_run(const struct task *t) { return passes(t, &runs, 0); }

/* Whether it can stay untouched on the question's side. */
static int stays(const struct task *t, uint32_t question)
{
    return passes(t, untouched(question), side_of(question)->touches);
}

/*
 * Whether an entry before the position, or one after it, is as the link asks:
 * "On the last side every later entry can stay untouched and every earlier
 * sequence has a run; on the first side the other way round."
 */
static int beside_right(const struct task *t, int earlier, uint32_t question)
{
    return earlier == side_of(question)->first ? stays(t, question)
                                               : has_run(t);
}

static const struct method *alternative_of(uint32_t c, uint32_t alternative)
{
    return &library.method[first[c] + alternative];
}

static uint32_t alternatives_of(uint32_t c) { return first[c + 1] - first[c]; }

static uint32_t entries_of(const struct method *m)
{
    return (uint32_t)(m->end - m->begin);
}

/* Whether all entries of an alternative pass. */
static int all_pass(const struct method *m, const struct ranks *ranks,
                    unsigned touching)
{
    uint32_t i;
    for (i = m->begin; i < m->end; i++)
        if (!passes(&library.task[i], ranks, touching))
            return 0;
    return 1;
}

/*
 * The positions of an alternative beside which all entries are right: from
 * `from` up to and without `to`.
 */
struct positions {
    uint32_t from, to;
};

static struct positions allowed(const struct method *m, uint32_t question)
{
    const struct task *t = library.task + m->begin;
    uint32_t n = entries_of(m);
    struct positions p = {0, 0};
    uint32_t i;
    for (i = n; i > 0 && beside_right(&t[i - 1], 0, question); i--)
        ;
    p.from = i > 0 ? i - 1 : 0;
    while (p.to < n && beside_right(&t[p.to], 1, question))
        p.to++;
    p.to += p.to < n;
    return p;
}

/* Whether an entry ends a chain with the question's touch. */
static int ends(const struct task *t, uint32_t question)
{
    return (does(&actions, t) & touch(question)) != 0;
}

/*
 * The lowest position of an alternative from which a chain goes on with `left`
 * more links, 0 being an entry that ends it; or the number of its entries.
 */
static uint32_t lowest_position(const struct method *m, uint32_t question,
                                uint32_t left)
{
    const struct ranks *ranks = &asked[question];
    const struct task *t = library.task + m->begin;
    struct positions p = allowed(m, question);
    uint32_t i;
    for (i = p.from; i < p.to; i++)
        if (left == 0 ? ends(&t[i], question)
                      : !t[i].is_action && ranks->rank[t[i].number] == left)
            return i;
    return entries_of(m);
}

/* What the rounds look for: all entries that pass, or a position. */
struct look {
    const struct ranks *ranks;
    unsigned touching;
    uint32_t question;
    int for_position;
};

/* Whether an alternative comes to it in a round, and at which position. */
static int comes_to(const struct method *m, const struct look *look,
                    uint32_t round, uint32_t *position)
{
    *position = 0;
    if (!look->for_position)
        return all_pass(m, look->ranks, look->touching);
    *position = lowest_position(m, look->question, round - 1);
    return *position < entries_of(m);
}

/*
 * One look at a sequence in a round: its rank after it, 0 where it has none.
 * All alternatives that come to it in this round are equally good, and the last
 * of them stays: "Among equally good choices a link takes the highest
 * alternative, then the lowest position. This holds for kind 12 links too.
 * Fewest links, and for kind 12 least nesting depth, still come first."
 */
static uint32_t look_at(struct ranks *ranks, uint32_t c,
                        const struct look *look, uint32_t round)
{
    uint32_t alternative, position, found = 0;
    for (alternative = 0; alternative < alternatives_of(c); alternative++)
        if (comes_to(alternative_of(c, alternative), look, round, &position)) {
            ranks->alternative[c] = alternative;
            ranks->position[c] = position;
            found = round;
        }
    return found;
}

/* Rounds until one finds nothing. */
static void rank(struct ranks *ranks, const struct look *look)
{
    static uint32_t found[MOST_SEQUENCES];
    uint32_t c, round;
    int changed = 1;
    memset(ranks->rank, 0, sizeof ranks->rank);
    for (round = 1; changed; round++) {
        changed = 0;
        for (c = 0; c < library.compounds; c++)
            found[c] = ranks->rank[c] == 0 ? look_at(ranks, c, look, round) : 0;
        for (c = 0; c < library.compounds; c++)
            if (found[c] != 0) {
                ranks->rank[c] = round;
                changed = 1;
            }
    }
}

static void rank_passing(struct ranks *ranks, unsigned touching)
{
    struct look look = {ranks, touching, 0, 0};
    rank(ranks, &look);
}

static void rank_untouched(const struct side *side)
{
    rank_passing(&asked[side->untouched], side->touches);
}

static void rank_question(uint32_t question)
{
    struct look look = {NULL, 0, question, 1};
    rank(&asked[question], &look);
}

void judge_library(const uint32_t *words, size_t count)
{
    uint32_t c, m = 0;
    image = words;
    length = count;
    read_domain(image, length, &library);
    for (c = 0; c < library.compounds; c++) {
        first[c] = m;
        while (m < library.methods && library.method[m].c == c)
            m++;
    }
    first[c] = m;
    rank_passing(&runs, 0);
}

void judge_fact(uint32_t fact)
{
    read_actions(image, length, fact, &actions);
    rank_untouched(&last_side);
    rank_untouched(&first_side);
    rank_untouched(&standing);
    rank_question(DULIMOVEN_LAST_SET);
    rank_question(DULIMOVEN_LAST_CLEARED);
    rank_question(DULIMOVEN_FIRST_NEEDED);
    rank_question(DULIMOVEN_FIRST_SET);
    rank_question(JUDGE_STANDING_CLEARED);
}

int judge_possible(uint32_t sequence, uint32_t question)
{
    return asked[question].rank[sequence] != 0;
}

int judge_has_run(uint32_t sequence) { return runs.rank[sequence] != 0; }

/* Whether the words of the area from index `from` on are as they were. */
static int unchanged(const uint32_t *area, size_t from, size_t area_len)
{
    while (from < area_len)
        if (area[from++] != JUDGE_BEFORE)
            return 0;
    return 1;
}

/*
 * What is wrong with a kind 12 link: "It names the alternative of the untouched
 * derivation of least nesting depth", ties to the highest.
 */
static enum fault untouched_fault(uint32_t c, uint32_t question,
                                  const uint32_t *link)
{
    uint32_t alternative = chosen_alternative(link[0]);
    if (link[1] != word_of(KIND_UNTOUCHED, 0))
        return FAULT_SECOND_WORD;
    if (!all_pass(alternative_of(c, alternative), untouched(question),
                  side_of(question)->touches))
        return FAULT_UNTOUCHED;
    if (alternative != asked[question].alternative[c])
        return FAULT_NOT_NEWEST;
    return NO_FAULT;
}

/* Whether the entries beside a position are all right. */
static int stands(const struct method *m, uint32_t position, uint32_t question)
{
    const struct task *t = library.task + m->begin;
    uint32_t i;
    for (i = 0; i < entries_of(m); i++)
        if (i != position && !beside_right(&t[i], i < position, question))
            return 0;
    return 1;
}

/*
 * What is wrong with a kind 11 link: "the entry at the position is a step with
 * that touch, which ends the chain, or a sequence, which the next link is
 * about"; of a check "On the first side a check counts as a need, and a chain
 * may end on one."
 */
static enum fault position_fault(uint32_t c, uint32_t question,
                                 const uint32_t *link, int last)
{
    uint32_t alternative = chosen_alternative(link[0]);
    uint32_t position = payload_of(link[1]);
    const struct method *m = alternative_of(c, alternative);
    const struct task *t;
    if (kind_of(link[1]) != KIND_POSITION || position >= entries_of(m))
        return FAULT_SECOND_WORD;
    if (!stands(m, position, question))
        return FAULT_BESIDE;
    t = &library.task[m->begin + position];
    if (last ? !ends(t, question) : t->is_action)
        return FAULT_ENTRY;
    if (alternative != asked[question].alternative[c] ||
        position != asked[question].position[c])
        return FAULT_NOT_NEWEST;
    return NO_FAULT;
}

/* What is wrong with a link, which is to be about sequence c. */
static enum fault link_fault(uint32_t c, uint32_t question,
                             const uint32_t *link, int last)
{
    uint32_t alternative = chosen_alternative(link[0]);
    if (link[0] != choice_word(c, alternative) ||
        alternative >= alternatives_of(c))
        return FAULT_FIRST_WORD;
    if (touch(question) == 0)
        return untouched_fault(c, question, link);
    return position_fault(c, question, link, last);
}

/* The sequence that the link after this one is to be about. */
static uint32_t next_sequence(uint32_t c, const uint32_t *link)
{
    const struct method *m = alternative_of(c, chosen_alternative(link[0]));
    return library.task[m->begin + payload_of(link[1])].number;
}

/* What is wrong with the first link of a chain that is not right. */
static enum fault links_fault(uint32_t c, uint32_t question, uint64_t links,
                              const uint32_t *link)
{
    enum fault fault = NO_FAULT;
    for (; links > 0 && fault == NO_FAULT; links--) {
        fault = link_fault(c, question, link, links == 1);
        if (links > 1 && fault == NO_FAULT)
            c = next_sequence(c, link);
        link += DULIMOVEN_LINK_WORDS;
    }
    return fault;
}

/* How many links a chain is to have, 0 where no run has the outcome. */
static uint64_t fewest(uint32_t c, uint32_t question)
{
    uint32_t r = asked[question].rank[c];
    return touch(question) == 0 && r != 0 ? 1 : r;
}

enum fault judge_answer(uint32_t sequence, uint32_t question, uint64_t answer,
                        const uint32_t *area, size_t area_len)
{
    if (dulimoven_is_refusal(answer))
        return FAULT_REFUSED;
    if (answer == 0 && judge_possible(sequence, question))
        return FAULT_MISSED;
    if (answer != 0 && !judge_possible(sequence, question))
        return FAULT_INVENTED;
    if (answer > area_len / DULIMOVEN_LINK_WORDS)
        return FAULT_TOO_LONG;
    if (!unchanged(area, DULIMOVEN_LINK_WORDS * (size_t)answer, area_len))
        return FAULT_CHANGED;
    if (answer != fewest(sequence, question))
        return FAULT_NOT_FEWEST;
    return links_fault(sequence, question, answer, area);
}

/*
 * What is wrong with a list: "Give the list, in rising order, of all sequences
 * without a run that the asked one reaches through entries of sequences without
 * a run, itself included. Every alternative of each listed sequence names a
 * listed one."
 */
static enum fault members_fault(uint32_t sequence, const uint32_t *list,
                                size_t count)
{
    uint32_t due[MOST_SEQUENCES];
    unsigned char has[MOST_SEQUENCES];
    uint32_t c;
    for (c = 0; c < library.compounds; c++)
        has[c] = (unsigned char)judge_has_run(c);
    if (!list_rises(list, count))
        return FAULT_NOT_RISING;
    if (!list_supports(image, length, list, count))
        return FAULT_UNSUPPORTED;
    if (list_of(image, length, has, sequence, due) != count ||
        memcmp(list, due, count * sizeof due[0]) != 0)
        return FAULT_MEMBERS;
    return NO_FAULT;
}

enum fault judge_list(uint32_t sequence, uint64_t answer, const uint32_t *area,
                      size_t area_len)
{
    int refused = answer == (uint64_t)DULIMOVEN_HAS_RUN << 32;
    if (refused != judge_has_run(sequence))
        return refused ? FAULT_UNLISTED : FAULT_LISTED;
    if (refused)
        return unchanged(area, 0, area_len) ? NO_FAULT : FAULT_CHANGED;
    if (dulimoven_is_refusal(answer))
        return FAULT_REFUSED;
    if (answer > area_len)
        return FAULT_TOO_LONG;
    if (!unchanged(area, (size_t)answer, area_len))
        return FAULT_CHANGED;
    return members_fault(sequence, area, (size_t)answer);
}

const char *fault_text(enum fault fault)
{
    static const char *const text[] = {
        "nothing",
        "refused",
        "none, and a run has the outcome",
        "a chain, and no run has the outcome",
        "more than the area has room for",
        "words past what is written are changed",
        "the links are not the fewest",
        "a link is about another sequence, or about no alternative",
        "a link's second word is of a wrong kind, or names no entry",
        "a link's alternative cannot stay untouched",
        "beside a link's entry another touches the fact, or has no run",
        "a link's entry does not give the touch, or is no sequence",
        "a link is not the newest choice",
        "the sequence has a run, and the answer is not 16",
        "the sequence has no run, and the answer is 16",
        "the list does not rise",
        "an alternative of a listed sequence names no listed one",
        "the list is not that of what the sequence reaches"};
    return text[fault];
}
