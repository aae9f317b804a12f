/*
 * The calls on worked libraries. What is possible for each sequence, over all
 * of its runs, was worked out by hand from documents 01 and 02: the files of
 * tests/outcomes, one for each slip that document 01 names and more. The card
 * of a sequence must be the one that follows from these outcomes, and a
 * question must be answered "none" exactly where they lack the fact. Asked why
 * it has no run, a sequence with an outcome must get 16, and any other the list
 * of those without an outcome that it reaches. C11 and C++17. Prints a line for
 * each word and each answer that differs, then a count; the exit status is 0
 * where nothing differs.
 *
 * A row says of the runs of a sequence, which its comment lists, what can come
 * of them on the last side, on the first side, and of the last item that names
 * the fact: that it sets, clears, needs or checks it. The words of the steps
 * say which items do. A step that clears the fact clears it, though it needs it
 * too; one that needs or sets it and does not clear it, and a check of it,
 * leave it standing; a run without such an item does not name it. So after
 * <set, need>, <clear, need> and <need> it stands, after <need, clear> and
 * <set, clear> it is cleared, and after <> and <other> it is not named. The
 * union over all runs is the row.
 *
 * Tried: on a copy, bit 0 of each of the eleven words that are expected of a
 * sequence was changed, one at a time, for the 241 sequences outside long.h. Of
 * the 2,651 changes 2,620 were reported, 2,345 by a card, and 1,446 of these by
 * a question too. 275 showed only in that no runs have such outcomes. The 31
 * that were not reported are all in "it leaves it standing", which is the one
 * outcome without a column.
 */
#include "columns.h"
#include "harness.h"
#include "listed.h"
#include "samples.h"

/*
 * What can come of the runs of a sequence. In the first two all facts are in or
 * none. The next six stand in the order of the questions. The last three are of
 * the last item that names the fact: it leaves it standing, it clears it, there
 * is none.
 */
enum {
    RUN,
    EMPTY_RUN,
    LAST_SET,
    LAST_CLEARED,
    LAST_UNTOUCHED,
    FIRST_NEEDED,
    FIRST_SET,
    FIRST_UNTOUCHED,
    STANDING,
    CLEARED,
    UNNAMED,
    OUTCOMES
};
enum { QUESTIONS = 6 };

/* The library under test, and what its sequences are expected to come to. */
static const char *library;
static struct column due[MOST_C][OUTCOMES];
static size_t dues;
static unsigned libraries;

/* Begins a line about what differs. */
static void differs(void)
{
    failed++;
    printf("%s: ", library);
}

static void holds(const char *what, int right)
{
    ran++;
    if (right)
        return;
    differs();
    printf("%s\n", what);
}

/* Begins a library, with its head and steps or without a word. */
static void begin(const char *name)
{
    library = name;
    libraries++;
    dues = 0;
    start();
}

#define LIBRARY(name, ...) \
    do {                   \
        begin(name);       \
        PUT(__VA_ARGS__);  \
    } while (0)

/* A fact, and all facts below `f`, in a library of up to 64 facts. */
#define FACT(f) (UINT64_C(1) << (f))
#define FACTS(f) (~UINT64_C(0) >> (64 - (f)))

static struct column all_facts(void)
{
    return facts_below(facts_of(*word_at(0)));
}

/*
 * What the next sequence comes to: no run; runs with these outcomes, none of
 * them empty; runs and an empty one. An outcome is said by the facts that it is
 * possible for: as a number, bit f for fact f, where there are up to 64, and as
 * a column in a library with more (WIDE_..).
 */
#define LAST(set, cleared, untouched) set, cleared, untouched
#define FIRST(needed, set, untouched) needed, set, untouched
#define STANDS(standing, cleared, unnamed) standing, cleared, unnamed

/* Which runs there are, and what can come of them on the sides. */
static void comes_to(int run, int empty, const struct column *sides)
{
    struct column *next = due[dues];
    if (dues == MOST_C)
        return;
    next[RUN] = run ? all_facts() : low_facts(0);
    next[EMPTY_RUN] = empty ? all_facts() : low_facts(0);
    memcpy(next + LAST_SET, sides, (OUTCOMES - LAST_SET) * sizeof *sides);
    dues++;
}

static void low_comes_to(int run, int empty, const uint64_t *sides)
{
    struct column wide[OUTCOMES - LAST_SET];
    int i;
    for (i = 0; i < OUTCOMES - LAST_SET; i++)
        wide[i] = low_facts(sides[i]);
    comes_to(run, empty, wide);
}

#define COMES_TO(run, empty, ...)                                  \
    do {                                                           \
        const uint64_t sides[OUTCOMES - LAST_SET] = {__VA_ARGS__}; \
        low_comes_to(run, empty, sides);                           \
    } while (0)

#define WIDE_COMES_TO(run, empty, ...)                                  \
    do {                                                                \
        const struct column sides[OUTCOMES - LAST_SET] = {__VA_ARGS__}; \
        comes_to(run, empty, sides);                                    \
    } while (0)

#define RUNS(...) COMES_TO(1, 0, __VA_ARGS__)
#define RUNS_AND_EMPTY(...) COMES_TO(1, 1, __VA_ARGS__)
#define WIDE_RUNS(...) WIDE_COMES_TO(1, 0, __VA_ARGS__)
#define WIDE_RUNS_AND_EMPTY(...) WIDE_COMES_TO(1, 1, __VA_ARGS__)

static void no_run(void)
{
    COMES_TO(0, 0, LAST(0, 0, 0), FIRST(0, 0, 0), STANDS(0, 0, 0));
}

/*
 * The card of a sequence with the outcomes `o`. Document 01, "The card", and
 * document 02, requests 4 and 5:
 *
 * "1. Flags: bit 0, a run exists; bit 1, an empty run exists;" and "bits 8 to
 * 16", by request 8, "the number of facts that are in "may set" or in "may
 * clear"."
 * "2. Always needed: a run exists, and every run first touches the fact by a
 * need." So no run first sets it, and none leaves it untouched on that side.
 * "3. May need: some run does."
 * "4. May set: some run's last touch sets it."
 * "5. May clear: some run's last touch clears it."
 * "6. Always set: a run exists, and every run's last touch sets it." So no
 * run's last touch clears it, and none leaves it untouched on that side.
 * "7. Always cleared: likewise." So none sets it last or leaves it untouched.
 * "an eighth word, "always stands": a run exists, and in every run the last
 * item that sets, clears, needs or checks the fact is there and does not clear
 * it." So in none it clears it, and none is without such an item.
 * "five columns, in this order: some run first sets it; some run leaves it
 * untouched on the first side; on the last side; some run's last item under
 * Item 4's rule clears it; some run has no such item."
 * Without a run all words are 0: `o` has no fact in any word then.
 */
static void card_of(const struct column *o, uint64_t *card)
{
    struct column changeable = union_of(o[LAST_SET], o[LAST_CLEARED]);
    struct column numbers[NUMBERS];
    numbers[0] = low_facts((uint64_t)!is_none(o[RUN]) |
                           (uint64_t)!is_none(o[EMPTY_RUN]) << 1 |
                           count_facts(changeable) << 8);
    numbers[1] = without(without(o[RUN], o[FIRST_SET]), o[FIRST_UNTOUCHED]);
    numbers[2] = o[FIRST_NEEDED];
    numbers[3] = o[LAST_SET];
    numbers[4] = o[LAST_CLEARED];
    numbers[5] = without(without(o[RUN], o[LAST_CLEARED]), o[LAST_UNTOUCHED]);
    numbers[6] = without(without(o[RUN], o[LAST_SET]), o[LAST_UNTOUCHED]);
    numbers[7] = without(without(o[RUN], o[CLEARED]), o[UNNAMED]);
    numbers[8] = o[FIRST_SET];
    numbers[9] = o[FIRST_UNTOUCHED];
    numbers[10] = o[LAST_UNTOUCHED];
    numbers[11] = o[CLEARED];
    numbers[12] = o[UNNAMED];
    lay_out(numbers, card);
}

/* Whether the three outcomes of a side are those of the runs. */
static int sum_up(const struct column *o, int one, int other, int third)
{
    return is_same(union_of(union_of(o[one], o[other]), o[third]), o[RUN]);
}

/* Whether each fact of an outcome is in one of two others. */
static int is_one_of(struct column x, struct column one, struct column other)
{
    return is_within(x, union_of(one, other));
}

/*
 * Whether the last three of the outcomes go with the others. What a run sets
 * last stands after it. Where the last item clears a fact, that is the last
 * touch; a run that does not name a fact leaves it on both sides; one after
 * which a fact stands needs or sets it, so that it does not leave it on the
 * first side.
 */
static int named_right(const struct column *o)
{
    return sum_up(o, STANDING, CLEARED, UNNAMED) &&
           is_within(o[LAST_SET], o[STANDING]) &&
           is_within(o[CLEARED], o[LAST_CLEARED]) &&
           is_within(o[UNNAMED], o[LAST_UNTOUCHED]) &&
           is_within(o[UNNAMED], o[FIRST_UNTOUCHED]) &&
           is_one_of(o[STANDING], o[FIRST_NEEDED], o[FIRST_SET]);
}

/*
 * Whether these can be outcomes at all: a run has one of the three of a side.
 * An empty run, which may have checks, leaves every fact untouched on the last
 * side, and on the first side needs it or leaves it. So none has a fact from F
 * up.
 */
static int possible(const struct column *o)
{
    return (is_none(o[RUN]) || is_same(o[RUN], all_facts())) &&
           (is_none(o[EMPTY_RUN]) || is_same(o[EMPTY_RUN], o[RUN])) &&
           sum_up(o, LAST_SET, LAST_CLEARED, LAST_UNTOUCHED) &&
           sum_up(o, FIRST_NEEDED, FIRST_SET, FIRST_UNTOUCHED) &&
           is_within(o[EMPTY_RUN], o[LAST_UNTOUCHED]) &&
           is_one_of(o[EMPTY_RUN], o[FIRST_NEEDED], o[FIRST_UNTOUCHED]) &&
           is_one_of(o[EMPTY_RUN], o[STANDING], o[UNNAMED]) && named_right(o);
}

/* The card area, with guard words on both sides. */
enum {
    CARDS = DULIMOVEN_MOST_CARD_WORDS,
    CARD_AREA = GUARD + CARDS + GUARD
};
static uint64_t card_area[CARD_AREA];

static uint64_t stays(size_t i)
{
    return UINT64_C(0xabad1dea00000000) + i;
}

/* Compares the card of sequence `c`, which has no fact from F up. */
static void compare_card(size_t c)
{
    const uint64_t *found = card_area + GUARD + DULIMOVEN_CARD_WORDS * c;
    uint64_t card[DULIMOVEN_CARD_WORDS];
    struct column columns = low_facts(0);
    size_t i;
    int column;
    card_of(due[c], card);
    for (i = 0; i < DULIMOVEN_CARD_WORDS; i++) {
        ran++;
        if (found[i] == card[i])
            continue;
        differs();
        printf("sequence %u, word %u of the card: expected %" PRIx64
               ", found %" PRIx64 "\n",
               (unsigned)c, (unsigned)i, card[i], found[i]);
    }
    for (column = 1; column < NUMBERS; column++)
        columns = union_of(columns, column_of(found, column));
    holds("a card has a fact from F up", is_within(columns, all_facts()));
}

/* Compares the cards of all sequences, in an area of just their words. */
static void compare_cards(void)
{
    size_t length = DULIMOVEN_CARD_WORDS * dues;
    int stayed = 1;
    size_t i;
    for (i = 0; i < CARD_AREA; i++)
        card_area[i] = stays(i);
    holds("the cards' answer is not C",
          dulimoven_cards(area + GUARD, words, card_area + GUARD, length) ==
              dues);
    for (i = 0; i < dues; i++)
        compare_card(i);
    for (i = 0; i < CARD_AREA; i++)
        if (i < GUARD || i >= GUARD + length)
            stayed &= card_area[i] == stays(i);
    holds("a word beside the cards is changed", stayed);
}

/*
 * Asks a question of sequence `c`, in an area of two words for each sequence:
 * "none" exactly where the outcome lacks the fact.
 */
static void ask(size_t c, uint64_t question, uint64_t fact)
{
    uint32_t chain[DULIMOVEN_MOST_CHAIN_WORDS];
    int some = is_in((uint32_t)fact, due[c][LAST_SET + question]);
    uint64_t answer = dulimoven_chain(area + GUARD, words, c, question, fact,
                                      chain, DULIMOVEN_LINK_WORDS * dues);
    ran++;
    if (some ? answer >= 1 && answer <= dues : answer == 0)
        return;
    differs();
    printf("sequence %u, question %u, fact %u: expected %s, answered %" PRIx64
           "\n",
           (unsigned)c, (unsigned)question, (unsigned)fact,
           some ? "a chain" : "none", answer);
}

/*
 * All six questions about each fact, asked of each sequence. Where that were
 * tens of thousands, and there are more than eight sequences, they are asked of
 * the first, the last and one in 37.
 */
static void ask_all(void)
{
    uint32_t facts = facts_of(*word_at(0));
    size_t apart = dues * facts <= 512 || dues <= 8 ? 1 : 37;
    size_t c;
    uint64_t question;
    uint64_t fact;
    for (c = 0; c < dues; c++)
        if (c % apart == 0 || c == dues - 1)
            for (fact = 0; fact < facts; fact++)
                for (question = 0; question < QUESTIONS; question++)
                    ask(c, question, fact);
}

/* Which sequences have a run, as the outcomes say. */
static unsigned char runs[MOST_C];

/* Asks why sequence `c` has no run, in an area of a word for each sequence. */
static void ask_why(uint32_t c)
{
    uint32_t found[DULIMOVEN_MOST_ENDLESS_WORDS];
    uint32_t list[DULIMOVEN_MOST_ENDLESS_WORDS];
    size_t count = list_of(area + GUARD, words, runs, c, list);
    uint64_t expected = runs[c] ? REFUSED(16, 0) : count;
    uint64_t answer =
        dulimoven_endless(area + GUARD, words, c, found, dues);
    ran++;
    if (answer == expected &&
        (runs[c] || (memcmp(found, list, count * sizeof list[0]) == 0 &&
                     list_supports(area + GUARD, words, found, count))))
        return;
    differs();
    printf("sequence %u, why it has no run: expected %" PRIx64
           " and these members, answered %" PRIx64 "\n",
           (unsigned)c, expected, answer);
}

static void ask_why_all(void)
{
    uint32_t c;
    for (c = 0; c < dues; c++)
        runs[c] = !is_none(due[c][RUN]);
    for (c = 0; c < dues; c++)
        ask_why(c);
}

/* Ends a library, and holds the calls on it to what is expected. */
static void judge(void)
{
    uint64_t answer;
    size_t i;
    put_sum();
    keep();
    answer = dulimoven_check(area + GUARD, words);
    ran++;
    if (answer != payload_of(*word_at(0))) {
        differs();
        printf("the check answered %" PRIx64 "\n", answer);
        return;
    }
    ran++;
    if (dues != sequences_of(*word_at(0))) {
        differs();
        printf("outcomes of %u sequences are expected\n", (unsigned)dues);
        return;
    }
    for (i = 0; i < dues; i++)
        holds("these are no outcomes", possible(due[i]));
    compare_cards();
    ask_all();
    ask_why_all();
    kept(library);
}

/* Step 0 sets fact 0, step 1 clears it, step 2 needs it. */
#define SET_CLEAR_NEED STEP(0), SETS(0), STEP(1), CLEARS(0), STEP(2), NEEDS(0)

/* Step 0 sets fact 0, step 1 has no fact, step 2 needs fact 0, step 3 clears
 * it. */
#define SET_NONE_NEED_CLEAR \
    STEP(0), SETS(0), STEP(1), STEP(2), NEEDS(0), STEP(3), CLEARS(0)

/* The libraries. After the words of a sequence stands what it comes to. */
#include "outcomes/calls.h"
#include "outcomes/checks.h"
#include "outcomes/endless.h"
#include "outcomes/facts.h"
#include "outcomes/long.h"
#include "outcomes/past.h"
#include "outcomes/steps.h"
#include "outcomes/untouched.h"
#include "outcomes/wide.h"

int main(void)
{
    endless();
    untouched();
    past();
    steps();
    calls();
    facts();
    checks();
    wide();
    wide_blocks();
    wide_rings();
    calls_in_a_row();
    neighbours();
    rings();
    endless_many();
    full_images();
    printf("outcomes_test: %u libraries, %u checks, %u failed\n", libraries,
           ran, failed);
    return failed == 0 ? 0 : 1;
}
