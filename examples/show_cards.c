/*
 * Prints the cards of a library image in words, and behind a card why it does
 * not say "always": for the facts that the sequence may need, set or clear and
 * does not always, how a run comes to do otherwise. Behind "no run" stands why
 * there is none: the sequences that keep it from one.
 *
 *     bash build library
 *     gcc -Iinclude examples/show_cards.c \
 *         target/staticlib/libdulimoven.a -o target/show_cards
 *     target/show_cards examples/setup.image
 *
 * One run is reason enough. It is one that leaves the fact untouched where
 * there is such a run, and otherwise one with the other touch. Facts with the
 * same reason share it.
 *
 * A chain to a step is printed link by link. Where a link says that a sequence
 * leaves the fact untouched, the question goes on: the same is asked of the
 * sequences that its alternative calls, down to alternatives that are empty or
 * never touch the fact. It goes on too where a link to a step asks this of
 * other entries: of those after its position on the last side, of those before
 * it on the first. A called sequence that never touches the fact is passed
 * over, as a step is. Of the others each has one line in a reason, however
 * often it is called, and after 16 such lines the asking stops with "and so
 * on".
 *
 * Where an alternative leaves the fact untouched and checks it, the line says
 * so: it is taken only where the fact stands.
 *
 * A sequence without a run is listed with those without a run that it reaches.
 * Each of their alternatives calls one of them, so that none is the first to
 * have a run; which have no alternative at all is said too.
 *
 * Facts in a row, four or more of them, are printed as the first and the last:
 * 1-62 are the facts 1 to 62.
 *
 * A file that cannot be read, and an image that is refused, get a line on
 * standard error and exit status 1.
 */
#include "dulimoven.h"

#include <stdio.h>
#include <string.h>

/* The columns of a card by their numbers, which count from 1. */
static const char *const names[1 + DULIMOVEN_COLUMNS] = {
    "",
    "always needed",
    "may need",
    "may set",
    "may clear",
    "always set",
    "always cleared",
    "always stands",
    "may first set",
    "may first leave untouched",
    "may last leave untouched",
    "may end cleared",
    "may end unmentioned"};

/*
 * The "always" columns that have questions, each with the "may" column beside
 * it and the two questions whose chains break its rule, in the order in which
 * they are asked.
 */
enum { COLUMNS = 3 };
static const struct column {
    int always, may, questions[2];
} columns[COLUMNS] = {
    {DULIMOVEN_ALWAYS_NEEDED,
     DULIMOVEN_MAY_NEED,
     {DULIMOVEN_FIRST_UNTOUCHED, DULIMOVEN_FIRST_SET}},
    {DULIMOVEN_ALWAYS_SET,
     DULIMOVEN_MAY_SET,
     {DULIMOVEN_LAST_UNTOUCHED, DULIMOVEN_LAST_CLEARED}},
    {DULIMOVEN_ALWAYS_CLEARED,
     DULIMOVEN_MAY_CLEAR,
     {DULIMOVEN_LAST_UNTOUCHED, DULIMOVEN_LAST_SET}}};

/*
 * By question: what a run with that outcome does, and what is done where the
 * asking ends, by a step or by an alternative.
 */
static const struct {
    const char *run, *when, *end;
} outcomes[6] = {{"sets", " last", "sets"},
                 {"clears", " last", "clears"},
                 {"neither sets nor clears", "", "never sets or clears"},
                 {"needs", " first", "needs"},
                 {"sets", " first", "sets"},
                 {"neither needs nor sets", "", "never needs or sets"}};

/* The library and its cards. */
static uint32_t image[DULIMOVEN_MOST_IMAGE_WORDS];
static size_t words;
static uint64_t cards[DULIMOVEN_MOST_CARD_WORDS];

/*
 * Why a sequence does not always touch a fact: the question that has a chain,
 * and links. A chain to a step has its links here, each followed by those of
 * kind 12 for the other entries that it asks to leave the fact untouched. Of
 * kind 12 there are `untouched`, and where `cut` there would be more.
 */
enum { MOST_UNTOUCHED = 16 };
enum { MOST_LINKS = DULIMOVEN_MOST_SEQUENCES + MOST_UNTOUCHED };
static struct reason {
    uint32_t fact;
    int question, untouched, cut;
    size_t count;
    uint32_t links[MOST_LINKS][DULIMOVEN_LINK_WORDS];
} reasons[DULIMOVEN_MOST_FACTS];

/*
 * Reads the words of an image, each as four bytes with the lowest first. A file
 * of other bytes, or of more than an image can have, counts as one without a
 * word, which the check refuses.
 */
static int read_image(const char *name)
{
    static unsigned char bytes[4 * DULIMOVEN_MOST_IMAGE_WORDS + 1];
    FILE *file = fopen(name, "rb");
    size_t count, i;
    int bad;
    if (file == NULL)
        return 0;
    count = fread(bytes, 1, sizeof bytes, file);
    bad = ferror(file);
    fclose(file);
    words = count % 4 == 0 ? count / 4 : 0;
    for (i = 0; i < words; i++)
        image[i] = (uint32_t)bytes[4 * i] | (uint32_t)bytes[4 * i + 1] << 8 |
                   (uint32_t)bytes[4 * i + 2] << 16 |
                   (uint32_t)bytes[4 * i + 3] << 24;
    return !bad;
}

static uint32_t kind_of(uint32_t word)
{
    return word >> 28;
}

/* The number of what a word opens, or of what an entry names: a step, a
 * sequence, or the fact of a check. */
static uint32_t number_of(uint32_t word)
{
    return word & 0xfffffffu;
}

static int is_entry(uint32_t word)
{
    return kind_of(word) == DULIMOVEN_KIND_STEP_ENTRY ||
           kind_of(word) == DULIMOVEN_KIND_SEQUENCE_ENTRY ||
           kind_of(word) == DULIMOVEN_KIND_CHECK;
}

/* The word after the opener of a sequence. */
static const uint32_t *body_of(uint32_t sequence)
{
    const uint32_t *word = image;
    while (kind_of(*word) != DULIMOVEN_KIND_SEQUENCE ||
           number_of(*word) != sequence)
        word++;
    return word + 1;
}

/* Entries in a row. */
struct entries {
    const uint32_t *begin, *end;
};

/* The entries of the alternative that a link takes. */
static struct entries entries_of(const uint32_t *link)
{
    struct entries entries;
    const uint32_t *word = body_of(dulimoven_link_sequence(link));
    uint32_t alternatives = dulimoven_link_alternative(link) + 1;
    for (; alternatives > 0; word++)
        if (kind_of(*word) == DULIMOVEN_KIND_ALTERNATIVE)
            alternatives--;
    entries.begin = entries.end = word;
    while (is_entry(*entries.end))
        entries.end++;
    return entries;
}

static int is_first_side(int question)
{
    return question >= DULIMOVEN_FIRST_NEEDED;
}

/* The question on the same side that asks for no touch. */
static int untouched_beside(int question)
{
    return is_first_side(question) ? DULIMOVEN_FIRST_UNTOUCHED
                                   : DULIMOVEN_LAST_UNTOUCHED;
}

static const uint64_t *card_of(uint32_t sequence)
{
    return cards + DULIMOVEN_CARD_WORDS * sequence;
}

/*
 * Whether an entry is a sequence that can touch the reason's fact on its side:
 * need or set it first, or set or clear it last.
 */
static int can_touch(const struct reason *reason, uint32_t entry)
{
    const uint64_t *card;
    if (kind_of(entry) != DULIMOVEN_KIND_SEQUENCE_ENTRY)
        return 0;
    card = card_of(number_of(entry));
    if (is_first_side(reason->question))
        return dulimoven_card_has(card, DULIMOVEN_MAY_NEED, reason->fact) ||
               dulimoven_card_has(card, DULIMOVEN_MAY_FIRST_SET, reason->fact);
    return dulimoven_card_has(card, DULIMOVEN_MAY_SET, reason->fact) ||
           dulimoven_card_has(card, DULIMOVEN_MAY_CLEAR, reason->fact);
}

/* Whether the reason has the link that says how a sequence stays untouched. */
static int has_untouched(const struct reason *reason, uint32_t sequence)
{
    size_t i;
    for (i = 0; i < reason->count; i++)
        if (dulimoven_link_untouched(reason->links[i]) &&
            dulimoven_link_sequence(reason->links[i]) == sequence)
            return 1;
    return 0;
}

static void add_entries(struct reason *reason, struct entries entries);

/* Adds how a sequence stays untouched: its link, and then those it calls. */
static void add_untouched(struct reason *reason, uint32_t sequence)
{
    int question = untouched_beside(reason->question);
    uint32_t *link = reason->links[reason->count];
    if (has_untouched(reason, sequence))
        return;
    reason->cut = reason->untouched == MOST_UNTOUCHED;
    if (reason->cut)
        return;
    dulimoven_chain(image, words, sequence, (uint64_t)question, reason->fact,
                    link, DULIMOVEN_LINK_WORDS);
    reason->untouched++;
    reason->count++;
    add_entries(reason, entries_of(link));
}

static void add_entries(struct reason *reason, struct entries entries)
{
    for (; entries.begin < entries.end; entries.begin++)
        if (can_touch(reason, *entries.begin))
            add_untouched(reason, number_of(*entries.begin));
}

/* Adds a link to a step or a sequence, and the entries it asks to stay so. */
static void add_link(struct reason *reason, const uint32_t *link)
{
    struct entries entries = entries_of(link);
    const uint32_t *entry = entries.begin + dulimoven_link_position(link);
    memcpy(reason->links[reason->count++], link, sizeof reason->links[0]);
    if (is_first_side(reason->question))
        entries.end = entry;
    else
        entries.begin = entry + 1;
    add_entries(reason, entries);
}

/* Finds why a sequence with a run does not always touch a fact as a column
 * says: one of the column's two questions has a chain. */
static void find_reason(struct reason *reason, uint32_t sequence,
                        const struct column *column, uint32_t fact)
{
    uint32_t chain[DULIMOVEN_MOST_CHAIN_WORDS];
    const uint32_t *link = chain;
    uint64_t links = 0;
    int i;
    reason->fact = fact;
    reason->untouched = reason->cut = 0;
    reason->count = 0;
    for (i = 0; i < 2 && links == 0; i++) {
        reason->question = column->questions[i];
        links = dulimoven_chain(image, words, sequence,
                                (uint64_t)reason->question, fact, chain,
                                DULIMOVEN_MOST_CHAIN_WORDS);
    }
    if (dulimoven_link_untouched(chain))
        add_untouched(reason, sequence);
    else
        for (; links > 0; links--, link += DULIMOVEN_LINK_WORDS)
            add_link(reason, link);
}

/* Whether the alternative that a link takes checks the reason's fact. */
static int checks_fact(const struct reason *reason, const uint32_t *link)
{
    struct entries entries = entries_of(link);
    for (; entries.begin < entries.end; entries.begin++)
        if (kind_of(*entries.begin) == DULIMOVEN_KIND_CHECK &&
            number_of(*entries.begin) == reason->fact)
            return 1;
    return 0;
}

/* Whether two reasons with the same links check their facts in the same. */
static int same_checks(const struct reason *one, const struct reason *other)
{
    size_t i;
    for (i = 0; i < one->count; i++)
        if (checks_fact(one, one->links[i]) !=
            checks_fact(other, other->links[i]))
            return 0;
    return 1;
}

/* Whether two reasons are the same. Where one is cut, that cannot be told. */
static int same_reason(const struct reason *one, const struct reason *other)
{
    return !one->cut && !other->cut && one->question == other->question &&
           one->count == other->count &&
           memcmp(one->links, other->links,
                  one->count * sizeof one->links[0]) == 0 &&
           same_checks(one, other);
}

/* Prints which sequences an alternative calls that can touch the fact, each
 * once, and answers how many. */
static int print_called(const struct reason *reason, struct entries entries)
{
    char seen[DULIMOVEN_MOST_SEQUENCES] = {0};
    int count = 0;
    for (; entries.begin < entries.end; entries.begin++) {
        uint32_t called = number_of(*entries.begin);
        if (!can_touch(reason, *entries.begin) || seen[called])
            continue;
        seen[called] = 1;
        printf(count == 0 ? "calls sequence %u" : ", %u", called);
        count++;
    }
    return count;
}

/* What a link of kind 12 says: whether the alternative checks the fact, and
 * what it calls, or why it ends. */
static void print_untouched(const struct reason *reason, const uint32_t *link,
                            const char *it)
{
    struct entries entries = entries_of(link);
    int question = untouched_beside(reason->question);
    printf(", which ");
    if (checks_fact(reason, link))
        printf("checks %s and ", it);
    if (entries.begin == entries.end)
        printf("is empty");
    else if (print_called(reason, entries) == 0)
        printf("%s %s", outcomes[question].end, it);
}

/* What a link of kind 11 says: the entry that gives the touch. */
static void print_touch(const struct reason *reason, const uint32_t *link,
                        const char *it)
{
    uint32_t position = dulimoven_link_position(link);
    uint32_t entry = entries_of(link).begin[position];
    printf(", where position %u", position);
    if (kind_of(entry) == DULIMOVEN_KIND_SEQUENCE_ENTRY)
        printf(" calls sequence %u", number_of(entry));
    else if (kind_of(entry) == DULIMOVEN_KIND_CHECK)
        printf(" checks %s", it);
    else
        printf(", step %u, %s %s", number_of(entry),
               outcomes[reason->question].end, it);
}

/* The lines of a reason. What a link asks of other entries stands under it. */
static void print_links(const struct reason *reason, const char *it)
{
    int to_step = !dulimoven_link_untouched(reason->links[0]);
    const char *beside = is_first_side(reason->question) ? "      before that, "
                                                         : "      after that, ";
    size_t i;
    for (i = 0; i < reason->count; i++) {
        const uint32_t *link = reason->links[i];
        int untouched = dulimoven_link_untouched(link);
        printf("%ssequence %u takes alternative %u",
               untouched && to_step ? beside : "    ",
               dulimoven_link_sequence(link), dulimoven_link_alternative(link));
        if (untouched)
            print_untouched(reason, link, it);
        else
            print_touch(reason, link, it);
        printf("\n");
    }
    if (reason->cut)
        printf("%sand so on\n", to_step ? "      " : "    ");
}

/* Prints the facts that are marked, and answers how many they are. */
static int print_facts(const char *marked)
{
    enum { IN_A_ROW = 4 };
    uint32_t fact, next;
    int count = 0;
    for (fact = 0; fact < DULIMOVEN_MOST_FACTS; fact = next + 1) {
        for (next = fact; next < DULIMOVEN_MOST_FACTS && marked[next]; next++)
            count++;
        if (next >= fact + IN_A_ROW)
            printf(" %u-%u", fact, next - 1);
        else
            for (; fact < next; fact++)
                printf(" %u", fact);
    }
    return count;
}

/* Prints the reason's fact and those of the missing ones that have the same
 * reason. They are not missing any more. Answers how many they are. */
static int print_facts_with(const struct reason *reason, char *missing)
{
    char marked[DULIMOVEN_MOST_FACTS];
    uint32_t fact;
    for (fact = 0; fact < DULIMOVEN_MOST_FACTS; fact++) {
        marked[fact] = fact == reason->fact ||
                       (missing[fact] && same_reason(reason, reasons + fact));
        if (marked[fact])
            missing[fact] = 0;
    }
    return print_facts(marked);
}

/* A reason, with the facts that have it missing from a column. */
static void print_reason(const struct reason *reason, int always, char *missing)
{
    const char *it;
    printf("  not %s", names[always]);
    it = print_facts_with(reason, missing) == 1 ? "it" : "them";
    printf(": a run %s %s%s\n", outcomes[reason->question].run, it,
           outcomes[reason->question].when);
    print_links(reason, it);
}

/* Why facts that a "may" column has are missing from its "always" column. */
static void print_reasons(uint32_t sequence, const struct column *column)
{
    const uint64_t *card = card_of(sequence);
    char missing[DULIMOVEN_MOST_FACTS];
    uint32_t fact;
    for (fact = 0; fact < DULIMOVEN_MOST_FACTS; fact++) {
        missing[fact] = dulimoven_card_has(card, column->may, fact) &&
                        !dulimoven_card_has(card, column->always, fact);
        if (missing[fact])
            find_reason(reasons + fact, sequence, column, fact);
    }
    for (fact = 0; fact < DULIMOVEN_MOST_FACTS; fact++)
        if (missing[fact])
            print_reason(reasons + fact, column->always, missing);
}

static int has_alternative(uint32_t sequence)
{
    return kind_of(*body_of(sequence)) == DULIMOVEN_KIND_ALTERNATIVE;
}

/* Which of the listed sequences have no alternative. */
static void print_without(const uint32_t *list, uint64_t count)
{
    uint64_t i;
    int without = 0;
    for (i = 0; i < count; i++)
        if (!has_alternative(list[i])) {
            printf(without == 0 ? "; %u" : " %u", list[i]);
            without++;
        }
    if (without != 0)
        printf(without == 1 ? " has none" : " have none");
}

/* Why a sequence has no run: the list of those that keep it from one. */
static void print_why(uint32_t sequence)
{
    uint32_t list[DULIMOVEN_MOST_ENDLESS_WORDS];
    uint64_t count = dulimoven_endless(image, words, sequence, list,
                                       DULIMOVEN_MOST_ENDLESS_WORDS);
    uint64_t i;
    if (count == 1) {
        printf(has_alternative(sequence)
                   ? "  it calls itself in each of its alternatives\n"
                   : "  it has no alternative\n");
        return;
    }
    printf("  each alternative of the sequences");
    for (i = 0; i < count; i++)
        printf(" %u", list[i]);
    printf(" calls one of them");
    print_without(list, count);
    printf("\n");
}

/* A column of a card, where it has a fact. */
static void print_column(const uint64_t *card, int column)
{
    char marked[DULIMOVEN_MOST_FACTS];
    uint32_t fact;
    int count = 0;
    for (fact = 0; fact < DULIMOVEN_MOST_FACTS; fact++) {
        marked[fact] = (char)dulimoven_card_has(card, column, fact);
        count += marked[fact];
    }
    if (count == 0)
        return;
    printf("; %s", names[column]);
    print_facts(marked);
}

/* A card in words. */
static void print_card(uint32_t sequence)
{
    const uint64_t *card = card_of(sequence);
    uint32_t count = dulimoven_changeable(card);
    int column;
    printf("sequence %u: ", sequence);
    if (!dulimoven_has_run(card))
        printf("no run");
    else
        printf("%s%u %s can change",
               dulimoven_has_empty_run(card) ? "may be empty; " : "", count,
               count == 1 ? "fact" : "facts");
    for (column = 1; column <= DULIMOVEN_COLUMNS; column++)
        print_column(card, column);
    printf("\n");
}

int main(int count, char **arguments)
{
    uint64_t checked;
    uint32_t sequence;
    int column;
    if (count != 2) {
        fprintf(stderr, "usage: show_cards IMAGE\n");
        return 1;
    }
    if (!read_image(arguments[1])) {
        fprintf(stderr, "show_cards: %s cannot be read\n", arguments[1]);
        return 1;
    }
    checked = dulimoven_check(image, words);
    if (dulimoven_is_refusal(checked)) {
        fprintf(stderr, "show_cards: %s is refused: number %u at word %u\n",
                arguments[1], dulimoven_refusal_of(checked),
                dulimoven_position_of(checked));
        return 1;
    }
    dulimoven_cards(image, words, cards, DULIMOVEN_MOST_CARD_WORDS);
    for (sequence = 0; sequence < dulimoven_sequences(checked); sequence++) {
        print_card(sequence);
        if (!dulimoven_has_run(card_of(sequence)))
            print_why(sequence);
        for (column = 0; column < COLUMNS; column++)
            print_reasons(sequence, columns + column);
    }
    return 0;
}
