/*
 * dulimoven_list from the C side: cards of lists worked out by hand, over L's
 * cards, over those of a library with checks and clears, and over words that no
 * library has; every refusal and their order; and that no call changes the
 * cards or the list, nor a refusal the card. C11 and C++17. Prints a line for
 * each word that differs, then a count; the exit status is 0 where nothing
 * differs.
 *
 * Tried: the rule of list_model.h stood in the call's place, with one break at
 * a time, and each of these 65 was reported. Of the sides: earlier and later
 * members exchanged on one side or on both, the neighbour alone asked to leave
 * the fact, another column asked for it. Of bits: those from F upward kept, F
 * above 64 dropping all, F by its low 6 or 32 bits. Of members: one without a
 * run passed over, the empty list blank, "untouched", "no such item" or the
 * empty run where one member has it, the first member or all but two left out,
 * the list read backwards. Of the "always" columns: either rival left out, a
 * wrong rival, bits of the members' columns or of "may" asked for. Of words:
 * two exchanged, the last five not written, the count of a member, of "may set"
 * alone, or of both columns apart. Of refusals: 14 before 8, 15 before 14 or 8,
 * 256 members refused, 257 let through, a member equal to C let through, the
 * last member untested, members held to the room or by their low byte, 8 by 8
 * or 12 times C, with wrap or by 32 bits of C. And a card changed on a refusal,
 * a word beside it, the cards or the list changed, a position, another answer.
 */
#include "borders.h"
#include "harness.h"
#include "samples.h"

enum {
    CARD = DULIMOVEN_CARD_WORDS,
    MOST_LIST = DULIMOVEN_MOST_LIST,
    /* a library's cards, and six words after them */
    MOST_CARDS = 7 * CARD + 6,
    CARDS_AREA = GUARD + MOST_CARDS + GUARD,
    LIST_AREA = GUARD + MOST_LIST + 1 + GUARD,
    CARD_AREA = GUARD + CARD + GUARD
};

/*
 * What the call is lent, with guard words on both sides. Cards and list are
 * compared with copies after each call, and the card with what it has to be.
 */
static uint64_t cards[CARDS_AREA], cards_before[CARDS_AREA];
static size_t cards_len;
static uint32_t list[LIST_AREA], list_before[LIST_AREA];
static size_t list_len;
static uint64_t card[CARD_AREA], card_due[CARD_AREA];

/* Every word its own pattern, so that a word that stays can be told. */
static void lend_cards(const uint64_t *given, size_t count)
{
    size_t i;
    for (i = 0; i < CARDS_AREA; i++)
        cards[i] = UINT64_C(0xca4d000000000000) + i;
    for (i = 0; i < CARD * count; i++)
        cards[GUARD + i] = given[i];
    cards_len = CARD * count;
}

static void lend_list(const uint32_t *given, size_t count)
{
    size_t i;
    for (i = 0; i < LIST_AREA; i++)
        list[i] = UINT32_C(0x11570000) + (uint32_t)i;
    for (i = 0; i < count; i++)
        list[GUARD + i] = given[i];
    list_len = count;
}

#define LIST(...)                               \
    do {                                        \
        const uint32_t given[] = {__VA_ARGS__}; \
        lend_list(given, COUNT(given));         \
    } while (0)

static void no_member(void) { lend_list(NULL, 0); }

/* One member so many times. */
static void lend_many(uint32_t member, size_t count)
{
    uint32_t given[MOST_LIST + 1];
    size_t i;
    for (i = 0; i < count; i++)
        given[i] = member;
    lend_list(given, count);
}

/* The words of an array, `before` of which are guard words. */
static void same_words(const char *name, const char *of, const uint64_t *due,
                       const uint64_t *found, size_t count, int before)
{
    size_t i;
    for (i = 0; i < count; i++)
        if (due[i] != found[i]) {
            failed++;
            printf("%s: word %d of %s: expected %" PRIx64 ", found %" PRIx64
                   "\n",
                   name, (int)i - before, of, due[i], found[i]);
        }
}

/*
 * Calls, and compares the answer, the card, and all that has to be as it was.
 * `due` has the numbers of the card, or is null where the call is to refuse.
 */
static void call(const char *name, uint64_t facts, uint64_t sequences,
                 uint64_t expected, const struct column *due)
{
    uint64_t answer;
    size_t i;
    for (i = 0; i < CARD_AREA; i++)
        card[i] = UINT64_C(0xabad1dea00000000) + i;
    memcpy(card_due, card, sizeof card);
    if (due != NULL)
        lay_out(due, card_due + GUARD);
    memcpy(cards_before, cards, sizeof cards);
    memcpy(list_before, list, sizeof list);
    answer = dulimoven_list(facts, sequences, cards + GUARD, cards_len,
                            list + GUARD, list_len, card + GUARD);
    ran++;
    if (answer != expected) {
        failed++;
        printf("%s: expected %" PRIx64 ", answered %" PRIx64 "\n", name,
               expected, answer);
    }
    same_words(name, "the card", card_due, card, CARD_AREA, GUARD);
    same_words(name, "the cards", cards_before, cards, CARDS_AREA, GUARD);
    if (memcmp(list_before, list, sizeof list) != 0) {
        failed++;
        printf("%s: the call changed the list or a word beside it\n", name);
    }
}

/* The same of a card on which no fact is above 63. */
static void gives(const char *name, uint64_t facts, uint64_t sequences,
                  const uint64_t *due)
{
    struct column wide[NUMBERS];
    int i;
    for (i = 0; i < NUMBERS; i++)
        wide[i] = low_facts(due[i]);
    call(name, facts, sequences, 0, wide);
}

#define GIVES(name, facts, sequences, ...)                  \
    do {                                                    \
        static const uint64_t due[NUMBERS] = {__VA_ARGS__}; \
        gives(name, facts, sequences, due);                 \
    } while (0)

/* The same by columns. */
#define GIVES_WIDE(name, facts, sequences, ...)            \
    do {                                                   \
        const struct column due[NUMBERS] = {__VA_ARGS__};  \
        call(name, facts, sequences, 0, due);              \
    } while (0)

#define BLANK 0, 0, 0, 0, 0, 0, 0, 0, 0, 0, 0, 0, 0

static void refuses(const char *name, uint64_t sequences, uint64_t number)
{
    call(name, 3, sequences, REFUSED(number, 0), NULL);
}

/*
 * Over L's cards, which document 02 prints, in an area of their 147 words and
 * in one of 153. Sequence 0 is <set 0>, <>; 1 is <0, need 0 and set 1>; 2 has
 * no run.
 */
#define CARD_0 0x103, 0, 0, 1, 0, 0, 0, 0, 1, 7, 7, 0, 7
#define CARD_1 0x201, 0, 1, 3, 0, 2, 0, 3, 3, 4, 5, 0, 4
enum { L_CARDS = L_SEQUENCES * CARD };

static void lend_l(void)
{
    uint64_t given[L_SEQUENCES][CARD];
    int i;
    for (i = 0; i < L_SEQUENCES; i++)
        lay_out_low(cards_of_l[i], given[i]);
    lend_cards(given[0], L_SEQUENCES);
}

static void lists_of_l(size_t length)
{
    lend_l();
    hold("three cards have 147 words", L_CARDS == 147);
    cards_len = length;
    no_member();
    GIVES("L, none", 3, 3, 3, 0, 0, 0, 0, 0, 0, 0, 0, 7, 7, 0, 7);
    LIST(0);
    GIVES("L, 0", 3, 3, CARD_0);
    /* sets of fact 0, or nothing, as in one run of sequence 0 */
    LIST(0, 0);
    GIVES("L, 0 0", 3, 3, CARD_0);
    LIST(1);
    GIVES("L, 1", 3, 3, CARD_1);
    /* sequence 0 can be empty, and what it may set sequence 1 may set */
    LIST(0, 1);
    GIVES("L, 0 1", 3, 3, CARD_1);
    LIST(1, 0);
    GIVES("L, 1 0", 3, 3, CARD_1);
    LIST(1, 1);
    GIVES("L, 1 1", 3, 3, CARD_1);
    LIST(2);
    GIVES("L, 2", 3, 3, BLANK);
    LIST(0, 2);
    GIVES("L, 0 2", 3, 3, BLANK);
    LIST(2, 0);
    GIVES("L, 2 0", 3, 3, BLANK);
}

/*
 * The same cards with another F. "drops bits from F upward (none if F passes
 * the column's width)"; "an "always" bit, below F only, where no rival outcome
 * holds": over cards of three facts none holds of the others.
 */
static void other_facts(void)
{
    static const uint64_t wide[] = {
        63,  64,  65,  127, 128, 129, 191,
        192, 193, 255, 256, 257, UINT64_C(0x100000000),
        UINT64_C(0x100000040), ONES};
    const struct column none = low_facts(0);
    size_t i;
    lend_l();
    no_member();
    GIVES("F = 2, none", 2, 3, 3, 0, 0, 0, 0, 0, 0, 0, 0, 3, 3, 0, 3);
    GIVES("F = 0, none", 0, 3, 3, 0, 0, 0, 0, 0, 0, 0, 0, 0, 0, 0, 0);
    LIST(0, 1);
    GIVES("F = 2, 0 1", 2, 3, 0x201, 0, 1, 3, 0, 2, 0, 3, 3, 0, 1, 0, 0);
    /* fact 1, which is set, is dropped: fact 0 alone can change */
    GIVES("F = 1, 0 1", 1, 3, 0x101, 0, 1, 1, 0, 0, 0, 1, 1, 0, 1, 0, 0);
    GIVES("F = 0, 0 1", 0, 3, 1, 0, 0, 0, 0, 0, 0, 0, 0, 0, 0, 0, 0);
    LIST(0, 2);
    GIVES("F = 0, 0 2", 0, 3, BLANK);
    for (i = 0; i < COUNT(wide); i++) {
        /* no bit is dropped from 256 on */
        struct column all =
            facts_below(wide[i] > 256 ? 256 : (uint32_t)wide[i]);
        no_member();
        GIVES_WIDE("many facts, none", wide[i], 3, low_facts(3), none, none,
                   none, none, none, none, none, none, all, all, none, all);
        LIST(0, 1);
        GIVES_WIDE("many facts, 0 1", wide[i], 3, low_facts(0x201),
                   without(all, low_facts(7)), low_facts(1), low_facts(3), none,
                   without(all, low_facts(5)), without(all, low_facts(7)),
                   without(all, low_facts(4)), low_facts(3), low_facts(4),
                   low_facts(5), none, low_facts(4));
    }

    /* the same by the words of a column: 1ffffffffffffffff, and all ones */
    no_member();
    GIVES_WIDE("F = 65, none", 65, 3, FLAGS(3), COLUMN_0, COLUMN_0, COLUMN_0,
               COLUMN_0, COLUMN_0, COLUMN_0, COLUMN_0, COLUMN_0,
               COLUMN(ONES, 1, 0, 0), COLUMN(ONES, 1, 0, 0), COLUMN_0,
               COLUMN(ONES, 1, 0, 0));
    GIVES_WIDE("F = 256, none", 256, 3, FLAGS(3), COLUMN_0, COLUMN_0, COLUMN_0,
               COLUMN_0, COLUMN_0, COLUMN_0, COLUMN_0, COLUMN_0, COLUMN_U,
               COLUMN_U, COLUMN_0, COLUMN_U);
}

/*
 * Refusals. "8 asks 49 x C", a product of whole numbers: 49 times
 * 376464164769582687 is 2^64 + 47, which with wrap would be 47.
 */
static void refusals(void)
{
    static const uint64_t wraps = UINT64_C(376464164769582687);
    uint32_t members[MOST_LIST + 1] = {0};
    size_t length;
    lend_l();
    no_member();
    for (length = 0; length < L_CARDS; length++) {
        cards_len = length;
        refuses("8: an area that is too short", 3, 8);
    }
    cards_len = L_CARDS;
    refuses("8: C = 4 with 147 words", 4, 8);
    hold("2^64 + 47", wraps * CARD == 47 && wraps > ONES / CARD);
    refuses("8: 49 times C with wrap is 47", wraps, 8);
    /* 49 times these is 0 or less than 147 with wrap at 2^32 or 2^64 */
    refuses("8: C = 2^32", UINT64_C(0x100000000), 8);
    refuses("8: C = 2^63", UINT64_C(0x8000000000000000), 8);
    refuses("8: the greatest C", ONES, 8);

    lend_many(0, MOST_LIST + 1);
    cards_len = 146;
    refuses("8 before 14: 146 words, a list of 257", 3, 8);
    LIST(3);
    cards_len = 146;
    refuses("8 before 15: 146 words, member 3", 3, 8);
    cards_len = L_CARDS;

    lend_many(0, MOST_LIST + 1);
    refuses("14: a list of 257", 3, 14);
    members[0] = 3;
    lend_list(members, MOST_LIST + 1);
    refuses("14 before 15: member 3 first of 257", 3, 14);
    members[0] = 0;
    members[MOST_LIST] = 3;
    lend_list(members, MOST_LIST + 1);
    refuses("14 before 15: member 3 last of 257", 3, 14);
    lend_many(2, MOST_LIST + 1);
    refuses("14: 257 members without a run", 3, 14);
    lend_many(0, MOST_LIST);
    GIVES("a list of 256", 3, 3, CARD_0);

    LIST(3);
    refuses("15: member 3", 3, 15);
    LIST(4294967295);
    refuses("15: member 4294967295", 3, 15);
    LIST(256);
    refuses("15: member 256, whose low eight bits are 0", 3, 15);
    LIST(65536);
    refuses("15: member 65536, whose low sixteen bits are 0", 3, 15);
    LIST(0x80000001);
    refuses("15: member 1 and the highest bit", 3, 15);
    LIST(0, 1, 3);
    refuses("15: member 3 last", 3, 15);
    LIST(3, 0, 1);
    refuses("15: member 3 first", 3, 15);
    /* a member without a run does not end the search */
    LIST(2, 3);
    refuses("15: after a member without a run", 3, 15);
    members[MOST_LIST - 1] = 3;
    lend_list(members, MOST_LIST);
    refuses("15: member 3 last of 256", 3, 15);
    /* C is what counts, and not what the area has room for */
    LIST(1);
    refuses("15: C = 1, member 1", 1, 15);
    LIST(0);
    GIVES("C = 1, member 0", 3, 1, CARD_0);
    refuses("15: C = 0, member 0", 0, 15);
    hold("the names of 14 and 15",
         DULIMOVEN_LIST_LENGTH == 14 && DULIMOVEN_MEMBER == 15);
}

/* C = 0, with an empty area and null pointers. */
static void null_pointers(void)
{
    static const uint64_t numbers[NUMBERS] = {3, 0, 0, 0, 0, 0, 0,
                                              0, 0, 7, 7, 0, 7};
    uint64_t none[CARD], found[CARD] = {0};
    uint32_t member = 0;
    lay_out_low(numbers, none);
    hold("C = 0 and null pointers, none",
         dulimoven_list(3, 0, NULL, 0, NULL, 0, found) == 0 &&
             memcmp(found, none, sizeof none) == 0);
    hold("C = 0 and a null pointer, member 0",
         dulimoven_list(3, 0, NULL, 0, &member, 1, found) == REFUSED(15, 0) &&
             memcmp(found, none, sizeof none) == 0);
    hold("C = 1 and null pointers",
         dulimoven_list(3, 1, NULL, 0, NULL, 0, found) == REFUSED(8, 0) &&
             memcmp(found, none, sizeof none) == 0);
}

/*
 * "C may be any 64-bit number": more sequences than a library can have. Member
 * 299 has the card of L's sequence 1; 43, which is 299 - 256, has that of 0.
 */
static void many_sequences(void)
{
    enum { MANY = 300 };
    static uint64_t many[CARD * MANY];
    static const uint64_t due[2][NUMBERS] = {{CARD_0}, {CARD_1}};
    static const uint32_t numbers[2] = {43, 299};
    uint64_t found[CARD];
    int i;
    for (i = 0; i < 2; i++)
        lay_out_low(due[i], many + CARD * numbers[i]);
    for (i = 0; i < 2; i++)
        hold("members of 300 sequences",
             dulimoven_list(3, MANY, many, COUNT(many), numbers + i, 1,
                            found) == 0 &&
                 memcmp(found, many + CARD * numbers[i], sizeof found) == 0);
    hold("8: a word less",
         dulimoven_list(3, MANY, many, COUNT(many) - 1, numbers, 1, found) ==
             REFUSED(8, 0));
    hold("15: C is one less",
         dulimoven_list(3, MANY - 1, many, COUNT(many), numbers, 2, found) ==
             REFUSED(15, 0));
}

/*
 * A library with checks and clears: step 0 sets 0, 1 clears 0, 2 needs 0 and
 * clears 1, 3 needs 1. The sum word: taken 37 times for the head and so on to
 * once for the last word, the payloads after the head's add up to 629, the
 * kinds to 3975: 37 * 0x380803 + 629 + 1024 * 3975 = 0x85746e4.
 */
enum { CLEARS_WORDS = 38, CLEARS_SEQUENCES = 7 };
static const uint32_t clears_words[CLEARS_WORDS] = {
    0x10380803, 0x50000000, 0x30000000, 0x50000001, 0x40000000, 0x50000002,
    0x20000000, 0x40000001, 0x50000003, 0x20000001, 0x60000000, 0x70000000,
    0x80000000, 0x60000001, 0x70000000, 0x80000001, 0x70000000, 0x60000002,
    0x70000000, 0xd0000000, 0x60000003, 0x70000000, 0x80000002, 0x60000004,
    0x70000000, 0xd0000001, 0x70000000, 0x80000003, 0x60000005, 0x70000000,
    0x90000005, 0x60000006, 0x70000000, 0x80000000, 0x80000001, 0x70000000,
    0xd0000002, 0xf85746e4};

static const uint64_t clears_cards[CLEARS_SEQUENCES][NUMBERS] = {
    /* <set 0> */
    {0x101, 0, 0, 1, 0, 1, 0, 1, 1, 6, 6, 0, 6},
    /* <clear 0>, <> */
    {0x103, 0, 0, 0, 1, 0, 0, 0, 0, 7, 7, 1, 7},
    /* <check 0> */
    {3, 1, 1, 0, 0, 0, 0, 1, 0, 6, 7, 0, 6},
    /* <needs 0, clears 1> */
    {0x101, 1, 1, 0, 2, 0, 2, 1, 0, 6, 5, 2, 4},
    /* <check 1>, <need 1> */
    {3, 2, 2, 0, 0, 0, 0, 2, 0, 5, 7, 0, 5},
    /* <itself> */
    {BLANK},
    /* <set 0, clear 0>, <check 2> */
    {0x103, 0, 4, 0, 1, 0, 0, 0, 1, 7, 7, 1, 7}};

/* Its cards by the card call, with six words after them. */
static void lend_clears(void)
{
    size_t i;
    lend_cards(NULL, 0);
    start();
    put_all(clears_words, CLEARS_WORDS);
    hold("the library is accepted",
         dulimoven_check(area + GUARD, words) ==
             ACCEPTED(3, 4, CLEARS_SEQUENCES));
    hold("the cards of the library",
         dulimoven_cards(area + GUARD, words, cards + GUARD, MOST_CARDS) ==
             CLEARS_SEQUENCES);
    for (i = 0; i < CLEARS_SEQUENCES; i++) {
        uint64_t due[CARD];
        char name[64];
        lay_out_low(clears_cards[i], due);
        snprintf(name, sizeof name, "sequence %u", (unsigned)i);
        ran++;
        same_words(name, "its card", due, cards + GUARD + CARD * i, CARD, 0);
    }
    cards_len = MOST_CARDS;
}

#define AS_0_1 0x101, 0, 0, 1, 1, 0, 0, 0, 1, 6, 6, 1, 6
#define AS_1_2 0x103, 1, 1, 0, 1, 0, 0, 1, 0, 6, 7, 0, 6

static void lists_of_clears(void)
{
    uint32_t members[MOST_LIST], c;
    lend_clears();
    for (c = 0; c < CLEARS_SEQUENCES; c++) {
        LIST(c);
        gives("a list of one", 3, CLEARS_SEQUENCES, clears_cards[c]);
    }
    LIST(0, 1);
    GIVES("0 1", 3, 7, AS_0_1);
    LIST(1, 0);
    GIVES("1 0", 3, 7, 0x101, 0, 0, 1, 0, 1, 0, 1, 1, 6, 6, 0, 6);
    LIST(2, 1);
    GIVES("2 1", 3, 7, 0x103, 1, 1, 0, 1, 0, 0, 0, 0, 6, 7, 1, 6);
    /* the check decides last, and the clear before it is no first touch */
    LIST(1, 2);
    GIVES("1 2", 3, 7, AS_1_2);
    LIST(3, 4);
    GIVES("3 4", 3, 7, 0x101, 3, 3, 0, 2, 0, 2, 3, 0, 4, 5, 0, 4);
    /* now the clear of fact 1 is its last item */
    LIST(4, 3);
    GIVES("4 3", 3, 7, 0x101, 3, 3, 0, 2, 0, 2, 1, 0, 4, 5, 2, 4);
    LIST(0, 1, 2, 3);
    GIVES("0 1 2 3", 3, 7, 0x201, 0, 0, 1, 3, 0, 2, 1, 1, 6, 4, 2, 4);
    for (c = 0; c < MOST_LIST; c++)
        members[c] = 1;
    members[0] = 0;
    lend_list(members, MOST_LIST);
    GIVES("0, then 1 255 times", 3, 7, AS_0_1);
    members[0] = members[MOST_LIST - 1] = 2;
    lend_list(members, MOST_LIST);
    GIVES("2, then 1 254 times, then 2", 3, 7, AS_1_2);
    /* the set of sequence 6 is first, and its clear last, or it checks 2 */
    LIST(6, 6);
    GIVES("6 6", 3, 7, 0x103, 0, 4, 0, 1, 0, 0, 0, 1, 7, 7, 1, 7);
    LIST(0, 5);
    GIVES("0 5", 3, 7, BLANK);
    LIST(5);
    GIVES("5", 3, 7, BLANK);
    members[0] = 1;
    members[MOST_LIST - 1] = 5;
    lend_list(members, MOST_LIST);
    GIVES("1 255 times, then 5", 3, 7, BLANK);
}

/*
 * Over the cards of the library of borders.h. Sequence 0 sets A, which is 0,
 * 63, 64 and 255; 1 does so and then needs 64 and 255 and clears 63; 2 does the
 * second or nothing; 3 checks 255 or is sequence 0; 4 has no run.
 */
static void lists_at_borders(void)
{
    uint32_t c;
    build_borders();
    lend_cards(NULL, 0);
    hold("the cards of the borders",
         dulimoven_cards(area + GUARD, words, cards + GUARD, MOST_CARDS) ==
             BORDERS);
    cards_len = BORDERS * CARD;
    for (c = 0; c < BORDERS; c++) {
        LIST(c);
        call("borders, one", 256, BORDERS, 0, borders_cards[c]);
    }
    /* the sets come before the needs; then 63 may be cleared */
    LIST(0, 2);
    GIVES_WIDE("borders, 0 2", 256, 5, FLAGS(0x401), COLUMN_0, COLUMN_0,
               COLUMN_A, COLUMN_F_63, COLUMN_A_63, COLUMN_0, COLUMN_A_63,
               COLUMN_A, COLUMN_N, COLUMN_N, COLUMN_F_63, COLUMN_N);
    /* 64 and 255 may be needed first; the sets are last */
    LIST(2, 0);
    GIVES_WIDE("borders, 2 0", 256, 5, FLAGS(0x401), COLUMN_0, COLUMN_P,
               COLUMN_A, COLUMN_0, COLUMN_A, COLUMN_0, COLUMN_A, COLUMN_A,
               COLUMN_N, COLUMN_N, COLUMN_0, COLUMN_N);
    LIST(1, 0);
    call("borders, 1 0", 256, BORDERS, 0, borders_cards[0]);
    LIST(0, 1);
    call("borders, 0 1", 256, BORDERS, 0, borders_cards[1]);
    LIST(2, 2);
    call("borders, 2 2", 256, BORDERS, 0, borders_cards[2]);
    LIST(3, 3);
    call("borders, 3 3", 256, BORDERS, 0, borders_cards[3]);
    LIST(0, 4);
    call("borders, 0 4", 256, BORDERS, 0, borders_cards[4]);
    /* facts from F upward are dropped: 255, then 64 too, then all but 0 */
    LIST(0);
    GIVES_WIDE("borders, 0, F = 255", 255, 5, FLAGS(0x301), COLUMN_0, COLUMN_0,
               COLUMN(HIGH | 1, 1, 0, 0), COLUMN_0, COLUMN(HIGH | 1, 1, 0, 0),
               COLUMN_0, COLUMN(HIGH | 1, 1, 0, 0), COLUMN(HIGH | 1, 1, 0, 0),
               COLUMN_N, COLUMN_N, COLUMN_0, COLUMN_N);
    GIVES("borders, 0, F = 64", 64, 5, 0x201, 0, 0, HIGH | 1, 0, HIGH | 1, 0,
          HIGH | 1, HIGH | 1, ONES >> 1 ^ 1, ONES >> 1 ^ 1, 0, ONES >> 1 ^ 1);
    GIVES("borders, 0, F = 63", 63, 5, 0x101, 0, 0, 1, 0, 1, 0, 1, 1,
          ONES >> 1 ^ 1, ONES >> 1 ^ 1, 0, ONES >> 1 ^ 1);
}

/* One card that no library has, and the list of it. */
static void lend_one(const uint64_t *one)
{
    lend_cards(one, 1);
    LIST(0);
}

/* A word in all places of the columns that a list's card is not made of. */
static void put_always(uint64_t *one, uint64_t word)
{
    static const int always[] = {1, 5, 6, 7};
    size_t i, j;
    for (i = 0; i < COUNT(always); i++)
        for (j = 0; j < COLUMN_WORDS; j++)
            one[place_of(always[i], 0) + j] = word;
}

/* A fact in all columns of L's card of sequence 0: it is dropped where F is not
 * above it. */
static void one_more_fact(uint32_t fact)
{
    struct column top = one_fact(fact), none = low_facts(0);
    struct column set = union_of(low_facts(1), top);
    struct column left = union_of(low_facts(7), top);
    struct column rest = facts_from(3, fact);
    struct column below = facts_below(fact), always;
    uint64_t one[CARD];
    int column;
    lay_out_low(cards_of_l[0], one);
    for (column = 1; column < NUMBERS; column++)
        one[place_of(column, fact)] |= UINT64_C(1) << fact % 64;
    lend_one(one);
    GIVES("one fact more, F = 3", 3, 1, CARD_0);
    /* of the facts from 3 up to it no rival outcome holds */
    always = without(below, low_facts(7));
    GIVES_WIDE("one fact more, F is its number", fact, 1, low_facts(0x103),
               always, none, low_facts(1), none, always, always, always,
               low_facts(1), low_facts(7), low_facts(7), none, low_facts(7));
    GIVES_WIDE("one fact more, F is one above it", (uint64_t)fact + 1, 1,
               low_facts(0x203), rest, top, set, top, rest, rest, rest, set,
               left, left, top, left);
}

static void no_library(void)
{
    static const uint32_t more[] = {62, 63, 64, 127, 128, 191, 192, 254, 255};
    static const uint32_t most[] = {64, 65, 200, 256};
    const struct column none = low_facts(0);
    uint64_t one[CARD];
    size_t i;

    /* "reads the two flag bits, the three "may" columns and these five" */
    lay_out_low(cards_of_l[1], one);
    one[0] |= ~UINT64_C(3);
    put_always(one, ONES);
    lend_one(one);
    GIVES("the count and the \"always\" columns full", 3, 1, CARD_1);
    one[0] = 1;
    put_always(one, 0);
    lend_one(one);
    GIVES("the count and the \"always\" columns empty", 3, 1, CARD_1);

    /* "where no rival outcome holds": "always set", and not "may set" */
    memset(one, 0, sizeof one);
    one[0] = 1;
    lend_one(one);
    GIVES("a run, and no outcome", 3, 1,
          1, 7, 0, 0, 0, 7, 7, 7, 0, 0, 0, 0, 0);

    /* "blank unless every member has a run" */
    one[0] = 2;
    lend_one(one);
    GIVES("an empty run, and no run", 3, 1, BLANK);
    memset(one, 0xff, sizeof one);
    one[0] = ~UINT64_C(1);
    lend_one(one);
    GIVES("all but a run", 3, 1, BLANK);

    one[0] = ONES;
    lend_one(one);
    GIVES("ones", 3, 1, 0x303, 0, 7, 7, 7, 0, 0, 0, 7, 7, 7, 7, 7);
    for (i = 0; i < COUNT(most); i++) {
        struct column all = facts_below(most[i]);
        GIVES_WIDE("ones, many facts", most[i], 1,
                   low_facts(3 + 0x100 * (uint64_t)most[i]), none, all, all,
                   all, none, none, none, all, all, all, all, all);
    }
    GIVES("ones, F = 0", 0, 1, 3, 0, 0, 0, 0, 0, 0, 0, 0, 0, 0, 0, 0);
    for (i = 0; i < COUNT(more); i++)
        one_more_fact(more[i]);
}

/*
 * Which column lets a bit pass: two cards with a run and one outcome each. The
 * first has the outcome of a side, the second the untouched bit of some side,
 * and then the other way round. One fact alone, and F is above it.
 */
static void sides(uint32_t fact)
{
    uint64_t bit = UINT64_C(1) << fact % 64;
    static const struct {
        int outcome, rest, first;
    } rules[] = {{2, 9, 1}, {8, 9, 1}, {3, 10, 0}, {4, 10, 0}, {11, 12, 0}};
    size_t i;
    int rest, later;
    for (i = 0; i < COUNT(rules); i++)
        for (rest = 9; rest <= 12; rest++)
            for (later = 0; later < 2; later++) {
                uint64_t given[2][CARD] = {{0}};
                uint64_t found[CARD];
                char name[64];
                int outcome = rules[i].outcome, passes;
                if (rest == 11)
                    continue;
                given[0][0] = given[1][0] = 1;
                given[later][place_of(outcome, fact)] = bit;
                given[1 - later][place_of(rest, fact)] = bit;
                /* the last member passes by itself on the last side, the first
                   one on the first side; the other where the rest is its own */
                passes = later != rules[i].first || rest == rules[i].rest;
                lend_cards(given[0], 2);
                LIST(0, 1);
                snprintf(name, sizeof name, "column %d %s column %d", outcome,
                         later ? "after" : "before", rest);
                hold(name,
                     dulimoven_list((uint64_t)fact + 1, 2, cards + GUARD,
                                    cards_len, list + GUARD, list_len,
                                    found) == 0 &&
                         is_same(column_of(found, outcome),
                                 passes ? one_fact(fact) : low_facts(0)) &&
                         is_none(column_of(found, rest)));
            }
}

int main(void)
{
    static const uint32_t facts[] = {0, 63, 64, 127, 128, 191, 192, 255};
    size_t i;
    lists_of_l(147);
    lists_of_l(153);
    other_facts();
    refusals();
    null_pointers();
    many_sequences();
    lists_of_clears();
    lists_at_borders();
    no_library();
    for (i = 0; i < COUNT(facts); i++)
        sides(facts[i]);
    printf("list_test: %u checks, %u failed\n", ran, failed);
    return failed == 0 ? 0 : 1;
}
