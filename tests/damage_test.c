/*
 * The calls over damaged images and random words: no crash, the same answer
 * twice, and nothing changed but what a call writes. C11 and C++17, and
 * built with AddressSanitizer and UndefinedBehaviorSanitizer too. Prints a line
 * for what does not hold, then a count; the exit status is 0 where all holds.
 *
 * Every call is made twice. Once each lent array ends where a page begins that
 * may be neither read nor written, once it begins where such a page ends; on
 * the other side it has guard words. So a word outside is not read there, and
 * not written on either side, by the library's code too, which no sanitizer
 * watches.
 *
 * In each example image all pairs of entries change places, and the sum word of
 * the rule before document 02's request 6 is tried: both get refusal 2. With
 * the head from before request 8 it is judged as any other. Of the random
 * libraries a third have up to 256 facts.
 *
 * The answers are held against each other: a refusal of the image is the same
 * from all calls that take one, the card and the chains of a sequence say the
 * same, and each chain is of links that there can be. Why a sequence has no run
 * is asked of each: 16 where the card says that it has one, otherwise the list
 * of those whose cards say that they have none and that plain rounds over the
 * words reach (listed.h); numbers and areas are random too. All 27 breaks that
 * endless_test names were reported, one of them by the page that may not be
 * written. The list call is held against a plain loop over bits (list_model.h),
 * over random words and over the cards of random libraries; of the breaks that
 * list_test names it reported all but that of a member's low byte. Each image
 * is sealed in a copy of its own: the last word is then the one that image.h
 * works out, the others stay, and the check answers what it answers to that
 * image, never 2. All 28 breaks that seal_test names were reported, that of the
 * word after the last by the page that may not be written.
 */
#define _DEFAULT_SOURCE 1
#include "borders.h"
#include "harness.h"
#include "list_model.h"
#include "listed.h"
#include "samples.h"
#include "setup.h"
#include "ten.h"

#include <stdlib.h>
#include <sys/mman.h>
#include <unistd.h>

/* What a line says of the image that a check fails for. */
static const char *image_name;
static unsigned image_number;

static void holds(const char *what, int right)
{
    ran++;
    if (right)
        return;
    failed++;
    if (failed <= 20)
        printf("%s, image %u: %s\n", image_name, image_number, what);
}

/*
 * Arrays of `bytes` bytes, which are whole pages: one to lend up to its end,
 * one to lend from its start.
 */
enum {
    IMAGE_BYTES = 36864,
    CARD_BYTES = 102400,
    CHAIN_BYTES = 4096,
    WHY_BYTES = 4096,
    LIST_BYTES = 4096,
    ONE_CARD_BYTES = 4096
};
static unsigned char *image_pages[2];
static unsigned char *card_pages[2];
static unsigned char *chain_pages[2];
static unsigned char *why_pages[2];
static unsigned char *list_pages[2];
static unsigned char *one_card_pages[2];

static unsigned char *pages(size_t bytes)
{
    size_t page = (size_t)sysconf(_SC_PAGESIZE);
    void *all = mmap(NULL, page + bytes + page, PROT_NONE,
                     MAP_PRIVATE | MAP_ANONYMOUS, -1, 0);
    unsigned char *inner = (unsigned char *)all + page;
    if (bytes % page != 0 || all == MAP_FAILED ||
        mprotect(inner, bytes, PROT_READ | PROT_WRITE) != 0) {
        printf("damage_test: no pages\n");
        exit(1);
    }
    return inner;
}

/* Where `length` bytes stand in the one array or in the other. */
static unsigned char *place(unsigned char *const both[2], int which,
                            size_t bytes, size_t length)
{
    return which == 0 ? both[0] + bytes - length : both[1];
}

/* The guard bytes: before the array in the one case, after it in the other. */
enum { GUARD_BYTES = 64, PATTERN = 0x5a };
static unsigned char *guard(unsigned char *lent, int which, size_t length)
{
    return which == 0 ? lent - GUARD_BYTES : lent + length;
}

static int all_pattern(const unsigned char *bytes, size_t count)
{
    size_t i;
    for (i = 0; i < count; i++)
        if (bytes[i] != PATTERN)
            return 0;
    return 1;
}

/* Lends the image under test. */
static const uint32_t *lend_image(int which)
{
    size_t length = words * sizeof(uint32_t);
    unsigned char *lent = place(image_pages, which, IMAGE_BYTES, length);
    memcpy(lent, area + GUARD, length);
    memset(guard(lent, which, length), PATTERN, GUARD_BYTES);
    return (const uint32_t *)(const void *)lent;
}

static void image_stays(int which)
{
    size_t length = words * sizeof(uint32_t);
    unsigned char *lent = place(image_pages, which, IMAGE_BYTES, length);
    holds("the image or a word beside it is changed",
          memcmp(lent, area + GUARD, length) == 0 &&
              all_pattern(guard(lent, which, length), GUARD_BYTES));
}

/* Lends an area of `length` bytes, and looks at the bytes from `from` on. */
static unsigned char *lend(unsigned char *const both[2], int which,
                           size_t bytes, size_t length)
{
    unsigned char *lent = place(both, which, bytes, length);
    memset(lent, PATTERN, length);
    memset(guard(lent, which, length), PATTERN, GUARD_BYTES);
    return lent;
}

static void area_stays(unsigned char *lent, int which, size_t from,
                       size_t length)
{
    holds("a word of the area that the call does not write is changed",
          all_pattern(lent + from, length - from) &&
              all_pattern(guard(lent, which, length), GUARD_BYTES));
}

/* The calls, each made twice. */
static uint64_t check(void)
{
    uint64_t answer[2];
    int which;
    for (which = 0; which < 2; which++) {
        answer[which] = dulimoven_check(lend_image(which), words);
        image_stays(which);
    }
    holds("the check answers two things", answer[0] == answer[1]);
    return answer[0];
}

static uint64_t found_cards[DULIMOVEN_MOST_CARD_WORDS];

static uint64_t cards(size_t length)
{
    uint64_t answer[2];
    unsigned char *lent[2];
    size_t bytes = length * sizeof(uint64_t);
    size_t written[2];
    int which;
    for (which = 0; which < 2; which++) {
        lent[which] = lend(card_pages, which, CARD_BYTES, bytes);
        answer[which] =
            dulimoven_cards(lend_image(which), words,
                            (uint64_t *)(void *)lent[which], length);
        image_stays(which);
        written[which] = 0;
        if (!dulimoven_is_refusal(answer[which]))
            written[which] =
                answer[which] * DULIMOVEN_CARD_WORDS * sizeof(uint64_t);
        holds("more cards than the area has room for",
              written[which] <= bytes);
        if (written[which] <= bytes)
            area_stays(lent[which], which, written[which], bytes);
    }
    holds("the cards are two things",
          answer[0] == answer[1] && memcmp(lent[0], lent[1], bytes) == 0);
    if (written[0] <= bytes && written[0] <= sizeof found_cards)
        memcpy(found_cards, lent[0], written[0]);
    return answer[0];
}

static uint32_t found_chain[DULIMOVEN_MOST_CHAIN_WORDS];

static uint64_t chain(uint64_t sequence, uint64_t question, uint64_t fact,
                      size_t length)
{
    uint64_t answer[2];
    unsigned char *lent[2];
    size_t bytes = length * sizeof(uint32_t);
    size_t written[2];
    int which;
    for (which = 0; which < 2; which++) {
        lent[which] = lend(chain_pages, which, CHAIN_BYTES, bytes);
        answer[which] = dulimoven_chain(lend_image(which), words, sequence,
                                        question, fact,
                                        (uint32_t *)(void *)lent[which],
                                        length);
        image_stays(which);
        written[which] = 0;
        if (!dulimoven_is_refusal(answer[which]))
            written[which] =
                answer[which] * DULIMOVEN_LINK_WORDS * sizeof(uint32_t);
        holds("more links than the area has room for",
              written[which] <= bytes);
        if (written[which] <= bytes)
            area_stays(lent[which], which, written[which], bytes);
    }
    holds("the chain is two things",
          answer[0] == answer[1] && memcmp(lent[0], lent[1], bytes) == 0);
    if (written[0] <= bytes && written[0] <= sizeof found_chain)
        memcpy(found_chain, lent[0], written[0]);
    return answer[0];
}

static uint32_t found_why[DULIMOVEN_MOST_ENDLESS_WORDS];

static uint64_t endless(uint64_t sequence, size_t length)
{
    uint64_t answer[2];
    unsigned char *lent[2];
    size_t bytes = length * sizeof(uint32_t);
    size_t written[2];
    int which;
    for (which = 0; which < 2; which++) {
        lent[which] = lend(why_pages, which, WHY_BYTES, bytes);
        answer[which] =
            dulimoven_endless(lend_image(which), words, sequence,
                              (uint32_t *)(void *)lent[which], length);
        image_stays(which);
        written[which] = 0;
        if (!dulimoven_is_refusal(answer[which]))
            written[which] = answer[which] * sizeof(uint32_t);
        holds("more members than the area has room for",
              written[which] <= bytes);
        if (written[which] <= bytes)
            area_stays(lent[which], which, written[which], bytes);
    }
    holds("why there is no run is two things",
          answer[0] == answer[1] && memcmp(lent[0], lent[1], bytes) == 0);
    if (written[0] <= bytes && written[0] <= sizeof found_why)
        memcpy(found_why, lent[0], written[0]);
    return answer[0];
}

/* The image under test is sealed, and its copy is judged. */
static void seal(void)
{
    static uint32_t due[LONGEST];
    int is_image = words >= LEAST_WORDS && words <= MOST_WORDS;
    size_t length = words * sizeof due[0];
    uint64_t answer;
    int which;
    memcpy(due, area + GUARD, length);
    if (is_image)
        due[words - 1] = sum_word_after(due, words - 1);
    for (which = 0; which < 2; which++) {
        unsigned char *lent = lend(image_pages, which, IMAGE_BYTES, length);
        memcpy(lent, area + GUARD, length);
        holds("the seal call answers otherwise",
              dulimoven_seal((uint32_t *)(void *)lent, words) ==
                  (is_image ? 0 : REFUSED(1, 0)));
        holds("the sealed image is another", memcmp(lent, due, length) == 0);
        area_stays(lent, which, length, length);
        answer = dulimoven_check((const uint32_t *)(void *)lent, words);
        holds("a sealed image gets 2, or another answer than its words",
              dulimoven_refusal_of(answer) != 2 &&
                  answer == dulimoven_check(due, words));
    }
}

/* Lends a copy of `bytes` bytes that a call may only read. */
static unsigned char *lend_copy(unsigned char *const both[2], int which,
                                size_t bytes, const void *given, size_t length)
{
    unsigned char *lent = lend(both, which, bytes, length);
    if (length != 0)
        memcpy(lent, given, length);
    return lent;
}

static void copy_stays(unsigned char *lent, int which, const void *given,
                       size_t length)
{
    holds("the cards, the list or a word beside them are changed",
          (length == 0 || memcmp(lent, given, length) == 0) &&
              all_pattern(guard(lent, which, length), GUARD_BYTES));
}

/* What the list call is given, and its answer, held against the model. */
struct listed {
    uint64_t facts, sequences;
    const uint64_t *cards;
    size_t cards_len;
    const uint32_t *list;
    size_t list_len;
};

static uint64_t list(const struct listed *l)
{
    uint64_t due[DULIMOVEN_CARD_WORDS];
    uint64_t answer;
    size_t cards_bytes = l->cards_len * sizeof l->cards[0];
    size_t list_bytes = l->list_len * sizeof l->list[0];
    int which;
    memset(due, PATTERN, sizeof due);
    answer = model_list(l->facts, l->sequences, l->cards, l->cards_len, l->list,
                        l->list_len, due);
    for (which = 0; which < 2; which++) {
        unsigned char *cards_lent = lend_copy(card_pages, which, CARD_BYTES,
                                              l->cards, cards_bytes);
        unsigned char *list_lent = lend_copy(list_pages, which, LIST_BYTES,
                                             l->list, list_bytes);
        unsigned char *card =
            lend(one_card_pages, which, ONE_CARD_BYTES, sizeof due);
        holds("the list call and the loop over bits answer two things",
              dulimoven_list(l->facts, l->sequences,
                             (const uint64_t *)(void *)cards_lent, l->cards_len,
                             (const uint32_t *)(void *)list_lent, l->list_len,
                             (uint64_t *)(void *)card) == answer);
        holds("the list's card is another by the loop over bits",
              memcmp(card, due, sizeof due) == 0);
        area_stays(card, which, sizeof due, sizeof due);
        copy_stays(cards_lent, which, l->cards, cards_bytes);
        copy_stays(list_lent, which, l->list, list_bytes);
    }
    return answer;
}

/*
 * A chain of so many links: each about a sequence that there is, the first
 * about the one asked about, none about a sequence twice; a position in every
 * link, or one link without; no other bits.
 */
static void links(uint64_t count, uint64_t sequence, uint64_t question,
                  uint32_t sequences)
{
    unsigned char seen[DULIMOVEN_MOST_SEQUENCES] = {0};
    uint64_t i;
    holds("more links than sequences", count <= sequences);
    if (count > sequences)
        return;
    for (i = 0; i < count; i++) {
        const uint32_t *link = found_chain + DULIMOVEN_LINK_WORDS * i;
        uint32_t about = dulimoven_link_sequence(link);
        uint32_t alternative = dulimoven_link_alternative(link);
        holds("a first word that is none",
              link[0] == CHOICE(about, alternative));
        holds("a link about no sequence", about < sequences && !seen[about]);
        seen[about] = 1;
        if (question == 2 || question == 5)
            holds("a second word that is not kind 12, or a second link",
                  dulimoven_link_untouched(link) && link[1] == UNTOUCHED &&
                      count == 1);
        else
            holds("a second word that is not kind 11",
                  !dulimoven_link_untouched(link) &&
                      link[1] == AT(dulimoven_link_position(link)) &&
                      dulimoven_link_position(link) < words);
    }
    holds("the first link is about another sequence",
          count == 0 || dulimoven_link_sequence(found_chain) == sequence);
}

/* Questions 0 to 5 of a sequence and a fact, held against its card. */
static void agree(uint64_t sequence, uint64_t fact, uint32_t sequences)
{
    const uint64_t *card = found_cards + DULIMOVEN_CARD_WORDS * sequence;
    int run = dulimoven_has_run(card);
    int has[6];
    int column[NUMBERS];
    int cleared, unmentioned;
    uint64_t question;
    int i;
    for (question = 0; question < 6; question++) {
        uint64_t count = chain(sequence, question, fact, 2 * sequences);
        has[question] = count != 0;
        holds("a refusal with room enough", !dulimoven_is_refusal(count));
        if (dulimoven_is_refusal(count) || count == 0)
            continue;
        links(count, sequence, question, sequences);
        holds("a word short is not refused",
              chain(sequence, question, fact, 2 * (size_t)count - 1) ==
                  REFUSED(12, 0));
    }
    for (i = 1; i < NUMBERS; i++) {
        column[i] = dulimoven_card_has(card, i, fact);
        holds("the header finds a fact in another place",
              column[i] == is_in((uint32_t)fact, column_of(card, i)));
    }
    holds("may need", column[DULIMOVEN_MAY_NEED] == has[3]);
    holds("may set", column[DULIMOVEN_MAY_SET] == has[0]);
    holds("may clear", column[DULIMOVEN_MAY_CLEAR] == has[1]);
    holds("may first set", column[DULIMOVEN_MAY_FIRST_SET] == has[4]);
    holds("may first untouched",
          column[DULIMOVEN_MAY_FIRST_UNTOUCHED] == has[5]);
    holds("may last untouched", column[DULIMOVEN_MAY_LAST_UNTOUCHED] == has[2]);
    holds("always needed",
          column[DULIMOVEN_ALWAYS_NEEDED] == (run && !has[4] && !has[5]));
    holds("always set",
          column[DULIMOVEN_ALWAYS_SET] == (run && !has[1] && !has[2]));
    holds("always cleared",
          column[DULIMOVEN_ALWAYS_CLEARED] == (run && !has[0] && !has[2]));
    /* a fact that each run sets last stands after each; one that always stands
       is needed, set or checked in each run, so that none leaves it on the
       first side */
    cleared = column[DULIMOVEN_MAY_END_CLEARED];
    unmentioned = column[DULIMOVEN_MAY_END_UNMENTIONED];
    holds("always stands",
          column[DULIMOVEN_ALWAYS_STANDS] >= column[DULIMOVEN_ALWAYS_SET] &&
              column[DULIMOVEN_ALWAYS_STANDS] <= (run && !has[5]) &&
              column[DULIMOVEN_ALWAYS_STANDS] ==
                  (run && !cleared && !unmentioned));
    /* a run whose last item clears the fact clears it last, and one without
       such an item leaves it on both sides */
    holds("may end cleared, may end unmentioned",
          cleared <= has[1] && unmentioned <= has[2] && unmentioned <= has[5]);
    holds("a run has an outcome on each side",
          (has[0] || has[1] || has[2]) == run &&
              (has[3] || has[4] || has[5]) == run);
}

/* The answers to why there is no run so far: a list, 9, 16 and 17. */
static unsigned reasons[4];

static void count_reason(uint64_t answer)
{
    static const uint32_t numbers[4] = {0, 9, 16, 17};
    unsigned i;
    for (i = 0; i < 4; i++)
        reasons[i] += dulimoven_refusal_of(answer) == numbers[i];
}

/* Which sequences have a run, as the cards say that were found last. */
static void read_runs(unsigned char *runs, uint32_t sequences)
{
    uint32_t c;
    for (c = 0; c < sequences; c++)
        runs[c] = (unsigned char)dulimoven_has_run(
            found_cards + (size_t)DULIMOVEN_CARD_WORDS * c);
}

/*
 * Why a sequence has no run, in an area of `length` words, held against the
 * cards and the words. No number is out of range.
 */
static void why(uint64_t sequence, size_t length, uint32_t sequences)
{
    unsigned char runs[DULIMOVEN_MOST_SEQUENCES];
    uint32_t list[DULIMOVEN_MOST_SEQUENCES];
    uint64_t answer = endless(sequence, length);
    size_t count;
    count_reason(answer);
    if (sequence >= sequences) {
        holds("why, of no sequence", answer == REFUSED(9, 0));
        return;
    }
    read_runs(runs, sequences);
    count = list_of(area + GUARD, words, runs, (uint32_t)sequence, list);
    if (runs[sequence])
        holds("why, and the card has a run", answer == REFUSED(16, 0));
    else if (count > length)
        holds("why, in too short an area", answer == REFUSED(17, 0));
    else
        holds("why, and another list by the cards and the words",
              answer == count &&
                  memcmp(found_why, list, count * sizeof list[0]) == 0 &&
                  list_supports(area + GUARD, words, found_why, count));
}

/* Why, of all sequences: with room for each, for all but one, and for none. */
static void why_all(uint32_t sequences)
{
    uint32_t c;
    for (c = 0; c <= sequences; c++) {
        why(c, sequences, sequences);
        why(c, sequences == 0 ? 0 : sequences - 1, sequences);
        why(c, 0, sequences);
    }
    why(UINT64_C(0x100000000), sequences, sequences);
}

/* The columns of a card have no fact from F upward, and the count is that of
 * its own. */
static void width(uint64_t sequence, uint32_t facts)
{
    const uint64_t *card = found_cards + DULIMOVEN_CARD_WORDS * sequence;
    struct column changeable = union_of(column_of(card, DULIMOVEN_MAY_SET),
                                        column_of(card, DULIMOVEN_MAY_CLEAR));
    int column;
    for (column = 1; column < NUMBERS; column++)
        holds("a column has a fact from F upward",
              is_within(column_of(card, column), facts_below(facts)));
    holds("the count is another",
          card[0] >> 8 == count_facts(changeable) &&
              dulimoven_changeable(card) == card[0] >> 8);
}

/* The calls over the image under test. Answers what the check does. */
static uint64_t all_calls(const char *name)
{
    static const uint64_t far = UINT64_C(0x100000000);
    uint64_t answer;
    uint64_t question;
    uint32_t f, c, sequence;
    image_name = name;
    image_number++;
    answer = check();
    seal();
    if (dulimoven_is_refusal(answer)) {
        holds("the cards refuse otherwise",
              cards(0) == answer && cards(DULIMOVEN_MOST_CARD_WORDS) == answer);
        for (question = 0; question <= 6; question++)
            holds("the chain refuses otherwise",
                  chain(question % 4, question, question % 3, 8) == answer);
        holds("the chain refuses otherwise", chain(far, 0, 0, 0) == answer);
        holds("why is refused otherwise",
              endless(0, 8) == answer && endless(2, 0) == answer &&
                  endless(far, 1) == answer);
        return answer;
    }
    f = dulimoven_facts(answer);
    c = dulimoven_sequences(answer);
    if (c != 0)
        holds("the cards have too little room",
              cards(DULIMOVEN_CARD_WORDS * c - 1) == REFUSED(8, 0));
    holds("the cards", cards(DULIMOVEN_CARD_WORDS * c) == c);
    for (sequence = 0; sequence < c; sequence++) {
        width(sequence, f);
        agree(sequence, 0, c);
        agree(sequence, f - 1, c);
        agree(sequence, f / 2, c);
        if (f > 64)
            agree(sequence, 63 + (sequence + f) % (f - 63), c);
        holds("question 6", chain(sequence, 6, 0, 2) == REFUSED(10, 0));
        holds("no such fact", chain(sequence, 5, f, 2) == REFUSED(11, 0));
        holds("a long fact", chain(sequence, 2, far, 2) == REFUSED(11, 0));
    }
    for (question = 0; question <= 6; question++)
        holds("no such sequence", chain(c, question, 0, 2) == REFUSED(9, 0));
    holds("a long sequence", chain(far, 0, 0, 2) == REFUSED(9, 0));
    why_all(c);
    return answer;
}

/* The library of examples/poll.image: sequences that call themselves. */
static const uint32_t poll[] = {
    HEAD(3, 4, 4),
    STEP(0), NEEDS(1),
    STEP(1), NEEDS(1), SETS(0),
    STEP(2), CLEARS(1), CLEARS(2),
    STEP(3), SETS(2),
    SEQUENCE(0), ALTERNATIVE, DO(0), CALL(0), ALTERNATIVE, DO(1),
    SEQUENCE(1), ALTERNATIVE, CALL(0), DO(2), ALTERNATIVE, CALL(2),
    SEQUENCE(2), ALTERNATIVE, DO(0), CALL(2),
    SEQUENCE(3), ALTERNATIVE, DO(3), CALL(0), ALTERNATIVE, CALL(3), CALL(3),
        ALTERNATIVE};

/* Those of setup.image, of refused.image, which clears fact 3 of three, and of
   skip.image, which has an alternative with a check. */
static const uint32_t setup[] = {SETUP};
static const uint32_t refused[] = {REFUSED_SETUP};
static const uint32_t skip[] = {SKIP};

/*
 * The library of examples/pulse.image: that of poll.image, and step 3 clears
 * the fact that it sets.
 */
enum { CLEAR = 11 };
static uint32_t pulse[COUNT(poll) + 1];

static void make_pulse(void)
{
    memcpy(pulse, poll, sizeof pulse[0] * CLEAR);
    pulse[CLEAR] = CLEARS(2);
    memcpy(pulse + CLEAR + 1, poll + CLEAR,
           sizeof pulse[0] * (COUNT(poll) - CLEAR));
}

/*
 * An image of examples/: its words without the sum word, and the answer of the
 * check; its sum word, and the one that it had by the rule before, or would
 * have had.
 */
struct example {
    const char *name;
    const uint32_t *words;
    size_t count;
    uint64_t answer;
    uint32_t sum, old_sum;
};

static const struct example examples[] = {
    {"l.image", library_l, L_SUM, ACCEPTED(3, 3, 3), 0xf1d65e90, 0xf018061a},
    {"setup.image", setup, COUNT(setup), ACCEPTED(3, 4, 4), 0xf4b4aa51,
     0xf020082b},
    {"poll.image", poll, COUNT(poll), ACCEPTED(3, 4, 4), 0xf4963e95,
     0xf0200834},
    {"skip.image", skip, COUNT(skip), ACCEPTED(3, 4, 4), 0xf4d9b273,
     0xf0200829},
    {"endless.image", ten, TEN_SUM, ACCEPTED(1, 1, TEN), 0xfe2be25b,
     0xf050026a},
    {"borders.image", borders, BORDERS_SUM, ACCEPTED(256, 2, BORDERS),
     0xf4aa1b5d, 0xf0280919},
    {"pulse.image", pulse, COUNT(pulse), REFUSED(13, CLEAR), 0xf4b872d7,
     0xf020082a},
    {"refused.image", refused, COUNT(refused), REFUSED(5, 8), 0xf4b4aaa5,
     0xf020082e}};

/*
 * "An accepted image in which two different entries change places then gets 2".
 * The two images that are refused for a fact word get 2, too: their entries are
 * in range. Equal entries leave the image as it was.
 */
static void exchange_pairs(const struct example *e)
{
    unsigned pairs = 0;
    size_t i, j;
    for (i = 0; i < e->count; i++)
        for (j = i + 1; j < e->count; j++) {
            if (!is_entry(e->words[i]) || !is_entry(e->words[j]))
                continue;
            build(e->words, e->count);
            *word_at(i) = e->words[j];
            *word_at(j) = e->words[i];
            holds("two entries changed places",
                  all_calls(e->name) == (e->words[i] == e->words[j]
                                             ? e->answer
                                             : REFUSED(2, e->count)));
            pairs += e->words[i] != e->words[j];
        }
    holds("no two entries differ", pairs > 0);
}

/* "one under the old rule is judged by 2 like any other" */
static void under_old_rule(const char *name, const uint32_t *given,
                           size_t count, uint32_t old_sum)
{
    start();
    put_all(given, count);
    put(old_sum);
    holds("the sum word of the rule before is taken",
          all_calls(name) == REFUSED(2, count));
}

/*
 * An example with the head that it had before request 8, and the sum word that
 * goes with it: it is judged as any other. L has 387 facts by such a head; in
 * the others a step, the first or the second, is not below A.
 */
static void under_old_head(void)
{
    static const struct {
        size_t example;
        uint32_t head, sum;
        uint64_t answer;
    } old[] = {{0, 0x100c0183, 0xf0f20910, REFUSED(3, 0)},
               {1, 0x10100203, 0xf273d251, REFUSED(5, 3)},
               {2, 0x10100203, 0xf2656c95, REFUSED(5, 3)},
               {3, 0x10100203, 0xf288d473, REFUSED(5, 3)},
               {4, 0x10280081, 0xf74ba05b, REFUSED(5, 1)},
               {6, 0x10100203, 0xf2779ad7, REFUSED(5, 3)},
               {7, 0x10100203, 0xf273d2a5, REFUSED(5, 3)}};
    size_t i;
    for (i = 0; i < COUNT(old); i++) {
        const struct example *e = &examples[old[i].example];
        start();
        put_all(e->words, e->count);
        put(old[i].sum);
        *word_at(0) = old[i].head;
        holds("an old head is judged otherwise",
              all_calls(e->name) == old[i].answer);
    }
}

/* Images beside the examples that were issued again, with the old sum words. */
static void old_images(void)
{
    static const struct {
        const char *name;
        size_t count;
        uint32_t words[15];
    } old[] = {
        {"one fact", 2, {0x10000001, 0xf0000002}},
        {"no fact", 2, {0x10000000, 0xf0000001}},
        {"F = 64", 2, {0x10000040, 0xf0000041}},
        {"F = 65", 2, {0x10000041, 0xf0000042}},
        {"<itself>, <>", 6,
         {0x10040001, 0x60000000, 0x70000000, 0x90000000, 0x70000000,
          0xf004000f}},
        {"<set, endless>, <clear>", 15,
         {0x10080101, 0x50000000, 0x30000000, 0x50000001, 0x40000000,
          0x60000000, 0x70000000, 0x80000000, 0x90000001, 0x70000000,
          0x80000001, 0x60000001, 0x70000000, 0x90000001, 0xf008010b}},
        {"<clear, need>", 10,
         {0x10040101, 0x50000000, 0x40000000, 0x50000001, 0x20000000,
          0x60000000, 0x70000000, 0x80000000, 0x80000001, 0xf0040111}},
        {"a step sets and clears a fact", 8,
         {0x10040081, 0x50000000, 0x30000000, 0x40000000, 0x60000000,
          0x70000000, 0x80000000, 0xf0040083}}};
    size_t i;
    for (i = 0; i < COUNT(old); i++)
        under_old_rule(old[i].name, old[i].words, old[i].count - 1,
                       old[i].words[old[i].count - 1]);
}

static void example_images(void)
{
    size_t i;
    for (i = 0; i < COUNT(examples); i++) {
        const struct example *e = &examples[i];
        start();
        put_all(e->words, e->count);
        put(e->sum);
        holds("an example image gets another answer",
              all_calls(e->name) == e->answer);
        exchange_pairs(e);
        under_old_rule(e->name, e->words, e->count, e->old_sum);
    }
}

static int sum_is_right(void)
{
    return *word_at(words - 1) == sum_word_after(area + GUARD, words - 1);
}

/*
 * Each word of a library changed in each nibble to each other value, with the
 * sum word as it was and with one that is right again. As it was it is wrong
 * for the changed words, unless they happen to have the same sum word, and then
 * the answer is refusal 2 at the last word.
 */
static void nibbles(const char *name, const uint32_t *library, size_t count)
{
    unsigned accepted = 0;
    size_t word;
    unsigned nibble, change;
    build(library, count);
    holds("the library is refused", !dulimoven_is_refusal(all_calls(name)));
    for (word = 0; word <= count; word++) {
        for (nibble = 0; nibble < 8; nibble++) {
            for (change = 1; change < 16; change++) {
                build(library, count);
                *word_at(word) ^= (uint32_t)change << 4 * nibble;
                holds("damage is not seen",
                      sum_is_right() || all_calls(name) == REFUSED(2, count));
                if (word == count)
                    continue;
                sum_again();
                if (!dulimoven_is_refusal(all_calls(name)))
                    accepted++;
            }
        }
    }
    /* a fact below F, an entry below A, C or F, an entry's kind */
    holds("no damaged image is accepted", accepted > 0);
}

/* Numbers that look random, the same ones each time (splitmix64). */
static uint64_t state = UINT64_C(0x00d01130);

static uint64_t random_bits(void)
{
    uint64_t z = state += UINT64_C(0x9e3779b97f4a7c15);
    z = (z ^ (z >> 30)) * UINT64_C(0xbf58476d1ce4e5b9);
    z = (z ^ (z >> 27)) * UINT64_C(0x94d049bb133111eb);
    return z ^ (z >> 31);
}

static uint32_t below(uint32_t bound)
{
    return (uint32_t)(random_bits() % bound);
}

/* One of the kinds that stand between head and sum word. */
static uint32_t likely_kind(void)
{
    uint32_t kind = KIND_NEEDS + below(9);
    return kind <= KIND_SEQUENCE_ENTRY ? kind : (uint32_t)KIND_CHECK;
}

/* Random words: as they come, with a head and a sum word, of likely kinds. */
static void noise(void)
{
    static const size_t lengths[] = {FULL - 2, FULL - 1, FULL, FULL + 1};
    unsigned n;
    for (n = 0; n < 4000; n++) {
        size_t length = n < 16 ? lengths[n % 4] : below(48);
        unsigned form = n / 4 % 4;
        start();
        if (form > 0 && length > 0)
            put(HEAD(1 + below(MOST_F), below(4), below(4)));
        while (words + 1 < length) {
            uint32_t word = (uint32_t)random_bits();
            if (form == 2)
                word = WORD(kind_of(word), payload_of(word) & 3);
            else if (form == 3)
                word = WORD(likely_kind(), below(3));
            put(word);
        }
        if (words < length && form == 0)
            put((uint32_t)random_bits());
        else if (words < length)
            put_sum();
        all_calls("random words");
    }
}

/* A step with random fact words, which clears no fact that it sets. */
static void random_step(uint32_t number, uint32_t facts)
{
    struct column sets = low_facts(0);
    uint32_t kind, fact;
    put(STEP(number));
    for (kind = KIND_NEEDS; kind <= KIND_CLEARS; kind++)
        for (fact = 0; fact < facts; fact++) {
            if (below(facts < 4 ? 4 : facts) != 0)
                continue;
            if (kind == KIND_SETS)
                sets = union_of(sets, one_fact(fact));
            if (kind != KIND_CLEARS || !is_in(fact, sets))
                put(WORD(kind, fact));
        }
}

/* A random entry: one in four a check, and of the others half are steps. */
static uint32_t random_entry(uint32_t facts, uint32_t steps, uint32_t sequences)
{
    if (below(4) == 0)
        return CHECK(below(facts));
    if (steps > 0 && below(2) == 0)
        return DO(below(steps));
    return CALL(below(sequences));
}

/* Members of a list: below `bound`, and of one in eight lists one not. */
static void random_members(uint32_t *members, size_t count, uint32_t bound)
{
    size_t i;
    for (i = 0; i < count; i++)
        members[i] = bound == 0 ? 0 : below(bound);
    if (count != 0 && below(8) == 0)
        members[below((uint32_t)count)] =
            below(2) == 0 ? bound : (uint32_t)random_bits() | bound;
}

/* A number of facts: those of a library, more than 64 or not, or any other. */
static uint64_t random_facts(void)
{
    uint32_t form = below(8);
    return form < 3    ? below(66)
           : form < 6  ? below(MOST_F + 2)
           : form == 6 ? UINT64_C(1) << below(64)
                       : random_bits();
}

/* Numbers of sequences that no area has room for; 49 times the last ones is a
 * small number with wrap at 2^64. */
static uint64_t far_sequences(void)
{
    uint32_t form = below(4);
    return form == 0   ? random_bits()
           : form == 1 ? UINT64_C(1) << (32 + below(32))
                       : ~UINT64_C(0) / DULIMOVEN_CARD_WORDS + 1 + below(3);
}

/* The answers of lists so far: given, 8, 14 and 15. */
static unsigned listed[4];

static void count_answer(uint64_t answer)
{
    static const uint32_t numbers[4] = {0, 8, 14, 15};
    unsigned i;
    for (i = 0; i < 4; i++)
        listed[i] += dulimoven_refusal_of(answer) == numbers[i];
}

/*
 * Lists over the cards of the library under test, with its F and C, and with
 * others, some of which pass the room.
 */
static void lists_of_library(uint32_t facts, uint32_t sequences)
{
    uint32_t members[8];
    struct listed l = {facts, sequences, found_cards,
                       (size_t)DULIMOVEN_CARD_WORDS * sequences, members,
                       below(8)};
    random_members(members, l.list_len, sequences);
    count_answer(list(&l));
    l.facts = random_facts();
    l.sequences = below(sequences + 2);
    count_answer(list(&l));
}

/*
 * Why, of random numbers and with areas of random length, over the cards of the
 * library under test.
 */
static void random_reasons(uint32_t sequences)
{
    unsigned n;
    for (n = 0; n < 8; n++) {
        uint32_t form = below(8);
        uint64_t sequence = form < 6    ? below(sequences + 2)
                            : form == 6 ? UINT64_C(1) << below(64)
                                        : random_bits();
        why(sequence, below(2 * sequences + 2), sequences);
    }
}

/*
 * A word of a random card: of few bits, of many, or any. A bit that a list has
 * must be one that all members have, or that many of them let pass.
 */
static uint64_t random_word(unsigned form)
{
    uint64_t word = random_bits();
    if (form == 1)
        word &= random_bits() & random_bits();
    else if (form == 2)
        word |= random_bits() | random_bits();
    return word;
}

/*
 * Lists over random words: areas of no word up to all cards, C that is theirs,
 * near it or far off, lists of no member up to more than there may be.
 */
static void lists(void)
{
    static uint64_t words_given[DULIMOVEN_MOST_CARD_WORDS];
    static uint32_t members[2 * DULIMOVEN_MOST_LIST];
    unsigned n;
    size_t i;
    for (n = 0; n < 6000; n++) {
        int large = n % 16 == 0;
        uint32_t cards_there = below(large ? MOST_C + 1 : 6);
        struct listed l = {random_facts(), cards_there, words_given,
                           (size_t)DULIMOVEN_CARD_WORDS * cards_there, members,
                           below(large ? COUNT(members) + 1 : 6)};
        unsigned form = below(3);
        image_name = "random cards";
        image_number++;
        for (i = 0; i < l.cards_len; i++)
            words_given[i] = random_word(form);
        /* most members have a run */
        for (i = 0; i < cards_there; i++)
            words_given[DULIMOVEN_CARD_WORDS * i] |= below(8) != 0;
        switch (below(8)) {
        case 0:
            /* a word more or less */
            l.cards_len += l.cards_len == 0 || below(2) == 0 ? 1 : (size_t)-1;
            if (l.cards_len > DULIMOVEN_MOST_CARD_WORDS)
                l.cards_len = DULIMOVEN_MOST_CARD_WORDS;
            break;
        case 1:
            /* a sequence more or less */
            l.sequences += below(2) == 0 ? 1 : ~UINT64_C(0);
            break;
        case 2:
            l.sequences = far_sequences();
            break;
        case 3:
            /* the most members, one less or one more */
            if (large)
                l.list_len = DULIMOVEN_MOST_LIST - 1 + below(3);
            break;
        }
        random_members(members, l.list_len, cards_there);
        count_answer(list(&l));
    }
}

/* Each answer, over random words and over libraries, came often. */
static void all_answers(void)
{
    unsigned i;
    for (i = 0; i < 4; i++) {
        holds("an answer of the list call is rare", listed[i] >= 50);
        holds("an answer to why there is no run is rare", reasons[i] >= 50);
    }
}

/*
 * Random libraries, which are accepted, and each with one nibble changed and
 * the sum word made right again.
 */
static void libraries(void)
{
    unsigned n;
    for (n = 0; n < 1000; n++) {
        uint32_t f = 1 + below(n % 3 == 0 ? MOST_F : 4);
        uint32_t a = below(6);
        uint32_t c = below(7);
        uint32_t i, alternatives, entries;
        start();
        put(HEAD(f, a, c));
        for (i = 0; i < a; i++)
            random_step(i, f);
        for (i = 0; i < c; i++) {
            put(SEQUENCE(i));
            for (alternatives = below(4); alternatives > 0; alternatives--) {
                put(ALTERNATIVE);
                for (entries = below(4); entries > 0; entries--)
                    put(random_entry(f, a, c));
            }
        }
        put_sum();
        holds("a library is refused",
              all_calls("a random library") == ACCEPTED(f, a, c));
        lists_of_library(f, c);
        random_reasons(c);
        *word_at(below((uint32_t)words - 1)) ^= 1u << below(32);
        sum_again();
        all_calls("a damaged random library");
    }
}

int main(void)
{
    int which;
    for (which = 0; which < 2; which++) {
        image_pages[which] = pages(IMAGE_BYTES);
        card_pages[which] = pages(CARD_BYTES);
        chain_pages[which] = pages(CHAIN_BYTES);
        why_pages[which] = pages(WHY_BYTES);
        list_pages[which] = pages(LIST_BYTES);
        one_card_pages[which] = pages(ONE_CARD_BYTES);
    }
    make_pulse();
    nibbles("L", library_l, L_SUM);
    nibbles("poll.image", poll, COUNT(poll));
    nibbles("skip.image", skip, COUNT(skip));
    nibbles("borders.image", borders, BORDERS_SUM);
    example_images();
    under_old_head();
    old_images();
    noise();
    libraries();
    lists();
    all_answers();
    printf("damage_test: %u checks, %u failed\n", ran, failed);
    return failed == 0 ? 0 : 1;
}
