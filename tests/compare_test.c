/*
 * Compares the library with the second engine over libraries made from a seed
 * (tests/second), of seventeen kinds. To every two libraries of a kind there is
 * one with another number of facts, up to 256.
 *
 * The flags and the first seven columns of a card are compared with those of
 * the second engine, which works by the algorithms printed in source document
 * 001. The chain call is asked every question (of the largest libraries, and of
 * those with many facts, about some facts and some sequences), and each link is
 * held against the words of the library; plain
 * rounds say how many links are the fewest, what depth is the least and which
 * choice is the newest. The rounds are held against the second engine's columns
 * too, and of the facts asked about the last five columns of a card against the
 * rounds. The check is compared with the second engine's over each library, and
 * over the same with some damage. A library with a pulse must get refusal 13
 * from all calls, at the clear word; with some damage beside it the check is
 * compared again. One in which two different entries have changed places must
 * get refusal 2, at the last word, and once they are back be accepted.
 *
 * Of every sequence it is asked why it has no run. The answer must be 16
 * exactly where the card says that it has one, and by the rounds; otherwise the
 * list must be that of the sequences without a run that plain rounds over the
 * words reach, in rising order, and every alternative of a member must name a
 * member. In an area of a word less it must get 17.
 *
 * To each library with room for it a sequence is added with one alternative,
 * which names a list of 0 to 5 sequences. The list's card by dulimoven_list,
 * over the cards of the library without it, must be the card of that sequence,
 * and the other sequences must have the same cards with it.
 *
 * What it would catch: a card word that the algorithms or the rounds do not
 * give, or a word changed past the cards; a list's card that is not that of the
 * added sequence; "none" where a run has the outcome, or a chain where
 * none has; a link about another sequence, or with an alternative or a position
 * that does not exist; one whose entry is not a step or a check with the touch
 * or the sequence of the next link, or beside whose entry another touches the
 * fact that must not, or has no run; an untouched link whose alternative cannot
 * stay untouched; more links than the fewest; a choice that is not the newest;
 * words changed past a chain or on "none"; a library refused, or a damaged one
 * judged otherwise; a pulse that is not refused, or at another word, or with a
 * word of an area changed; two entries that change places without being
 * noticed; 16 where there is no run, or a list where there is one; a sequence
 * left out of a list, one with a run or one that is not reached on it, another
 * order, a word past it changed; a call that does not end.
 *
 * Tried: the engine was broken on a copy, compiled without its proofs and
 * linked with this test. Each break was reported, first by the words after it.
 * Columns were of one word then, so that word n is the n-th number of a card.
 *   row, a run of two entries is one of either (`x.run | y.run`): word 2 of a
 *     card, bits from F upward
 *   row, a touch counts though a later entry always touches
 *     (`x.present & x.present`): word 4 of a card, 6 for 4
 *   writer, a run may leave an always set fact untouched
 *     (`union(rival, rival)`): word 2 of a card, 7 for 0
 *   writer, a card too many is written (`c <= n`): word 1 of a card past
 *     the last
 *   link, a link with one link more after it is taken (`t.rank <= k + 1`): a
 *     link's entry does not give the touch, or is no sequence
 *   link, a newer alternative with more links is taken (`k <= t.rank`): a
 *     link's entry does not give the touch, or is no sequence
 *   link, a link is taken though a later entry touches (`tail <= next` left
 *     out), or though one ahead of the position does (`ok = ok`): beside a
 *     link's entry another touches the fact, or has no run
 *   link, a position counts only where its own entry, too, could stay untouched
 *     (`tail <= i`): a link is about another sequence, or about no alternative
 *   link, a kind 12 link names the last alternative, whatever its depth
 *     (`value <= 1000`): a link is not the newest choice
 *   link, the oldest alternative that fits is kept in place of the newest, in
 *     `chosen_link` and, by itself, in `chosen_alternative`: a link is not the
 *     newest choice
 *   walk, the alternatives are counted from 1; those of later sequences are
 *     taken in; on the way back an empty alternative is passed over, a step or
 *     a check is taken for an opener, or the first word is (six breaks): a link
 *     is about another sequence, or about no alternative
 *   walk, the second opener is kept in place of the last: a link's second word
 *     is of a wrong kind, or names no entry
 *   slot, an entry behind the position is held to what is asked of one ahead
 *     (`passes(none, ahead, w)`): none, and a run has the outcome
 *   rank, entries ahead of the position may touch
 *     (`select(t.ahead, x.floor, x.floor)`): the links are not the fewest
 *   rank, with an entry that is dead an alternative comes to the depth so far,
 *     or to the fewest links so far (two breaks): a chain, and no run has the
 *     outcome; to 0: beside a link's entry another touches the fact, or has no
 *     run
 *   outcome, an alternative with a dead entry has the row of what was read
 *     before it, or a run: word 1 of a card, 3 for 0
 *   walk, after a dead entry five words are passed where four were tested,
 *     or an opener after three entries (two breaks): word 1 of a card
 *   question, one word more is written: words past what is written are
 *     changed
 *   settling, callers are stale where a visit changed nothing, and not where it
 *     did (`if !changed`): the time limit is over, and no answer from
 *     dulimoven_cards
 *   outcome, a visit always says that it changed the table, and rank, that it
 *     lowered a rank: the time limit is over, and no answer from
 *     dulimoven_cards, and from dulimoven_chain
 * Breaks of what a check is, and of the eighth word:
 *   image, a check is no entry: word 1 of a card, 3 for 103
 *   rules, a check's fact is held against A, or may be F, in the quick test of
 *     a word, in that of an entry or in the rule for payloads, or is not tested
 *     by the first or the last (eight breaks); no check may stand anywhere, or
 *     nothing after one, by the rule for kinds (two breaks): the check answers
 *     otherwise once the library is damaged
 *   reader, of the words after the fours every other one is read (`i += 2`),
 *     or none at the end; of four words three are tested (three breaks):
 *     refused by the library
 *   reader, the first word after the fours is passed (`i + 1`): the check
 *     answers otherwise once the library is damaged
 *   callers, a check ends the search for calls: word 1 of a card, 3 for 103
 *   row, a check makes a run that is not empty: word 1 of a card, 1 for 3
 *   row, a check sets or clears its fact on the last side (two breaks): word 1
 *     of a card, 203 for 103; no run with it leaves the fact untouched there:
 *     word 6 of a card, 1 for 0
 *   row, a check is one of the next fact, is no need, or is a set on the first
 *     side (three breaks): word 3 of a card, 0 for 4
 *   row, a check leaves its fact untouched on the first side too: word 2 of a
 *     card, 2 for 3
 *   row, a check clears its fact (`cleared: fact`), or does not mention it
 *     (`unmentioned: ALL_BITS`): word 8 of a card, 2 for 3; it mentions all
 *     facts: word 8 of a card, 7 for 5
 *   row, a step that needs and clears a fact leaves it standing
 *     (`clears & !needs`), or no step clears one; what a step needs, or what it
 *     sets, is not mentioned (four breaks): word 8 of a card
 *   row, of two entries that mention a fact the earlier one decides; what the
 *     earlier, or the later one clears is lost; what the earlier one clears
 *     counts though the later one mentions it (four breaks): word 8 of a card
 *   row, a fact is not mentioned where one of two entries does not mention it,
 *     or the later one; the empty run mentions all facts; a run that clears
 *     last, or one that mentions nothing, counts only where each alternative
 *     has one (five breaks): word 8 of a card
 *   row, a row in which only `cleared` has grown is the same: word 8 of a card,
 *     2 for 0, in small library 6347; no other test was seen to report it
 *   row, `cleared` is not stored: word 8 of a card, 7 for 2; `unmentioned` is
 *     not: the time limit is over, and no answer from dulimoven_cards
 *   writer, the eighth word is made of the last side's columns, lets a run have
 *     no such item or clear last, asks for no run, or is not written (five
 *     breaks): word 8 of a card
 *   writer, a card has seven words: word 7 of a card
 *   card, 8 asks 9 x C words: the card call answers another number
 *   outcome, a check is left out: word 3 of a card, 0 for 4; it is dead, or the
 *     last entry that is read (two breaks): word 1 of a card, 3 for 103; it is
 *     joined ahead of the entries before it: word 2 of a card, bits from F
 *     upward
 *   walk, a step or a check is no entry, or a check alone is one (`part_entry`,
 *     three breaks); a call or a step is a check (`is_check`, two breaks): word
 *     1 of a card
 *   walk, no entry is a check: word 3 of a card, 0 for 4
 *   walk, an opener is an entry: none, and a run has the outcome
 *   slot, a check of another fact has the mark, or each check has it; a check
 *     touches on the last side too, or there alone; a call's rank is looked for
 *     among those of the checks (five breaks): a chain, and no run has the
 *     outcome
 *   slot, no check has the mark, or it has that of a set; the checks of 63
 *     facts have ranks; the steps' ranks are looked for one word early or late,
 *     or are written one late; a check's is looked for among those of the steps
 *     (seven breaks): none, and a run has the outcome
 *   slot, a check's rank is looked for among those of the sequences: a link's
 *     entry does not give the touch, or is no sequence
 *   chain, a table of ranks is one word short, or has words for the checks of F
 *     facts alone (two breaks): none, and a run has the outcome
 *   row, a step does not mention what it clears, or the first side's
 *     `untouched` stands for `unmentioned` in `joined` (two breaks): the last
 *     five words of a card differ from the rounds
 *   row, a row in which only `unmentioned` has grown is the same: the same, and
 *     no other test reports it
 * Not reported is that 8 asks too few words (card/thirteen_words_suffice), since
 * the card areas here have room; cards_test has it. Some breaks change no
 * answer: that kind 12 is an entry too (image), since no accepted library has
 * one; that a quick test knows no check, or nothing after one (rules), since
 * the rules then judge the word; that the reader of the words after the fours
 * keeps the word before them, of which only the kind is asked; that a check is
 * taken for a call (callers), which costs visits; a check's `run`, which is not
 * read; that the first side's `untouched` stands for `unmentioned` in the
 * eighth word (writer): a run that needs, sets and checks a fact nowhere either
 * does not mention it or clears it last. All but the three of `row` were tried
 * with cards of eight words.
 * Breaks of the last five words, in which the words that the card call had
 * written were changed before they were looked at: words 9 and 10, 10 and 11 or
 * 12 and 13 exchanged; word 9 is "may set", or has what is needed and set too;
 * word 10 lacks a fact without an empty run; word 11 is the empty run's alone,
 * or has all facts without a run; word 12 is "may clear", or "always cleared"
 * and not "always stands"; word 13 is word 10 or 11, or lacks what word 12 has;
 * bits from F upward in word 10 or 13; the five are 0, or are not written (17
 * breaks, over a quarter of the libraries): all are reported.
 * Breaks of the list call, in whose place the rule of list_model.h stood: of
 * those that list_test names, the 36 that are about the card of a list over a
 * library's cards, another answer or changed cards, over a quarter of the
 * libraries: all are reported, as words of the added sequence's card. What is
 * about refusals, F, areas that no library fills or the list is not tried here.
 * Breaks of the call that says why there is no run, in whose place plain passes
 * stood: of the 27 that endless_test names, the 21 that are about sequences of
 * the library and areas that are long enough or a word short, over a quarter of
 * the libraries: all are reported, as what is wrong with a list. Those about
 * numbers out of range, empty areas and an area that has the list's length and
 * no more are not tried here.
 * Breaks of the head, of blocks of 64 facts and of columns of four words, in
 * the plain engine of bench/, which stood in the library's place: 35 of them,
 * over a hundredth of the libraries. 257 or 511 facts or 257 sequences taken; a
 * fact by its low six bits, or F let through; 13 by the fact's remainder, for
 * facts below 64 alone, or by what a step before sets; the block's facts one
 * too far; the block of a mask, of a check or of a question's fact ignored;
 * block 1 written to word 0, words in the other order, the second block or the
 * last left out, the count of one block or in seven bits, words past the facts
 * not cleared, or all facts of a block though F ends in it; a list's card by
 * one word, with bits from F upward or of the next block: all of these are
 * reported here, and each by check_test, cards_test, chain_test or list_test
 * too. Not reported here are that 1,023 steps are refused and that 13 is not
 * for fact 255 (check_test), 8 by 13 or 48 times C or with wrap, and F of a
 * list by its low nine bits or dropping all above 256 (cards_test, list_test,
 * damage_test). A block too many changes no answer.
 * And breaks of the code that request 5 brought or moved, compiled without its
 * proofs: 26 of the list call and of all facts below a number, of which those
 * about refusals, about F = 0 and about bits that no library's cards have are
 * reported by list_test alone (eight), and all others here too; ten of the card
 * writer, three of a row's columns of what stands, one of a table of rows: all
 * are reported. Where the first word of every row is read from row 0,
 * cards_test had not ended after half a minute and was stopped; it was not
 * tried here.
 * And the must-fail edits of the crates that changed the code of the three
 * calls when this was tried, 83 of them: all are reported but ten, one of which
 * is that of too few words. What shows in no answer and no area is not: bits
 * from F upward in the outcome table (column/bits_above); an order of visits that
 * is never asked for (order/one_number), and the test that would ask for it
 * (order/untested); clear words judged one by one where they could be read
 * together (column/apart_if_empty); small areas for one sequence more, which
 * then have the room (tables/small_for_more); where a walk over entries ended
 * (reading/left_where_it_began, rank/all_ranked_where_it_began), or that it
 * went on past a dead one (rank/dead_unasked). Nor is the order of refusals 10
 * and 11 (question/eleven_before_ten), since all questions here are in range;
 * chain_test has it.
 *
 * C11 and C++17. Prints a line for each of the first dozen differences, the
 * counts of each kind, and last the total with its differences; the exit status
 * is 0 where there are none. The output is fixed by the seed.
 */
#define _POSIX_C_SOURCE 200112L
#include "dulimoven.h"
#include "second/judge.h"
#include "second/second.h"
#include "second/seeded.h"

#include <inttypes.h>
#include <signal.h>
#include <stdio.h>
#include <string.h>
#include <unistd.h>

/* With the sanitizers, which are slow, and as C++, where all is tried once more,
 * one library in so many is tried. */
#if defined(__SANITIZE_ADDRESS__) || defined(__cplusplus)
enum { SHARE = 4 };
#else
enum { SHARE = 1 };
#endif

/*
 * How many libraries of a kind are tried, in the order of the kinds, beside
 * those with another number of facts, and of how many facts and of how many
 * sequences one is asked about.
 */
static const struct trial {
    unsigned libraries, facts, sequences;
} trials[SEEDED_KINDS] = {
    {40000, 1, 1}, {16000, 1, 1}, {16000, 1, 1}, {16000, 1, 1}, {2000, 1, 1},
    {2000, 1, 1},  {12000, 1, 1}, {1000, 1, 1},  {16000, 1, 1}, {2000, 1, 1},
    {20000, 1, 1}, {40, 1, 16},   {40, 1, 8},    {40, 1, 8},    {12, 21, 16},
    {16000, 1, 1}, {200, 1, 16}};

/* Of so many facts one is asked about where there are many. */
enum { WIDE_APART = 31 };

static const uint64_t first_seed = UINT64_C(0x2545f4914f6cdd1d);

/*
 * What is counted of the libraries of a kind, or of all. `wide` are those of
 * more than 64 facts, `pulses` the libraries with a pulse, `pulses_damaged` the
 * damaged ones of them that still get refusal 13, `exchanges` those in which
 * two entries changed places, `endless` the sequences without a run, and
 * `reached` the members of the lists that say why.
 */
struct tally {
    uint64_t libraries, wide, sequences, card_words, checks, pulses,
        pulses_damaged, exchanges, questions, chains, links, endless, reached,
        lists, members, differences;
};

static struct tally tally;

/* The library under trial. */
static struct image image;
static const char *kind_name;

/*
 * The time limit of one library. The handler says which library it is, and
 * which call has not ended.
 */
enum { LIMIT_SECONDS = 60 };
static char library_name[80];
static const char *volatile call_name;

static void say(const char *text)
{
    if (write(STDOUT_FILENO, text, strlen(text)) < 0)
        _exit(1);
}

static void time_is_up(int number)
{
    (void)number;
    say(library_name);
    say(": the time limit is over, and no answer from ");
    say(call_name);
    say("\n");
    _exit(1);
}

static void begin_library(void)
{
    tally.libraries++;
    tally.wide += facts_of(image.words[0]) > WORD_FACTS;
    snprintf(library_name, sizeof library_name, "%s, library %" PRIu64,
             kind_name, tally.libraries);
    alarm(LIMIT_SECONDS);
}

/* Counts a difference, and says whether it is one of the dozen printed. */
static int is_printed(void)
{
    enum { MOST_PRINTED = 12 };
    static uint64_t all;
    tally.differences++;
    all++;
    return all <= MOST_PRINTED;
}

static void differs(const char *what)
{
    if (is_printed())
        printf("%s: %s\n", library_name, what);
}

/*
 * `i` is the word's place in a card area, `other` what says otherwise. A card's
 * numbers count from 1, the flags, and a column's words from 0.
 */
static void word_differs(size_t i, uint64_t word, uint64_t second,
                         const char *other)
{
    size_t place = i % CARD_WORDS;
    size_t number = (place + COLUMN_WORDS - 1) / COLUMN_WORDS + 1;
    if (is_printed())
        printf("%s, number %zu of sequence %zu's card, word %zu: %" PRIx64
               ", and %" PRIx64 " by %s\n",
               library_name, number, i / CARD_WORDS,
               place == 0 ? 0 : (place - 1) % COLUMN_WORDS, word, second,
               other);
}

static void chain_differs(uint32_t sequence, uint32_t question, uint32_t fact,
                          const char *what)
{
    if (is_printed())
        printf("%s, sequence %" PRIu32 ", question %" PRIu32 ", fact %" PRIu32
               ": %s\n",
               library_name, sequence, question, fact, what);
}

static void list_differs(uint32_t sequence, const char *what)
{
    if (is_printed())
        printf("%s, sequence %" PRIu32 ", why it has no run: %s\n",
               library_name, sequence, what);
}

static uint64_t check(const struct image *checked)
{
    call_name = "dulimoven_check";
    return dulimoven_check(checked->words, checked->length);
}

/* A library is accepted by both engines. */
static void try_check(void)
{
    uint64_t accepted = payload_of(image.words[0]);
    tally.checks++;
    if (check(&image) != accepted)
        differs("refused by the library");
    if (second_check(image.words, image.length) != accepted)
        differs("refused by the second engine");
}

/* How many times an image is damaged. */
enum { DAMAGES = 4 };

/* Changes a word, leaves one out, doubles one or lets two change places. */
static void damage(struct seed *seed, struct image *damaged)
{
    uint32_t *word = damaged->words + draw(seed, (uint32_t)damaged->length - 1);
    size_t after = (size_t)(damaged->words + damaged->length - 1 - word);
    uint32_t before = *word;
    switch (draw(seed, 4)) {
    case 0:
        *word ^= UINT32_C(1) << draw(seed, 32);
        break;
    case 1:
        memmove(word, word + 1, after * sizeof *word);
        damaged->length--;
        break;
    case 2:
        if (damaged->length == MOST_WORDS)
            break;
        memmove(word + 1, word, (after + 1) * sizeof *word);
        damaged->length++;
        break;
    default:
        word[0] = word[1];
        word[1] = before;
    }
}

/*
 * The damaged image, most times with a sum word that is right again. Answers
 * what the second engine does.
 */
static uint64_t try_damage(struct seed *seed, const struct image *whole)
{
    static struct image damaged;
    uint64_t answer;
    image_copy(&damaged, whole);
    damage(seed, &damaged);
    if (draw(seed, 8) != 0) {
        damaged.length--;
        image_end(&damaged);
    }
    tally.checks++;
    answer = second_check(damaged.words, damaged.length);
    if (check(&damaged) != answer)
        differs("the check answers otherwise once the library is damaged");
    return answer;
}

/* The card areas of both engines, with words past the last card. */
enum { CARD_AREA = DULIMOVEN_MOST_CARD_WORDS + 8 };
static uint64_t cards[CARD_AREA];
static uint64_t second[CARD_AREA];

/* What each byte of a card area holds before the call. */
enum { CARDS_BEFORE = 0xa5 };

/* The last five columns of a card have no fact from F upward. */
static void try_width(size_t i)
{
    struct column below = facts_below(facts_of(image.words[0]));
    uint64_t all = below.word[(i % CARD_WORDS - 1) % COLUMN_WORDS];
    if ((cards[i] & ~all) != 0)
        word_differs(i, cards[i], cards[i] & all, "facts below F alone");
}

static void try_cards(void)
{
    uint32_t sequences = sequences_of(image.words[0]);
    size_t i, last = (size_t)DULIMOVEN_CARD_WORDS * sequences;
    memset(cards, CARDS_BEFORE, sizeof cards);
    memset(second, CARDS_BEFORE, sizeof second);
    call_name = "dulimoven_cards";
    if (dulimoven_cards(image.words, image.length, cards, CARD_AREA) !=
        sequences)
        differs("the card call answers another number");
    call_name = "second_cards";
    if (second_cards(image.words, image.length, second, CARD_AREA) != sequences)
        differs("the second engine answers another number");
    for (i = 0; i < CARD_AREA; i++)
        if (i < last && i % CARD_WORDS >= SECOND_WORDS)
            try_width(i);
        else if (cards[i] != second[i])
            word_differs(i, cards[i], second[i], "the second engine");
    tally.sequences += sequences;
    tally.card_words += last;
}

/* How many members a list has at the most. */
enum { MOST_MEMBERS = 5 };

/* The library with a sequence more: one alternative, which names the list. */
static void add_sequence(const uint32_t *list, uint32_t count,
                         struct image *added)
{
    uint32_t head = image.words[0], sequences = sequences_of(head), i;
    image_copy(added, &image);
    added->words[0] =
        head_word(facts_of(head), steps_of(head), sequences + 1);
    added->length--;
    image_put(added, KIND_SEQUENCE, sequences);
    image_put(added, KIND_ALTERNATIVE, 0);
    for (i = 0; i < count; i++)
        image_put(added, KIND_SEQUENCE_ENTRY, list[i]);
    image_end(added);
}

/*
 * "Over an area that the card call filled, with that library's F and C, the
 * list's card equals that of an added sequence, limits aside, whose one
 * alternative names the list."
 */
static void try_list(struct seed *seed)
{
    static struct image added;
    static uint64_t with_list[CARD_AREA];
    uint32_t list[MOST_MEMBERS], count = draw(seed, MOST_MEMBERS + 1), c;
    uint32_t sequences = sequences_of(image.words[0]);
    size_t i, last = (size_t)DULIMOVEN_CARD_WORDS * sequences;
    uint64_t answer;
    if (sequences == 0)
        count = 0;
    if (sequences == MOST_SEQUENCES || image.length + 2 + count > MOST_WORDS)
        return;
    for (c = 0; c < count; c++)
        list[c] = draw(seed, sequences);
    tally.lists++;
    tally.members += count;
    add_sequence(list, count, &added);
    call_name = "dulimoven_cards";
    if (dulimoven_cards(added.words, added.length, with_list, CARD_AREA) !=
        sequences + 1)
        differs("the card call answers another number with a list");
    /* the list's card follows those of the library */
    call_name = "dulimoven_list";
    answer = dulimoven_list(facts_of(image.words[0]), sequences, cards, last,
                            list, count, cards + last);
    if (answer != 0)
        differs("the list call answers another number");
    for (i = 0; i < last + DULIMOVEN_CARD_WORDS; i++)
        if (cards[i] != with_list[i])
            word_differs(i, cards[i], with_list[i],
                         "the library with the list as a sequence");
}

/* Whether a fact is in a column of a card by the second engine. */
static int in_column(uint32_t sequence, int column, uint32_t fact)
{
    const uint64_t *card = second + (size_t)DULIMOVEN_CARD_WORDS * sequence;
    return dulimoven_card_has(card, column, fact);
}

/*
 * Whether the second engine's columns are those of the judge's rounds. An
 * "always" column lacks a fact where a rival question has a run.
 */
static int rounds_agree(uint32_t c, uint32_t fact)
{
    int has[JUDGE_QUESTIONS], run = judge_has_run(c);
    uint32_t q;
    for (q = 0; q < JUDGE_QUESTIONS; q++)
        has[q] = judge_possible(c, q);
    return in_column(c, DULIMOVEN_MAY_NEED, fact) == has[3] &&
           in_column(c, DULIMOVEN_MAY_SET, fact) == has[0] &&
           in_column(c, DULIMOVEN_MAY_CLEAR, fact) == has[1] &&
           in_column(c, DULIMOVEN_ALWAYS_NEEDED, fact) ==
               (run && !has[4] && !has[5]) &&
           in_column(c, DULIMOVEN_ALWAYS_SET, fact) ==
               (run && !has[1] && !has[2]) &&
           in_column(c, DULIMOVEN_ALWAYS_CLEARED, fact) ==
               (run && !has[0] && !has[2]) &&
           in_column(c, DULIMOVEN_ALWAYS_STANDS, fact) ==
               (run && !has[JUDGE_STANDING_CLEARED] &&
                !has[JUDGE_STANDING_UNTOUCHED]);
}

/* Whether the last five columns of a card are those of the judge's rounds. */
static int last_columns_agree(uint32_t c, uint32_t fact)
{
    static const struct {
        int column;
        uint32_t question;
    } shown[] = {{DULIMOVEN_MAY_FIRST_SET, DULIMOVEN_FIRST_SET},
                 {DULIMOVEN_MAY_FIRST_UNTOUCHED, DULIMOVEN_FIRST_UNTOUCHED},
                 {DULIMOVEN_MAY_LAST_UNTOUCHED, DULIMOVEN_LAST_UNTOUCHED},
                 {DULIMOVEN_MAY_END_CLEARED, JUDGE_STANDING_CLEARED},
                 {DULIMOVEN_MAY_END_UNMENTIONED, JUDGE_STANDING_UNTOUCHED}};
    const uint64_t *card = cards + (size_t)DULIMOVEN_CARD_WORDS * c;
    size_t i;
    for (i = 0; i < sizeof shown / sizeof shown[0]; i++)
        if (dulimoven_card_has(card, shown[i].column, fact) !=
            judge_possible(c, shown[i].question))
            return 0;
    return 1;
}

static void ask(uint32_t sequence, uint32_t question, uint32_t fact)
{
    static uint32_t area[DULIMOVEN_MOST_CHAIN_WORDS];
    uint32_t sequences = sequences_of(image.words[0]);
    size_t i, room = (size_t)DULIMOVEN_LINK_WORDS * sequences;
    uint64_t links;
    enum fault fault;
    for (i = 0; i < room; i++)
        area[i] = JUDGE_BEFORE;
    links = dulimoven_chain(image.words, image.length, sequence, question, fact,
                            area, room);
    fault = judge_answer(sequence, question, links, area, room);
    tally.questions++;
    tally.chains += links != 0;
    tally.links += links;
    if (fault != NO_FAULT)
        chain_differs(sequence, question, fact, fault_text(fault));
}

static void ask_fact(const struct trial *trial, uint32_t fact)
{
    uint32_t sequences = sequences_of(image.words[0]);
    uint32_t c, question;
    call_name = "judge_fact";
    judge_fact(fact);
    for (c = 0; c < sequences; c++)
        if (!rounds_agree(c, fact))
            differs("the second engine's columns differ from the rounds");
    for (c = 0; c < sequences; c++)
        if (!last_columns_agree(c, fact))
            differs("the last five columns of a card differ from the rounds");
    call_name = "dulimoven_chain";
    for (c = 0; c < sequences; c += trial->sequences)
        for (question = 0; question <= DULIMOVEN_FIRST_UNTOUCHED; question++)
            ask(c, question, fact);
}

/*
 * How many lists say why a sequence has no run, by how many members they have:
 * one, two or three, more, and more than thirty-two.
 */
enum { ONE, FEW, MORE, MANY, SIZES };
static uint64_t sizes[SIZES];

static void count_size(uint64_t members)
{
    sizes[members <= 1    ? ONE
          : members <= 3  ? FEW
          : members <= 32 ? MORE
                          : MANY]++;
}

/* Asks why a sequence has no run, in an area of so many words. */
static uint64_t ask_endless(uint32_t sequence, uint32_t *area, size_t room)
{
    size_t i;
    for (i = 0; i < room; i++)
        area[i] = JUDGE_BEFORE;
    return dulimoven_endless(image.words, image.length, sequence, area, room);
}

/* In an area that is a word short the list is refused, and nothing written. */
static void ask_short(uint32_t sequence, size_t room)
{
    static uint32_t area[DULIMOVEN_MOST_ENDLESS_WORDS];
    size_t i;
    if (ask_endless(sequence, area, room) !=
        (uint64_t)DULIMOVEN_LIST_AREA << 32)
        list_differs(sequence, "a word short is not refused");
    for (i = 0; i < room; i++)
        if (area[i] != JUDGE_BEFORE)
            list_differs(sequence, "a word short, and a word is changed");
}

/*
 * Each sequence: 16 exactly where the card says that it has a run, and
 * otherwise the list.
 */
static void try_endless(void)
{
    static uint32_t area[DULIMOVEN_MOST_ENDLESS_WORDS];
    uint32_t c, sequences = sequences_of(image.words[0]);
    call_name = "dulimoven_endless";
    for (c = 0; c < sequences; c++) {
        uint64_t answer = ask_endless(c, area, sequences);
        enum fault fault = judge_list(c, answer, area, sequences);
        if (fault != NO_FAULT)
            list_differs(c, fault_text(fault));
        if (dulimoven_has_run(cards + (size_t)DULIMOVEN_CARD_WORDS * c) !=
            (answer == (uint64_t)DULIMOVEN_HAS_RUN << 32))
            list_differs(c, "the card says otherwise");
        if (dulimoven_is_refusal(answer) || fault != NO_FAULT)
            continue;
        tally.endless++;
        tally.reached += answer;
        count_size(answer);
        ask_short(c, (size_t)answer - 1);
    }
}

/* Whether the card call refuses an image so, and writes nothing. */
static int cards_refuse(const struct image *refused, uint64_t expected)
{
    size_t room = (size_t)DULIMOVEN_CARD_WORDS *
                  sequences_of(refused->words[0]) * sizeof cards[0];
    uint64_t answer;
    memset(cards, CARDS_BEFORE, room);
    memset(second, CARDS_BEFORE, room);
    call_name = "dulimoven_cards";
    answer = dulimoven_cards(refused->words, refused->length, cards,
                             room / sizeof cards[0]);
    return answer == expected && memcmp(cards, second, room) == 0;
}

/* Whether the chain call does, for a question that is drawn. */
static int chain_refuses(struct seed *seed, const struct image *refused,
                         uint64_t expected)
{
    uint32_t head = refused->words[0];
    uint32_t sequence = draw(seed, sequences_of(head));
    uint32_t question = draw(seed, DULIMOVEN_FIRST_UNTOUCHED + 1);
    uint32_t fact = draw(seed, facts_of(head));
    uint32_t link[DULIMOVEN_LINK_WORDS] = {JUDGE_BEFORE, JUDGE_BEFORE};
    call_name = "dulimoven_chain";
    return dulimoven_chain(refused->words, refused->length, sequence, question,
                           fact, link, DULIMOVEN_LINK_WORDS) == expected &&
           link[0] == JUDGE_BEFORE && link[1] == JUDGE_BEFORE;
}

/* Whether the call that says why a sequence has no run does, for a sequence
 * that is drawn. */
static int endless_refuses(struct seed *seed, const struct image *refused,
                           uint64_t expected)
{
    uint32_t sequence = draw(seed, sequences_of(refused->words[0]));
    uint32_t word = JUDGE_BEFORE;
    call_name = "dulimoven_endless";
    return dulimoven_endless(refused->words, refused->length, sequence, &word,
                             1) == expected &&
           word == JUDGE_BEFORE;
}

/* The library with a pulse, which is all that is wrong with it. */
static void try_pulse(struct seed *seed, struct seed *asked)
{
    static struct image pulse;
    size_t position = make_pulse(seed, &image, &pulse);
    uint64_t expected = (uint64_t)DULIMOVEN_SET_AND_CLEARED << 32 | position;
    uint32_t n;
    if (position == 0)
        return;
    tally.pulses++;
    tally.checks++;
    if (check(&pulse) != expected)
        differs("a pulse is not refused by the library");
    if (second_check(pulse.words, pulse.length) != expected)
        differs("a pulse is not refused by the second engine");
    if (!cards_refuse(&pulse, expected))
        differs("the card call does not refuse a pulse, or writes a word");
    if (!chain_refuses(seed, &pulse, expected))
        differs("the chain call does not refuse a pulse, or writes a word");
    if (!endless_refuses(asked, &pulse, expected))
        differs("the call for a list of sequences without a run does not "
                "refuse a pulse, or writes a word");
    for (n = 0; n < DAMAGES; n++)
        tally.pulses_damaged +=
            dulimoven_refusal_of(try_damage(seed, &pulse)) ==
            DULIMOVEN_SET_AND_CLEARED;
}

/* The positions of the library's entries, in their order; answers how many. */
static uint32_t find_entries(size_t *places)
{
    uint32_t count = 0;
    size_t i;
    for (i = 1; i + 1 < image.length; i++)
        if (is_entry(image.words[i]))
            places[count++] = i;
    return count;
}

/* Two words of an image change places. */
static void exchange(struct image *changed, size_t i, size_t j)
{
    uint32_t word = changed->words[i];
    changed->words[i] = changed->words[j];
    changed->words[j] = word;
}

/*
 * "An accepted image in which two different entries change places then gets 2":
 * a drawn entry, and of those from another drawn one on the first that differs.
 */
static void try_exchange(struct seed *seed)
{
    static struct image changed;
    static size_t places[MOST_WORDS];
    uint32_t count = find_entries(places), n;
    size_t i = places[draw(seed, count)], from = draw(seed, count), j = 0;
    uint64_t accepted = payload_of(image.words[0]);
    uint64_t expected = (uint64_t)DULIMOVEN_SUM_WORD << 32 | (image.length - 1);
    for (n = 0; n < count && j == 0; n++)
        if (image.words[places[(from + n) % count]] != image.words[i])
            j = places[(from + n) % count];
    if (j == 0)
        return;
    image_copy(&changed, &image);
    exchange(&changed, i, j);
    tally.exchanges++;
    tally.checks += 2;
    if (check(&changed) != expected)
        differs("two entries are exchanged, and the library does not notice");
    if (second_check(changed.words, changed.length) != expected)
        differs("two entries are exchanged, unnoticed by the second engine");
    exchange(&changed, i, j);
    if (check(&changed) != accepted)
        differs("refused by the library once they are exchanged back");
}

/*
 * Lists, exchanged entries and the sequences that a pulse is asked about have
 * seeds of their own, so that the libraries do not depend on them.
 */
struct seeds {
    struct seed library, list, exchange, asked;
};

static void try_library(const struct trial *trial, struct seeds *seeds,
                        uint32_t first_fact)
{
    uint32_t fact, n;
    begin_library();
    try_check();
    for (n = 0; n < DAMAGES; n++)
        try_damage(&seeds->library, &image);
    try_pulse(&seeds->library, &seeds->asked);
    try_exchange(&seeds->exchange);
    try_cards();
    judge_library(image.words, image.length);
    try_endless();
    for (fact = first_fact; fact < facts_of(image.words[0]);
         fact += trial->facts)
        ask_fact(trial, fact);
    try_list(&seeds->list);
}

/*
 * A library of a kind with another number of facts. Asked about are some of
 * them, from a drawn one on, and the highest.
 */
static void try_wide(unsigned kind, struct seeds *seeds)
{
    struct trial trial = trials[kind];
    make_wide_library(&seeds->library, kind, &image);
    trial.facts = WIDE_APART;
    try_library(&trial, seeds, draw(&seeds->asked, WIDE_APART));
    ask_fact(&trial, facts_of(image.words[0]) - 1);
}

static void print_tally(const char *name, const struct tally *t)
{
    printf("%s: libraries %" PRIu64 ", of more than 64 facts %" PRIu64
           ", sequences %" PRIu64
           ", card words %" PRIu64 ", checks %" PRIu64 ", pulses %" PRIu64
           ", refused with 13 after damage %" PRIu64 ", exchanges %" PRIu64
           ", questions %" PRIu64 ", chains %" PRIu64 ", links %" PRIu64
           ", without a run %" PRIu64 ", reached %" PRIu64 ", lists %" PRIu64
           ", members %" PRIu64 ", differences %" PRIu64 "\n",
           name, t->libraries, t->wide, t->sequences, t->card_words, t->checks,
           t->pulses, t->pulses_damaged, t->exchanges, t->questions, t->chains,
           t->links, t->endless, t->reached, t->lists, t->members,
           t->differences);
    fflush(stdout);
}

/*
 * Libraries of a kind. Some questions must have a chain, and some none; some
 * libraries must have room for a pulse, and some two entries that differ.
 */
static void try_kind(unsigned kind)
{
    struct seeds seeds = {
        {first_seed + kind}, {first_seed - 1 - kind}, {~first_seed - kind},
        {~first_seed + 1 + kind}};
    struct seeds wide = {{first_seed + 1000 + kind},
                         {first_seed - 1001 - kind},
                         {~first_seed - 1000 - kind},
                         {~first_seed + 1001 + kind}};
    unsigned n;
    memset(&tally, 0, sizeof tally);
    kind_name = seeded_name(kind);
    for (n = 0; n < trials[kind].libraries; n += SHARE) {
        make_library(&seeds.library, kind, &image);
        try_library(&trials[kind], &seeds, 0);
        if (n / SHARE % 2 == 1)
            try_wide(kind, &wide);
    }
    if (tally.chains == 0 || tally.chains == tally.questions)
        differs("no chain in any library, or no \"none\"");
    if (tally.pulses == 0)
        differs("no pulse in any library");
    if (tally.exchanges == 0)
        differs("no two entries that differ in any library");
    print_tally(kind_name, &tally);
}

static void add_tally(struct tally *total)
{
    total->libraries += tally.libraries;
    total->wide += tally.wide;
    total->sequences += tally.sequences;
    total->card_words += tally.card_words;
    total->checks += tally.checks;
    total->pulses += tally.pulses;
    total->pulses_damaged += tally.pulses_damaged;
    total->exchanges += tally.exchanges;
    total->questions += tally.questions;
    total->chains += tally.chains;
    total->links += tally.links;
    total->endless += tally.endless;
    total->reached += tally.reached;
    total->lists += tally.lists;
    total->members += tally.members;
    total->differences += tally.differences;
}

/* So many lists of each size there have to be at the least. */
enum { FEWEST_OF_A_SIZE = 100 };

int main(void)
{
    struct tally total = {0, 0, 0, 0, 0, 0, 0, 0, 0, 0, 0, 0, 0, 0, 0, 0};
    unsigned kind;
    int size;
    signal(SIGALRM, time_is_up);
    for (kind = 0; kind < SEEDED_KINDS; kind++) {
        try_kind(kind);
        add_tally(&total);
    }
    if (total.pulses_damaged == 0 ||
        total.pulses_damaged == DAMAGES * total.pulses) {
        total.differences++;
        printf("damage hides every pulse, or none\n");
    }
    if (total.wide < total.libraries / 5) {
        total.differences++;
        printf("libraries of more than 64 facts are rare\n");
    }
    if (total.members == 0) {
        total.differences++;
        printf("no list has a member\n");
    }
    for (size = 0; size < SIZES; size++)
        if (sizes[size] < FEWEST_OF_A_SIZE) {
            total.differences++;
            printf("lists of some size are rare\n");
        }
    printf("lists that say why, of 1, of 2 and 3, of 4 to 32, of more members: "
           "%" PRIu64 " %" PRIu64 " %" PRIu64 " %" PRIu64 "\n",
           sizes[ONE], sizes[FEW], sizes[MORE], sizes[MANY]);
    print_tally("total", &total);
    return total.differences == 0 ? 0 : 1;
}
