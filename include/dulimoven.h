/*
 * Dulimoven: cards for stimulus sequences.
 *
 * C11, C++17 and C++20. Link with libdulimoven.a.
 *
 * A library image is an array of 32-bit words. Bits 31 to 28 of a word are its
 * kind, the low 28 bits its payload. docs/IMAGES.md has one word by word.
 *
 * A call answers one 64-bit number: N * 2^32 + P for refusal N at word position
 * P, counted from 0, and below 2^32 what the call is for. All arrays are the
 * caller's, before a call and after it: a call takes over none of them, and has
 * nothing that must be given back.
 *
 * Threads: calls may run in several threads at once. A call uses what it is
 * lent and its own stack, and nothing that outlasts it. Calls at the same time
 * may share what none of them writes, such as an image, or the cards and the
 * list of dulimoven_list, and may not share an area that one of them writes.
 * dulimoven_seal writes its image.
 *
 * Alignment: an image, a list, a chain area and the area of dulimoven_endless
 * are aligned as uint32_t is, a card and a card area as uint64_t. No more is
 * asked.
 */
#ifndef DULIMOVEN_H
#define DULIMOVEN_H

#include <stddef.h>
#include <stdint.h>

#ifdef __cplusplus
extern "C" {
#endif

/*
 * The format is how the words of an image and of a card are laid out, and what
 * the sum word is. Its number rises with every change of these, so that a
 * program that was written for one layout can tell. The version is 1,000 times
 * the format, plus the number of changes since that leave the format as it is,
 * such as a new call, a new refusal, another choice among chains, or calls that
 * take less time.
 *
 * The numbers from here to the refusals are plain numbers and no enumerators,
 * since they are multiplied and added with one another.
 */
#define DULIMOVEN_FORMAT 5
#define DULIMOVEN_VERSION (DULIMOVEN_FORMAT * 1000)

/* How many columns a card has, how many words of 64 bits a column, and how many
 * a card, whose first word is no column but the flags; how many words of 32
 * bits a link. */
#define DULIMOVEN_COLUMNS 12
#define DULIMOVEN_COLUMN_WORDS 4
#define DULIMOVEN_CARD_WORDS (1 + DULIMOVEN_COLUMNS * DULIMOVEN_COLUMN_WORDS)
#define DULIMOVEN_LINK_WORDS 2

/* Bounds: the most words of an image, facts, steps and sequences. */
#define DULIMOVEN_MOST_IMAGE_WORDS 8192
#define DULIMOVEN_MOST_FACTS 256
#define DULIMOVEN_MOST_STEPS 1023
#define DULIMOVEN_MOST_SEQUENCES 256

/* The most members of a list that dulimoven_list is given. */
#define DULIMOVEN_MOST_LIST 256

/* Areas of so many words are enough for all cards, for every chain, and for
 * every list that dulimoven_endless gives. */
#define DULIMOVEN_MOST_CARD_WORDS \
    (DULIMOVEN_MOST_SEQUENCES * DULIMOVEN_CARD_WORDS)
#define DULIMOVEN_MOST_CHAIN_WORDS \
    (DULIMOVEN_MOST_SEQUENCES * DULIMOVEN_LINK_WORDS)
#define DULIMOVEN_MOST_ENDLESS_WORDS DULIMOVEN_MOST_SEQUENCES

/*
 * The stack: no call takes more bytes of it, below its caller's frame, than its
 * number here, whatever it is handed. That is measured, and not proved. A call
 * takes no memory from the heap.
 */
#define DULIMOVEN_STACK_CHECK 1024
#define DULIMOVEN_STACK_CARDS 163840
#define DULIMOVEN_STACK_CHAIN 65536
#define DULIMOVEN_STACK_LIST 1024
#define DULIMOVEN_STACK_ENDLESS 20480
#define DULIMOVEN_STACK_SEAL 1024

/*
 * The kinds of an image's words. Kinds 10 to 12 are those of a chain's words
 * (enum dulimoven_link_word).
 */
enum dulimoven_kind {
    /* the first word: how many facts there are, in bits 0 to 8 of the payload,
     * steps, in bits 9 to 18, and sequences, in bits 19 to 27 */
    DULIMOVEN_KIND_HEAD = 1,
    /* the step needs, sets or clears the fact of that number */
    DULIMOVEN_KIND_NEEDS = 2,
    DULIMOVEN_KIND_SETS = 3,
    DULIMOVEN_KIND_CLEARS = 4,
    /* open a step, a sequence, and an alternative of the sequence */
    DULIMOVEN_KIND_STEP = 5,
    DULIMOVEN_KIND_SEQUENCE = 6,
    DULIMOVEN_KIND_ALTERNATIVE = 7,
    /* entries of an alternative: a step, and a sequence */
    DULIMOVEN_KIND_STEP_ENTRY = 8,
    DULIMOVEN_KIND_SEQUENCE_ENTRY = 9,
    /* an entry: checks that the fact of that number stands. It is no step and
     * changes nothing, and a run executes only if its checks are met. */
    DULIMOVEN_KIND_CHECK = 13,
    /* the last word: a sum of all words before it, each in its place. A word
     * counts as its payload plus 1,024 times its kind. A running sum of these
     * is kept, and its values after each word are added up, both with wrap at
     * 2^32. The payload is what they come to, mod 2^28. dulimoven_seal writes
     * it. */
    DULIMOVEN_KIND_SUM = 15
};

/*
 * The refusals. Of those that apply a call answers the first in this order: 1,
 * 2 and 3; of 4, 5, 6 and 13 the one at the earliest word, and in one word the
 * lowest; then 7, 8 to 12, and 14 to 17. From 8 to 12, and from 14 on, the
 * position is 0.
 */
enum dulimoven_refusal {
    /* fewer than 2 or more than 8,192 words; position 0 */
    DULIMOVEN_LENGTH = 1,
    /* the last word is no sum word or has a wrong sum: a word was damaged or
     * left out, or two entries changed places; its position */
    DULIMOVEN_SUM_WORD = 2,
    /* the first word breaks the rule for the head; position 0 */
    DULIMOVEN_HEAD_WORD = 3,
    /* a word of a kind that may not stand there; its position */
    DULIMOVEN_KIND = 4,
    /* a number, a fact or an entry out of its range, an opener out of turn, or
     * an alternative's payload that is not 0; the word's position */
    DULIMOVEN_PAYLOAD = 5,
    /* a step's fact word that is not greater, as a 32-bit number, than the fact
     * word before it; its position */
    DULIMOVEN_FACT_ORDER = 6,
    /* fewer steps or sequences than the head counts; the last word's place */
    DULIMOVEN_MISSING = 7,
    /* the card area has fewer than 49 words of 64 bits for each sequence */
    DULIMOVEN_CARD_AREA = 8,
    /* the sequence asked about is not in the library */
    DULIMOVEN_SEQUENCE = 9,
    /* the question is above 5 */
    DULIMOVEN_QUESTION = 10,
    /* the fact asked about is not in the library */
    DULIMOVEN_FACT = 11,
    /* there is a chain, and it has more words than the chain area */
    DULIMOVEN_CHAIN_AREA = 12,
    /* a clear word naming a fact that an earlier word of the same step sets;
     * the clear word's position */
    DULIMOVEN_SET_AND_CLEARED = 13,
    /* the list has more than 256 members */
    DULIMOVEN_LIST_LENGTH = 14,
    /* a member of the list is not among the sequences */
    DULIMOVEN_MEMBER = 15,
    /* the sequence asked about has a run, so that nothing keeps it from one */
    DULIMOVEN_HAS_RUN = 16,
    /* it has none, and the list that says why is longer than the area */
    DULIMOVEN_LIST_AREA = 17
};

/*
 * Checks a library image: every rule of the format, in the order of the
 * refusals.
 *
 * image      image_len words, lent for the call, which changes none of them and
 *            keeps no pointer to them. No other thread may write them before it
 *            returns. An empty array, image_len 0, may have a null pointer.
 * image_len  how many words image has. No number is out of range.
 *
 * Answers the head's payload, which is below 2^28, where the image is accepted:
 * the number of facts, steps and sequences (dulimoven_facts, dulimoven_steps,
 * dulimoven_sequences). Otherwise one of
 *   1   DULIMOVEN_LENGTH           image_len is below 2 or above 8,192
 *   2   DULIMOVEN_SUM_WORD         the last word is not the image's sum word
 *   3   DULIMOVEN_HEAD_WORD        the first word is no head
 *   4   DULIMOVEN_KIND             a word of a kind that may not stand there
 *   5   DULIMOVEN_PAYLOAD          a payload that breaks the rule of its kind
 *   6   DULIMOVEN_FACT_ORDER       fact words of a step that do not ascend
 *   13  DULIMOVEN_SET_AND_CLEARED  a step that clears a fact that it sets
 *   7   DULIMOVEN_MISSING          fewer steps or sequences than the head says
 * with its position (dulimoven_refusal_of, dulimoven_position_of).
 */
uint64_t dulimoven_check(const uint32_t *image, size_t image_len);

/*
 * The parts of a card, in their order: the flags, which are its first word, and
 * the columns, 1 to 12. A column has four words, facts 0 to 63 in the first:
 * fact f is bit f % 64 of word f / 64. dulimoven_column has these words of a
 * card by the column's number, and dulimoven_card_has says whether a fact is in
 * it, so that no caller works out where a word stands. No bit stands for a fact
 * that the library does not have. A fact is needed where a run first touches it
 * by a need, and a check of it is one; it is set or cleared where the run's
 * last touch sets or clears it. Without a run all words are 0, and
 * dulimoven_endless says why there is none.
 */
enum dulimoven_card_part {
    /* dulimoven_has_run, dulimoven_has_empty_run, dulimoven_changeable */
    DULIMOVEN_FLAGS = 0,
    /* a run exists, and every run needs the fact */
    DULIMOVEN_ALWAYS_NEEDED = 1,
    /* some run needs it */
    DULIMOVEN_MAY_NEED = 2,
    /* some run sets it */
    DULIMOVEN_MAY_SET = 3,
    /* some run clears it */
    DULIMOVEN_MAY_CLEAR = 4,
    /* a run exists, and every run sets it */
    DULIMOVEN_ALWAYS_SET = 5,
    /* a run exists, and every run clears it */
    DULIMOVEN_ALWAYS_CLEARED = 6,
    /* a run exists, and in every run the last step or check that sets, clears,
     * needs or checks it is there and does not clear it. So the fact stands
     * wherever a run of the sequence has executed to its end. A step that needs
     * and clears it counts as clearing. */
    DULIMOVEN_ALWAYS_STANDS = 7,
    /* some run's first touch sets it: question 4 of dulimoven_chain */
    DULIMOVEN_MAY_FIRST_SET = 8,
    /* some run leaves it untouched on the first side: question 5 */
    DULIMOVEN_MAY_FIRST_UNTOUCHED = 9,
    /* some run leaves it untouched on the last side: question 2 */
    DULIMOVEN_MAY_LAST_UNTOUCHED = 10,
    /* some run's last step or check that sets, clears, needs or checks it
     * clears it */
    DULIMOVEN_MAY_END_CLEARED = 11,
    /* some run has no such step or check */
    DULIMOVEN_MAY_END_UNMENTIONED = 12
};

/* The parts of a card's flags. */
enum dulimoven_flag {
    /* bit 0: a run exists */
    DULIMOVEN_FLAG_RUN = 0x1,
    /* bit 1: an empty run exists: one without steps. It may have checks. */
    DULIMOVEN_FLAG_EMPTY_RUN = 0x2,
    /* bits 8 to 16: how many facts are in "may set" or in "may clear" */
    DULIMOVEN_FLAG_COUNT_SHIFT = 8,
    DULIMOVEN_FLAG_COUNT_MASK = 0x1ff
};

/*
 * Fills the cards of all sequences of a library image.
 *
 * image      as for dulimoven_check.
 * image_len  as for dulimoven_check.
 * area       area_len words of 64 bits, lent for the call, which keeps no
 *            pointer to them. They may not overlap the image, and no other
 *            thread may read or write them before the call returns. An empty
 *            area, area_len 0, may have a null pointer.
 * area_len   how many words area has; 49 for each sequence are enough.
 *
 * Answers C, the number of sequences, at most 256. The card of sequence c
 * stands in the 49 words from area[49 * c] on then, and the words after the
 * last card are as they were. Otherwise the call answers one of refusals 1 to 7
 * and 13, as dulimoven_check does for the image, or
 *   8  DULIMOVEN_CARD_AREA   area_len is below 49 * C; position 0
 * and every word of the area is as it was.
 */
uint64_t dulimoven_cards(const uint32_t *image, size_t image_len,
                         uint64_t *area, size_t area_len);

/*
 * The questions of dulimoven_chain. 0 to 2 are of the last side: a step touches
 * a fact if it sets or clears it, and the last touch decides. 3 to 5 are of the
 * first side: a step touches a fact if it needs or sets it, and the first touch
 * decides; a step that needs and sets a fact needs it. There a check of the
 * fact counts as a need; on the last side a check touches nothing.
 *
 * A fact is in "may set", "may clear" or "may need" exactly where question 0, 1
 * or 3 has a chain, and in "may first set", "may first untouched" or "may last
 * untouched" exactly where question 4, 5 or 2 has one. Of a sequence that has a
 * run, a fact is missing from an "always" column exactly where one of the
 * column's two questions has a chain: 4 and 5 for "always needed", 1 and 2 for
 * "always set", 0 and 2 for "always cleared". "Always stands", "may end
 * cleared" and "may end unmentioned" have no questions; a fact is missing from
 * the first of these exactly where one of the other two has it.
 */
enum dulimoven_question {
    /* some run's last touch sets the fact */
    DULIMOVEN_LAST_SET = 0,
    /* some run's last touch clears it */
    DULIMOVEN_LAST_CLEARED = 1,
    /* some run neither sets nor clears it */
    DULIMOVEN_LAST_UNTOUCHED = 2,
    /* some run's first touch needs it */
    DULIMOVEN_FIRST_NEEDED = 3,
    /* some run's first touch sets it */
    DULIMOVEN_FIRST_SET = 4,
    /* some run neither needs nor sets it */
    DULIMOVEN_FIRST_UNTOUCHED = 5
};

/*
 * A link of a chain is two words. The first is of kind 10: bits 0 to 7 are the
 * sequence that the link is about, bits 8 to 20 the alternative that is taken,
 * counted from 0 within the sequence. The second is of kind 11 or 12.
 */
enum dulimoven_link_word {
    /* the first word: the sequence and its alternative */
    DULIMOVEN_LINK_CHOICE = 10,
    /* the second word; its payload is the position, counted from 0 within the
     * alternative, of the entry that gives the touch: a sequence, which the
     * next link is about, or in the last link a step, or for question 3 a
     * check */
    DULIMOVEN_LINK_POSITION = 11,
    /* the second word, payload 0: the alternative has a run that leaves the
     * fact untouched */
    DULIMOVEN_LINK_UNTOUCHED = 12
};

/*
 * Shows how a run of a sequence comes to an outcome for a fact: asks one of the
 * six questions, and writes the chain that answers it.
 *
 * image      as for dulimoven_check.
 * image_len  as for dulimoven_check.
 * sequence   the sequence asked about.
 * question   one of enum dulimoven_question.
 * fact       the fact asked about. Of these three no number is out of range:
 *            one that names nothing is refused.
 * area       area_len words of 32 bits, lent for the call, which keeps no
 *            pointer to them. They may not overlap the image, and no other
 *            thread may read or write them before the call returns. An empty
 *            area, area_len 0, may have a null pointer.
 * area_len   how many words area has; 2 for each sequence are always enough,
 *            for no chain is about a sequence twice.
 *
 * Answers the number of links, at least 1 and at most C. The chain's words
 * stand from area[0] on then, two a link, and the words after them are as they
 * were. The first link is about the sequence asked about. Answers 0, "none",
 * exactly where no run of the sequence has the outcome; every word of the area
 * is as it was then.
 *
 * Questions 0, 1, 3 and 4 get the chain with the fewest links. Questions 2 and
 * 5 get one link, of kind 12: the alternative of the untouched derivation of
 * least nesting depth. Among equally good choices a link takes the highest
 * alternative, then the lowest position; this holds for kind 12 too. So where
 * alternatives are added at the end, a chain goes through the newest. Fewest
 * links, and for kind 12 least nesting depth, come first.
 *
 * Otherwise the call answers the first refusal that applies, and every word of
 * the area is as it was. The image is looked at first, as dulimoven_check does,
 * with the position that the check gives:
 *   1   DULIMOVEN_LENGTH           image_len is below 2 or above 8,192
 *   2   DULIMOVEN_SUM_WORD         the last word is not the image's sum word
 *   3   DULIMOVEN_HEAD_WORD        the first word is no head
 *   4   DULIMOVEN_KIND             a word of a kind that may not stand there
 *   5   DULIMOVEN_PAYLOAD          a payload that breaks the rule of its kind
 *   6   DULIMOVEN_FACT_ORDER       fact words of a step that do not ascend
 *   13  DULIMOVEN_SET_AND_CLEARED  a step that clears a fact that it sets
 *   7   DULIMOVEN_MISSING          fewer steps or sequences than the head says
 * then the question, with position 0:
 *   9   DULIMOVEN_SEQUENCE         sequence is not below C
 *   10  DULIMOVEN_QUESTION         question is above 5
 *   11  DULIMOVEN_FACT             fact is not below F
 *   12  DULIMOVEN_CHAIN_AREA       there is a chain of more than area_len words
 */
uint64_t dulimoven_chain(const uint32_t *image, size_t image_len,
                         uint64_t sequence, uint64_t question, uint64_t fact,
                         uint32_t *area, size_t area_len);

/*
 * Works out one card for a list of sequences that are run one after the other,
 * from F and the sequences' cards alone.
 *
 * facts      F, the number of facts. In the columns that are read, bits from F
 *            upward count as 0. No number is out of range: from 256 on no bit
 *            is dropped.
 * sequences  C, the number of sequences. No number is out of range.
 * cards      cards_len words of 64 bits, lent for the call, which changes none
 *            of them and keeps no pointer to them: the cards of the sequences,
 *            as dulimoven_cards writes them. An empty array, cards_len 0, may
 *            have a null pointer.
 * cards_len  how many words cards has; 49 for each sequence are enough.
 * list       list_len numbers of sequences, the members, lent as the cards are.
 *            One may come more than once, and counts each time. An empty list,
 *            list_len 0, may have a null pointer.
 * list_len   how many members list has.
 * card       49 words of 64 bits, lent for the call, which keeps no pointer to
 *            them. They may overlap neither the cards nor the list. No other
 *            thread may read or write them, or write the cards or the list,
 *            before the call returns.
 *
 * Answers 0, and the words of card are the list's card then. Over cards that
 * dulimoven_cards wrote, with F and C of the same library, it is the card of a
 * sequence that is added to the library, limits aside, and whose one
 * alternative names the members in their order. Over any other words it follows
 * the same rule, which reads of a member's card flags 0 and 1 and the columns 2
 * to 4 and 8 to 12:
 *   - Where a member has no run, all 49 words are 0.
 *   - A flag is set, and a fact is in "may first untouched", "may last
 *     untouched" or "may end unmentioned", where that is so of every member.
 *   - A fact is in "may need" or "may first set" where it is there of a member
 *     and in "may first untouched" of every earlier one.
 *   - It is in "may set" or "may clear" where it is there of a member and in
 *     "may last untouched" of every later one; in "may end cleared" where it is
 *     there of a member and in "may end unmentioned" of every later one.
 *   - A fact below F is in an "always" column where the list's own card has it
 *     in neither of two others: for "always needed" these are "may first set"
 *     and "may first untouched", for "always set" "may clear" and "may last
 *     untouched", for "always cleared" "may set" and "may last untouched", for
 *     "always stands" "may end cleared" and "may end unmentioned".
 *   - The count in the flags is that of the list's own "may set" and "may
 *     clear".
 * So the empty list has just the empty run.
 *
 * Otherwise the call answers the first refusal that applies, with position 0,
 * and every word of card is as it was:
 *   8   DULIMOVEN_CARD_AREA    cards_len is below 49 * C, which does not wrap
 *   14  DULIMOVEN_LIST_LENGTH  list_len is above 256
 *   15  DULIMOVEN_MEMBER       a member is not below C
 */
uint64_t dulimoven_list(uint64_t facts, uint64_t sequences,
                        const uint64_t *cards, size_t cards_len,
                        const uint32_t *list, size_t list_len,
                        uint64_t card[DULIMOVEN_CARD_WORDS]);

/*
 * Says why a sequence has no run: lists those without a run that it reaches.
 *
 * image      as for dulimoven_check.
 * image_len  as for dulimoven_check.
 * sequence   the sequence asked about. No number is out of range: one that
 *            names nothing is refused.
 * area       area_len words of 32 bits, lent for the call, which keeps no
 *            pointer to them. They may not overlap the image, and no other
 *            thread may read or write them before the call returns. An empty
 *            area, area_len 0, may have a null pointer.
 * area_len   how many words area has; one for each sequence is always enough.
 *
 * Answers the length of the list, at least 1 and at most C. The list stands
 * from area[0] on then, the number of a sequence in each word, in rising order,
 * each once; the words after it are as they were. On it are all sequences
 * without a run that the one asked about reaches through entries of sequences
 * without a run, itself included: any entry of any alternative of a listed
 * sequence that names one without a run leads on to it, wherever it stands. A
 * sequence with a run is neither on the list nor gone through.
 *
 * A reader checks such a list by the library's words alone: every alternative
 * of each listed sequence names a listed one. For instance, sequence 2 is <5>
 * or <step 0, 2>, sequence 5 is <7, 2>, and 7 has a run. The list of 2 is 2 5,
 * and each of the three alternatives names 2 or 5. So a run of either would be
 * made from one of 2 or 5 that was made before it, and none is the first to be
 * made. Whoever holds a list with that property, wherever it comes from and in
 * whatever order, may conclude that none of its members has a run; this is
 * proved for all such lists. A sequence without alternatives keeps the property
 * by itself.
 *
 * Otherwise the call answers the first refusal that applies, and every word of
 * the area is as it was: one of refusals 1 to 7 and 13, as dulimoven_check does
 * for the image, then, with position 0,
 *   9   DULIMOVEN_SEQUENCE   sequence is not below C
 *   16  DULIMOVEN_HAS_RUN    sequence has a run: bit 0 of its card's flags
 *   17  DULIMOVEN_LIST_AREA  the list has more than area_len words
 */
uint64_t dulimoven_endless(const uint32_t *image, size_t image_len,
                           uint64_t sequence, uint32_t *area, size_t area_len);

/*
 * Seals an image, for those who write or change one: writes its sum word into
 * the last place.
 *
 * image      image_len words, lent for the call, which keeps no pointer to
 *            them. No other thread may read or write them before it returns. An
 *            empty array, image_len 0, may have a null pointer.
 * image_len  how many words image has, the place of the sum word among them. No
 *            number is out of range.
 *
 * Answers 0. The last word is the sum word (DULIMOVEN_KIND_SUM) of the words
 * before it then, whatever it was, and every other word is as it was. What the
 * words say is not looked at: dulimoven_check judges a sealed image as any
 * other, and never answers 2. An image that the check accepts stays as it is,
 * and to seal an image twice is to seal it once.
 *
 * Otherwise the call answers
 *   1  DULIMOVEN_LENGTH   image_len is below 2 or above 8,192; position 0
 * and every word is as it was.
 *
 * A sum word shows that an image is as it was when it was sealed, and not that
 * it was right then: whoever seals an image that was damaged seals the damage.
 */
uint64_t dulimoven_seal(uint32_t *image, size_t image_len);

/* Whether an answer of a call is a refusal. */
static inline int dulimoven_is_refusal(uint64_t answer)
{
    return answer >> 32 != 0;
}

/* An answer's refusal, 1 to 17, or 0 where the call refused nothing. */
static inline uint32_t dulimoven_refusal_of(uint64_t answer)
{
    return (uint32_t)(answer >> 32);
}

/* The word position of an answer that is a refusal. */
static inline uint32_t dulimoven_position_of(uint64_t answer)
{
    return (uint32_t)(answer & 0xffffffffu);
}

/* F, the number of facts, of an image that the check accepted: 1 to 256. */
static inline uint32_t dulimoven_facts(uint64_t accepted)
{
    return (uint32_t)(accepted & 0x1ffu);
}

/* A, its number of steps: 0 to 1,023. */
static inline uint32_t dulimoven_steps(uint64_t accepted)
{
    return (uint32_t)(accepted >> 9 & 0x3ffu);
}

/* C, its number of sequences: 0 to 256. */
static inline uint32_t dulimoven_sequences(uint64_t accepted)
{
    return (uint32_t)(accepted >> 19 & 0x1ffu);
}

/* Whether a card's sequence has a run. */
static inline int dulimoven_has_run(const uint64_t *card)
{
    return (card[DULIMOVEN_FLAGS] & DULIMOVEN_FLAG_RUN) != 0;
}

/* Whether it has an empty run, one without steps. */
static inline int dulimoven_has_empty_run(const uint64_t *card)
{
    return (card[DULIMOVEN_FLAGS] & DULIMOVEN_FLAG_EMPTY_RUN) != 0;
}

/* How many facts it may set or may clear: 0 to 256. */
static inline uint32_t dulimoven_changeable(const uint64_t *card)
{
    return (uint32_t)(card[DULIMOVEN_FLAGS] >> DULIMOVEN_FLAG_COUNT_SHIFT &
                      DULIMOVEN_FLAG_COUNT_MASK);
}

/*
 * The four words of a column of a card, facts 0 to 63 in the first. The column
 * is one of enum dulimoven_card_part, but not the flags.
 */
static inline const uint64_t *dulimoven_column(const uint64_t *card, int column)
{
    return card + 1 + DULIMOVEN_COLUMN_WORDS * (column - 1);
}

/*
 * Whether a fact is in a column of a card, which is one as above. No number of
 * a fact is out of range.
 */
static inline int dulimoven_card_has(const uint64_t *card, int column,
                                     uint64_t fact)
{
    return fact < DULIMOVEN_MOST_FACTS &&
           (dulimoven_column(card, column)[fact / 64] >> fact % 64 & 1u) != 0;
}

/* The sequence that a link is about, by the link's two words. */
static inline uint32_t dulimoven_link_sequence(const uint32_t *link)
{
    return link[0] & 0xffu;
}

/* The alternative that it takes. */
static inline uint32_t dulimoven_link_alternative(const uint32_t *link)
{
    return link[0] >> 8 & 0x1fffu;
}

/* Whether the fact is left untouched there. Such a link has no position. */
static inline int dulimoven_link_untouched(const uint32_t *link)
{
    return link[1] >> 28 == DULIMOVEN_LINK_UNTOUCHED;
}

/* The position of the entry that gives the touch. */
static inline uint32_t dulimoven_link_position(const uint32_t *link)
{
    return link[1] & 0xfffffffu;
}

#ifdef __cplusplus
}
#endif

#endif
