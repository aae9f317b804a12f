/*
 * The list call by a plain loop over bits, for tests: document 02, request 5,
 * sentence by sentence, one fact and one member after the other. It shares no
 * code with the library. C11 and C++17.
 */
#ifndef DULIMOVEN_TESTS_LIST_MODEL_H
#define DULIMOVEN_TESTS_LIST_MODEL_H

#include "columns.h"

/* The cards that the members name, and the list. */
struct members {
    const uint64_t *cards;
    const uint32_t *list;
    size_t count;
};

/* The card of member `i`. */
static inline const uint64_t *member_card(const struct members *m, size_t i)
{
    return m->cards + (size_t)m->list[i] * CARD_WORDS;
}

/* Whether it has a fact in a column. */
static inline int member_has(const struct members *m, size_t i, int column,
                             uint32_t fact)
{
    return (int)(member_card(m, i)[place_of(column, fact)] >>
                     fact % WORD_FACTS &
                 1);
}

/* "a flag [..] where all members have it" */
static inline int all_have_flag(const struct members *m, int bit)
{
    size_t i;
    for (i = 0; i < m->count; i++)
        if (!(member_card(m, i)[0] >> bit & 1))
            return 0;
    return 1;
}

/* "where all members have it": the members from `from` up to `to`. */
static inline int members_have(const struct members *m, size_t from, size_t to,
                               int column, uint32_t fact)
{
    for (; from < to; from++)
        if (!member_has(m, from, column, fact))
            return 0;
    return 1;
}

static inline int all_have(const struct members *m, int column, uint32_t fact)
{
    return members_have(m, 0, m->count, column, fact);
}

/* "where one has it and every later member has that side's untouched bit" */
static inline int one_has_last(const struct members *m, int column,
                               int untouched, uint32_t fact)
{
    size_t i;
    for (i = 0; i < m->count; i++)
        if (member_has(m, i, column, fact) &&
            members_have(m, i + 1, m->count, untouched, fact))
            return 1;
    return 0;
}

/* "(earlier on the first side)" */
static inline int one_has_first(const struct members *m, int column,
                                int untouched, uint32_t fact)
{
    size_t i;
    for (i = 0; i < m->count; i++)
        if (member_has(m, i, column, fact) &&
            members_have(m, 0, i, untouched, fact))
            return 1;
    return 0;
}

/* What a fact comes to, column by column. */
static inline void model_fact(const struct members *m, uint32_t fact,
                              int has[NUMBERS])
{
    /* "another "some" bit" */
    has[2] = one_has_first(m, 2, 9, fact);
    has[8] = one_has_first(m, 8, 9, fact);
    has[3] = one_has_last(m, 3, 10, fact);
    has[4] = one_has_last(m, 4, 10, fact);
    /* "or for the fourth new column the "no such item" bit" */
    has[11] = one_has_last(m, 11, 12, fact);
    /* "a flag, untouched or "no such item" bit where all members have it" */
    has[9] = all_have(m, 9, fact);
    has[10] = all_have(m, 10, fact);
    has[12] = all_have(m, 12, fact);
    /* "an "always" bit, below F only, where no rival outcome holds" */
    has[1] = !has[8] && !has[9];
    has[5] = !has[4] && !has[10];
    has[6] = !has[3] && !has[10];
    has[7] = !has[11] && !has[12];
}

/* "blank unless every member has a run" */
static inline void model_card(uint64_t facts, const struct members *m,
                              uint64_t *card)
{
    int has[NUMBERS];
    uint32_t fact;
    int column;
    memset(card, 0, CARD_WORDS * sizeof card[0]);
    if (!all_have_flag(m, 0))
        return;
    card[0] = 1 + 2 * (uint64_t)all_have_flag(m, 1);
    /* "drops bits from F upward (none if F passes the column's width)" */
    for (fact = 0; fact < COLUMN_FACTS && fact < facts; fact++) {
        model_fact(m, fact, has);
        /* "the count from its own columns" */
        card[0] += has[3] || has[4] ? 0x100 : 0;
        for (column = 1; column < NUMBERS; column++)
            card[place_of(column, fact)] |= (uint64_t)has[column]
                                            << fact % WORD_FACTS;
    }
}

/*
 * As dulimoven_list. "Answers: of the earlier ones only 8; 14 for a list of
 * more than 256, after 8; then 15 for a member not below C."
 */
static inline uint64_t model_list(uint64_t facts, uint64_t sequences,
                                  const uint64_t *cards, size_t cards_len,
                                  const uint32_t *list, size_t list_len,
                                  uint64_t *card)
{
    struct members m = {cards, list, list_len};
    size_t i;
    /* so many whole cards there are */
    if (cards_len / CARD_WORDS < sequences)
        return (uint64_t)8 << 32;
    if (list_len > 256)
        return (uint64_t)14 << 32;
    for (i = 0; i < list_len; i++)
        if (list[i] >= sequences)
            return (uint64_t)15 << 32;
    model_card(facts, &m, card);
    return 0;
}

#endif
