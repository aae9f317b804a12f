/*
 * The cards of an image by the algorithms of source document 001: what they
 * assume is made so first, then they are run for each fact.
 */
#include "algorithms.h"
#include "dulimoven.h"
#include "second.h"

#include <string.h>

/*
 * 001 assumes "that there are no compound tasks or decomposition methods with
 * only non-terminating refinements. By this we mean that every task or method
 * can be refined into a (possibly empty) primitive action sequence. Without
 * this assumption the following algorithms can lead to wrong results." So the
 * compound tasks with a refinement are found first: those that have an empty
 * one once every action is left out of the task networks.
 */
static void find_terminating(const struct domain *d,
                             struct compounds *terminating)
{
    static struct actions none;
    static struct domain no_actions;
    restrict_to(d, &none, 0, &no_actions);
    empty_refinements(&no_actions, terminating);
}

static int terminates(const struct domain *d, const struct method *m,
                      const struct compounds *terminating)
{
    uint32_t i;
    for (i = m->begin; i < m->end; i++)
        if (!d->task[i].is_action && !has(terminating, d->task[i].number))
            return 0;
    return 1;
}

/* Removes the other methods; the other tasks are left without a method. */
static void remove_endless(struct domain *d,
                           const struct compounds *terminating)
{
    uint32_t m, kept = 0;
    for (m = 0; m < d->methods; m++)
        if (terminates(d, &d->method[m], terminating))
            d->method[kept++] = d->method[m];
    d->methods = kept;
}

/*
 * "a check is no step, changes nothing [..] and a run without steps is still
 * called empty": C_eps for the flag is that of the task networks without the
 * checks. What is kept are the steps, whatever they do.
 */
static void find_empty(const struct domain *d, struct compounds *empty)
{
    enum { KEPT = 1 };
    static struct actions steps;
    static struct domain no_checks;
    memset(steps.does, KEPT, CHECKS);
    restrict_to(d, &steps, KEPT, &no_checks);
    empty_refinements(&no_checks, empty);
}

/* Puts a fact into a column of the cards of the compound tasks in the set. */
static void put_fact(uint64_t *area, const struct domain *d, int column,
                     uint32_t f, const struct compounds *s)
{
    uint32_t c;
    for (c = 0; c < d->compounds; c++)
        if (has(s, c))
            area[CARD_WORDS * c + place_of(column, f)] |= UINT64_C(1)
                                                          << f % WORD_FACTS;
}

/*
 * Without a run all words of a card are 0; of a compound task without a
 * refinement line 10 of Algorithm 6 would hold emptily.
 */
static void keep_terminating(struct compounds *s,
                             const struct compounds *terminating)
{
    int i;
    for (i = 0; i < SET_WORDS; i++)
        s->word[i] &= terminating->word[i];
}

/* `e` is found with "sets" for add, `s` with "leaves it standing". */
static void put_columns(uint64_t *area, const struct domain *d, uint32_t f,
                        const struct preconditions *p, const struct effects *e,
                        const struct effects *s)
{
    put_fact(area, d, DULIMOVEN_ALWAYS_NEEDED, f, &p->prec);
    put_fact(area, d, DULIMOVEN_MAY_NEED, f, &p->poss_prec);
    put_fact(area, d, DULIMOVEN_MAY_SET, f, &e->poss_eff_plus);
    put_fact(area, d, DULIMOVEN_MAY_CLEAR, f, &e->poss_eff_minus);
    put_fact(area, d, DULIMOVEN_ALWAYS_SET, f, &e->eff_plus);
    put_fact(area, d, DULIMOVEN_ALWAYS_CLEARED, f, &e->eff_minus);
    put_fact(area, d, DULIMOVEN_ALWAYS_STANDS, f, &s->eff_plus);
}

static void put_flags(uint64_t *card, int run, int empty_run)
{
    struct column set = column_of(card, DULIMOVEN_MAY_SET);
    struct column cleared = column_of(card, DULIMOVEN_MAY_CLEAR);
    uint64_t count = count_facts(union_of(set, cleared));
    card[DULIMOVEN_FLAGS] = (run ? DULIMOVEN_FLAG_RUN : 0) |
                            (empty_run ? DULIMOVEN_FLAG_EMPTY_RUN : 0) |
                            count << DULIMOVEN_FLAG_COUNT_SHIFT;
}

/* The cards of an accepted image. */
static void write_cards(const uint32_t *image, size_t length, uint64_t *area)
{
    static struct domain d;
    static struct actions a;
    struct compounds terminating, empty;
    struct effects e, s;
    struct preconditions p;
    uint32_t c, f;
    read_domain(image, length, &d);
    for (c = 0; c < d.compounds; c++)
        memset(area + CARD_WORDS * c, 0, SECOND_WORDS * sizeof *area);
    find_terminating(&d, &terminating);
    remove_endless(&d, &terminating);
    find_empty(&d, &empty);
    for (f = 0; f < d.facts; f++) {
        read_actions(image, length, f, &a);
        infer_effects(&d, &a, ADD, &e);
        infer_effects(&d, &a, STAND, &s);
        infer_preconditions(&d, &a, &p);
        keep_terminating(&p.prec, &terminating);
        put_columns(area, &d, f, &p, &e, &s);
    }
    for (c = 0; c < d.compounds; c++)
        put_flags(area + CARD_WORDS * c, has(&terminating, c), has(&empty, c));
}

uint64_t second_cards(const uint32_t *image, size_t image_len, uint64_t *area,
                      size_t area_len)
{
    uint64_t answer = second_check(image, image_len);
    if (dulimoven_is_refusal(answer))
        return answer;
    if (area_len < (size_t)CARD_WORDS * sequences_of(image[0]))
        return (uint64_t)DULIMOVEN_CARD_AREA << 32;
    write_cards(image, image_len, area);
    return sequences_of(image[0]);
}
