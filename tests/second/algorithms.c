/*
 * Algorithms 4, 5 and 6 of source document 001. D' is `restricted`, D'' of
 * Algorithm 5 and D''' of Algorithm 6 are `shortened`.
 */
#include "algorithms.h"

#include <string.h>

/* Line 8 of EMPTYREFINEMENTS: whether some t_i is in A. */
static int some_action(const struct domain *d, const struct method *m)
{
    uint32_t i;
    for (i = m->begin; i < m->end; i++)
        if (d->task[i].is_action)
            return 1;
    return 0;
}

/* Whether t_i is in C_eps. */
static int is_in(const struct task *t, const struct compounds *c_eps)
{
    return !t->is_action && has(c_eps, t->number);
}

/* Line 13: whether all t_i are in C_eps. */
static int all_in(const struct domain *d, const struct method *m,
                  const struct compounds *c_eps)
{
    uint32_t i;
    for (i = m->begin; i < m->end; i++)
        if (!is_in(&d->task[i], c_eps))
            return 0;
    return 1;
}

/*
 * Algorithm 4, lines 2 to 17. M' is kept as the list of what is left in it; a
 * method of a task that is in C_eps is left out too, as line 13 passes over it.
 */
void empty_refinements(const struct domain *d, struct compounds *c_eps)
{
    static const struct method *left[MOST_WORDS];
    const struct method *m;
    uint32_t i, kept, count = 0;
    int set_changed = 1;
    memset(c_eps, 0, sizeof *c_eps);                         /* 3 */
    for (m = d->method; m < d->method + d->methods; m++) {   /* 4 */
        if (m->begin == m->end)                              /* 5 */
            add(c_eps, m->c);                                /* 6, 7 */
        else if (!some_action(d, m))                         /* 8 */
            left[count++] = m;                               /* 9 */
    }
    while (set_changed) {                                    /* 10 */
        set_changed = 0;                                     /* 11 */
        for (i = kept = 0; i < count; i++) {                 /* 12 */
            m = left[i];
            if (has(c_eps, m->c))                            /* 13 */
                continue;
            if (all_in(d, m, c_eps)) {
                add(c_eps, m->c);                            /* 14, 15 */
                set_changed = 1;                             /* 16 */
            } else {
                left[kept++] = m;
            }
        }
        count = kept;
    }
}

/* A domain with the same F, A and C, and no method yet. */
static void begin_domain(const struct domain *d, struct domain *made)
{
    made->facts = d->facts;
    made->compounds = d->compounds;
    made->methods = made->tasks = 0;
}

/* Adds the method (c, tn) to M', where tn are the tasks of d from i up to j. */
static void add_method(const struct domain *d, uint32_t c, uint32_t i,
                       uint32_t j, struct domain *made)
{
    struct method *m = &made->method[made->methods++];
    m->c = (uint16_t)c;
    m->begin = (uint16_t)made->tasks;
    while (i < j)
        made->task[made->tasks++] = d->task[i++];
    m->end = (uint16_t)made->tasks;
}

/* SHORTENMETHODSFROMRIGHT, lines 19 to 28. */
static void shorten_methods_from_right(const struct domain *d,
                                       const struct compounds *c_eps,
                                       struct domain *shortened)
{
    const struct method *m;
    uint32_t i;
    begin_domain(d, shortened);                              /* 20 */
    for (m = d->method; m < d->method + d->methods; m++) {   /* 21 */
        for (i = m->end; i > m->begin; i--)                  /* 22, 23 */
            if (!is_in(&d->task[i - 1], c_eps)) {            /* 24 */
                i--;                                         /* 25 */
                break;                                       /* 26 */
            }
        add_method(d, m->c, i, m->end, shortened);           /* 27 */
    }
}

/*
 * SHORTENMETHODSFROMLEFT "mirrors SHORTENMETHODSFROMRIGHT, with the loop in
 * line 23 running from 1 to |tn| instead".
 */
static void shorten_methods_from_left(const struct domain *d,
                                      const struct compounds *c_eps,
                                      struct domain *shortened)
{
    const struct method *m;
    uint32_t i;
    begin_domain(d, shortened);
    for (m = d->method; m < d->method + d->methods; m++) {
        for (i = m->begin; i < m->end; i++)
            if (!is_in(&d->task[i], c_eps)) {
                i++;
                break;
            }
        add_method(d, m->c, m->begin, i, shortened);
    }
}

/* The lowest member of a set, which is taken out, or MOST_SEQUENCES. */
static uint32_t take(struct compounds *s)
{
    uint32_t i, c;
    for (i = 0; i < SET_WORDS; i++)
        if (s->word[i] != 0) {
            c = SET_BITS * i + (uint32_t)__builtin_ctzll(s->word[i]);
            s->word[i] &= s->word[i] - 1;
            return c;
        }
    return MOST_SEQUENCES;
}

/* For each compound task those that stand in its methods. */
static void read_calls(const struct domain *d, struct compounds *calls)
{
    const struct method *m;
    uint32_t i;
    memset(calls, 0, d->compounds * sizeof *calls);
    for (m = d->method; m < d->method + d->methods; m++)
        for (i = m->begin; i < m->end; i++)
            if (!d->task[i].is_action)
                add(&calls[m->c], d->task[i].number);
}

/*
 * DECOMPOSITIONREACHABILITY: M_R(c) has each m = (c, tn), and each
 * m = (c', tn) where there is tn' with <c> -> tn' and c' in tn'. It is kept as
 * the set of the compound tasks whose methods these are: c, and each c'.
 */
static void decomposition_reachability(const struct domain *d,
                                       struct compounds *m_r)
{
    static struct compounds calls[MOST_SEQUENCES];
    struct compounds todo;
    uint32_t c, t, i;
    read_calls(d, calls);
    memset(m_r, 0, d->compounds * sizeof *m_r);
    for (c = 0; c < d->compounds; c++) {
        memset(&todo, 0, sizeof todo);
        add(&todo, c);
        add(&m_r[c], c);
        while ((t = take(&todo)) != MOST_SEQUENCES)
            for (i = 0; i < SET_WORDS; i++) {
                todo.word[i] |= calls[t].word[i] & ~m_r[c].word[i];
                m_r[c].word[i] |= calls[t].word[i];
            }
    }
}

/*
 * The compound tasks with a method in whose task network an action does it.
 * There is (c', <t_1 .. t_n>) in M_R(c) with such a t_i where M_R(c) has one.
 */
static struct compounds doing(const struct domain *d, const struct actions *a,
                              unsigned it)
{
    struct compounds found;
    const struct method *m;
    uint32_t i;
    memset(&found, 0, sizeof found);
    for (m = d->method; m < d->method + d->methods; m++)
        for (i = m->begin; i < m->end; i++)
            if (does(a, &d->task[i]) & it)
                add(&found, m->c);
    return found;
}

void restrict_to(const struct domain *d, const struct actions *a,
                 unsigned keep, struct domain *restricted)
{
    const struct method *m;
    uint32_t i;
    begin_domain(d, restricted);
    for (m = d->method; m < d->method + d->methods; m++) {
        add_method(d, m->c, m->begin, m->begin, restricted);
        for (i = m->begin; i < m->end; i++)
            if (!d->task[i].is_action || (does(a, &d->task[i]) & keep))
                restricted->task[restricted->tasks++] = d->task[i];
        restricted->method[restricted->methods - 1].end =
            (uint16_t)restricted->tasks;
    }
}

static void restrict_to_effects(const struct domain *d,
                                const struct actions *a, unsigned plus,
                                struct domain *restricted)
{
    restrict_to(d, a, plus | DEL, restricted);
}

static void restrict_to_precs_only(const struct domain *d,
                                   const struct actions *a,
                                   struct domain *restricted)
{
    restrict_to(d, a, PREC, restricted);
}

static void restrict_to_precs_and_adds(const struct domain *d,
                                       const struct actions *a,
                                       struct domain *restricted)
{
    restrict_to(d, a, PREC | FIRST_ADD, restricted);
}

/* Algorithm 5 for one fact; line 2, "for all f in F", is the caller's. */
void infer_effects(const struct domain *d, const struct actions *a,
                   unsigned plus, struct effects *found)
{
    static struct domain restricted, shortened;
    static struct compounds m_r[MOST_SEQUENCES];
    struct compounds c_eps, adding, deleting;
    uint32_t c;
    memset(found, 0, sizeof *found);                              /* 1 */
    restrict_to_effects(d, a, plus, &restricted);                 /* 3 */
    empty_refinements(&restricted, &c_eps);                       /* 4 */
    shorten_methods_from_right(&restricted, &c_eps, &shortened);  /* 5 */
    decomposition_reachability(&shortened, m_r);                  /* 6 */
    adding = doing(&shortened, a, plus);
    deleting = doing(&shortened, a, DEL);
    for (c = 0; c < d->compounds; c++) {                          /* 7 */
        int adds = meet(&m_r[c], &adding);                        /* 8 */
        int deletes = meet(&m_r[c], &deleting);                   /* 10 */
        if (adds)
            add(&found->poss_eff_plus, c);                        /* 9 */
        if (deletes)
            add(&found->poss_eff_minus, c);                       /* 11 */
        if (has(&c_eps, c))                                       /* 12 */
            continue;
        if (adds && !deletes)                                     /* 13 */
            add(&found->eff_plus, c);                             /* 14 */
        if (!adds && deletes)                                     /* 15 */
            add(&found->eff_minus, c);                            /* 16 */
    }
}

/*
 * Algorithm 6 for one fact; line 2 is the caller's. For the possible
 * preconditions (section 4) "we can skip lines 3 and 4 and alter line 10 as
 * follows: If there is m = (c', tn = <t_1 .. t_n>) in M_R(c) with some i and
 * f in prec(t_i), then f in poss-prec(c)": line 10'.
 */
void infer_preconditions(const struct domain *d, const struct actions *a,
                         struct preconditions *found)
{
    static struct domain precs, restricted, shortened;
    static struct compounds m_r[MOST_SEQUENCES];
    struct compounds c_eps, c_eps_prime, needing, adding;
    uint32_t c;
    memset(found, 0, sizeof *found);                              /* 1 */
    restrict_to_precs_only(d, a, &precs);                         /* 3 */
    empty_refinements(&precs, &c_eps);                            /* 4 */
    restrict_to_precs_and_adds(d, a, &restricted);                /* 5 */
    empty_refinements(&restricted, &c_eps_prime);                 /* 6 */
    shorten_methods_from_left(&restricted, &c_eps_prime,
                              &shortened);                        /* 7 */
    decomposition_reachability(&shortened, m_r);                  /* 8 */
    needing = doing(&shortened, a, PREC);
    adding = doing(&shortened, a, FIRST_ADD);
    for (c = 0; c < d->compounds; c++) {                          /* 9 */
        if (!has(&c_eps, c) && !meet(&m_r[c], &adding))           /* 10 */
            add(&found->prec, c);                                 /* 11 */
        if (meet(&m_r[c], &needing))                              /* 10' */
            add(&found->poss_prec, c);
    }
}
