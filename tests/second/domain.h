/*
 * The domain D = (F, A, C, M) of source document 001, read from an accepted
 * image. An action of A is a step or a check, a compound task of C a sequence,
 * a method of M an alternative, and its task network the entries.
 *
 * For an empty method with the condition p source document 003 has the method
 * E -> no-op() [before(p, no-op())], where no-op() is "an action with no
 * effects and no preconditions". So a check of fact f is the action with f in
 * prec and nothing else, one action for each fact.
 */
#ifndef DULIMOVEN_TESTS_DOMAIN_H
#define DULIMOVEN_TESTS_DOMAIN_H

#include "../image.h"

/* The actions: first the steps, then from CHECKS on the check of each fact. */
enum { CHECKS = MOST_STEPS, MOST_ACTIONS = CHECKS + MOST_FACTS };

/* A task: an action, or else a compound task. */
struct task {
    uint16_t number;
    uint16_t is_action;
};

/*
 * A method m = (c, tn): the tasks of tn = <t_1 .. t_n> are those of the domain
 * from `begin` up to and without `end`.
 */
struct method {
    uint16_t c;
    uint16_t begin;
    uint16_t end;
};

struct domain {
    uint32_t facts, compounds, methods, tasks;
    struct method method[MOST_WORDS];
    struct task task[MOST_WORDS];
};

void read_domain(const uint32_t *image, size_t length, struct domain *d);

/*
 * What an action does with the fact under consideration. 001 assumes "w.l.o.g."
 * that no action has a fact in prec and add, or in add and del. The second is
 * so in an accepted image, by refusal 13. For the first document 01 has a rule:
 * a step that needs and sets a fact needs it on the first side, and sets it on
 * the last. So add(a) of Algorithm 6 is not add(a) of Algorithm 5.
 *
 * STAND is for the column "always stands": the action sets, needs or checks the
 * fact and does not clear it, which leaves it standing.
 */
enum { PREC = 1, ADD = 2, DEL = 4, FIRST_ADD = 8, STAND = 16 };

struct actions {
    uint8_t does[MOST_ACTIONS];
};

void read_actions(const uint32_t *image, size_t length, uint32_t f,
                  struct actions *a);

/* What a task does with the fact by itself; a compound task does nothing. */
static inline unsigned does(const struct actions *a, const struct task *t)
{
    return t->is_action ? a->does[t->number] : 0u;
}

/* A set of compound tasks, 64 of them in a word. */
enum { SET_BITS = 64, SET_WORDS = MOST_SEQUENCES / SET_BITS };

struct compounds {
    uint64_t word[SET_WORDS];
};

static inline int has(const struct compounds *s, uint32_t c)
{
    return (s->word[c / SET_BITS] >> c % SET_BITS & 1u) != 0;
}

static inline void add(struct compounds *s, uint32_t c)
{
    s->word[c / SET_BITS] |= UINT64_C(1) << c % SET_BITS;
}

static inline int meet(const struct compounds *s, const struct compounds *t)
{
    uint64_t both = 0;
    int i;
    for (i = 0; i < SET_WORDS; i++)
        both |= s->word[i] & t->word[i];
    return both != 0;
}

#endif
