/*
 * The algorithms printed in source document 001, for one fact: 5, with the
 * auxiliary functions of 4, and 6 with its adaptation for the possible
 * preconditions. 001 numbers the lines; so do the comments.
 */
#ifndef DULIMOVEN_TESTS_ALGORITHMS_H
#define DULIMOVEN_TESTS_ALGORITHMS_H

#include "domain.h"

/* EMPTYREFINEMENTS: C_eps, the compound tasks with an empty refinement. */
void empty_refinements(const struct domain *d, struct compounds *c_eps);

/*
 * The domain D' whose actions A' are those that do something of `keep`; M' is
 * M with the task networks restricted to tasks from A' and C.
 */
void restrict_to(const struct domain *d, const struct actions *a,
                 unsigned keep, struct domain *restricted);

/*
 * The compound tasks that have the fact in each of Algorithm 5's sets. `plus`
 * is what an action does that has the fact in add(a): ADD, or STAND for the
 * column "always stands". What has it in del(a) clears it.
 */
struct effects {
    struct compounds poss_eff_plus, poss_eff_minus, eff_plus, eff_minus;
};

void infer_effects(const struct domain *d, const struct actions *a,
                   unsigned plus, struct effects *found);

/* Those that have it in Algorithm 6's set, and in the one of Definition 8. */
struct preconditions {
    struct compounds prec, poss_prec;
};

void infer_preconditions(const struct domain *d, const struct actions *a,
                         struct preconditions *found);

#endif
