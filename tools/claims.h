/*
 * Claims: what a text says that its sequences always or never do, held against
 * the cards.
 */
#ifndef DLM_CLAIMS_H
#define DLM_CLAIMS_H

#include "verbs.h"

/* Whether a claim holds, by the card of its sequence. */
int claim_holds(const struct loaded *loaded, const struct claim *claim);

/* What the run does that shows that a claim of a sequence with a run fails. */
enum outcome claim_rival(const struct loaded *loaded,
                         const struct claim *claim);

/*
 * Holds each claim of a file against the cards. A claim that fails is told on
 * standard error: where it stands, the fact and what it means, and the reason.
 * How many claims there are, and how many fail, is said on standard output.
 * Answers whether all hold.
 */
int hold_claims(const struct loaded *loaded);

#endif
