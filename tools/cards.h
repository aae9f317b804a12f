/*
 * The cards of a library with names, in words.
 */
#ifndef DLM_CARDS_H
#define DLM_CARDS_H

#include "loaded.h"

#include <stdio.h>

/*
 * Prints the card of each sequence: whether it has a run and an empty one, and
 * a line for each fact that it always or sometimes needs, sets or clears, or
 * that always stands at its end. Nothing is said of other facts.
 */
void print_cards(FILE *file, const struct loaded *loaded);

#endif
