/*
 * The lister: an image as a library with names made up, and a library as
 * canonical text.
 */
#ifndef DLM_LISTER_H
#define DLM_LISTER_H

#include "library.h"
#include "writer.h"

#include <stdio.h>

/*
 * The library that an accepted image holds. Facts are f0, f1, .., steps s0, s1,
 * .., sequences q0, q1, .., and alternatives have no label. Answers whether
 * there was memory for it; it is freed by library_free in either case.
 */
int library_of_image(const struct image *image, struct library *library);

/*
 * Prints the canonical text of a library: facts, steps and sequences in the
 * order of their numbers; of a step what it needs, sets and clears, each by
 * ascending facts; of a sequence its claims, then its alternatives. Names and
 * notes stay, comments do not. Lines have at most 80 columns, but for notes and
 * names that are longer.
 */
void print_text(FILE *file, const struct library *library);

#endif
