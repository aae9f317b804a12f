/*
 * The mirrored image of a fact, which answers what no question of the chain
 * call is about: how the last item that sets, clears, needs or checks the fact
 * clears it, and how no item does.
 *
 * Each alternative has its entries in the opposite order, so that the last such
 * item is the first. A step that clears the fact only sets it, and one that
 * needs or sets it and does not clear it only needs it; a check stays. All else
 * that steps do is left out. On the first side a touch is then such an item;
 * "first set" (question 4) is "clears it last", and "first untouched" (question
 * 5) is "no such item". The mirrored image has no more words than the image.
 */
#ifndef DLM_MIRROR_H
#define DLM_MIRROR_H

#include "library.h"
#include "writer.h"

void mirror_image(const struct library *library, uint32_t fact,
                  struct image *image);

#endif
