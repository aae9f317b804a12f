/*
 * The second engine, for tests and the benchmark: the check by the rules of
 * documents 01 and 02, one word after the other, and the cards by the
 * algorithms printed in source document 001, one fact after the other, with
 * checks read as source document 003 does; "always stands" is by Algorithm 5
 * once more. The calls are of the library's shape, but of a card the engine has
 * the flags and the first seven columns alone. The engine shares no code with
 * the library, and reads the image by itself. C11 and C++17.
 */
#ifndef DULIMOVEN_TESTS_SECOND_H
#define DULIMOVEN_TESTS_SECOND_H

#include "../columns.h"

/* As dulimoven_check: refusals 1 to 7 and 13, or the head's payload. */
uint64_t second_check(const uint32_t *image, size_t image_len);

/*
 * As dulimoven_cards: refusals 1 to 8 and 13, or C with the cards. Of each card
 * the first SECOND_WORDS words are written, and the others are as they were.
 */
enum { SECOND_COLUMNS = 7, SECOND_WORDS = 1 + SECOND_COLUMNS * COLUMN_WORDS };
uint64_t second_cards(const uint32_t *image, size_t image_len, uint64_t *area,
                      size_t area_len);

#endif
