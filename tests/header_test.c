/*
 * The header alone: it needs no other, it may come twice, and its numbers may
 * be computed with, also those of different kinds with one another, which
 * C++20 warns of where both are enumerators. Compiled with all warnings as C11,
 * as C++17 and as C++20; the compiler holds what it says, and nothing is run.
 */
#include "dulimoven.h"
#include "dulimoven.h"

#include <assert.h>

/* 256 facts, 1,023 steps and 256 sequences at most, 2 words a link (document
   01) and 49 words a card (document 02, request 8): the flags, and twelve
   columns of four words; 256 * 49 is 12544 */
static_assert(DULIMOVEN_MOST_FACTS == 256 && DULIMOVEN_MOST_STEPS == 1023, "");
static_assert(DULIMOVEN_COLUMNS == 12 && DULIMOVEN_COLUMN_WORDS == 4, "");
static_assert(DULIMOVEN_CARD_WORDS == 49, "");
static_assert(DULIMOVEN_MOST_SEQUENCES * DULIMOVEN_CARD_WORDS == 12544, "");
static_assert(DULIMOVEN_MOST_CARD_WORDS == 12544, "");
static_assert(64 * DULIMOVEN_COLUMN_WORDS == DULIMOVEN_MOST_FACTS, "");
static_assert(DULIMOVEN_MOST_SEQUENCES * DULIMOVEN_LINK_WORDS == 512, "");
static_assert(DULIMOVEN_MOST_CHAIN_WORDS == 512, "");

/* "may end unmentioned" is the last column, and the count takes bits 8 to 16 of
   the flags */
static_assert(DULIMOVEN_MAY_END_UNMENTIONED == DULIMOVEN_COLUMNS, "");
static_assert(DULIMOVEN_FLAG_COUNT_SHIFT == 8 &&
                  DULIMOVEN_FLAG_COUNT_MASK == 0x1ff,
              "");

/* the columns of request 5 follow "always stands", in its order */
static_assert(DULIMOVEN_MAY_FIRST_SET == 8 &&
                  DULIMOVEN_MAY_FIRST_UNTOUCHED == 9 &&
                  DULIMOVEN_MAY_LAST_UNTOUCHED == 10 &&
                  DULIMOVEN_MAY_END_CLEARED == 11 &&
                  DULIMOVEN_MAY_END_UNMENTIONED == 12,
              "");

/* "a list of up to 256 sequences", and its refusals */
static_assert(DULIMOVEN_MOST_LIST == 256, "");
static_assert(DULIMOVEN_LIST_LENGTH == 14 && DULIMOVEN_MEMBER == 15, "");

/* a list that says why has each sequence once at the most, a word for each; and
   its refusals */
static_assert(DULIMOVEN_MOST_ENDLESS_WORDS == 256, "");
static_assert(DULIMOVEN_HAS_RUN == 16 && DULIMOVEN_LIST_AREA == 17, "");

/* the kinds of documents 01 and 02; 10 to 12 are a chain's, 14 is none yet */
static_assert(DULIMOVEN_KIND_HEAD == 1 && DULIMOVEN_KIND_NEEDS == 2 &&
                  DULIMOVEN_KIND_SETS == 3 && DULIMOVEN_KIND_CLEARS == 4,
              "");
static_assert(DULIMOVEN_KIND_STEP == 5 && DULIMOVEN_KIND_SEQUENCE == 6 &&
                  DULIMOVEN_KIND_ALTERNATIVE == 7,
              "");
static_assert(DULIMOVEN_KIND_STEP_ENTRY == 8 &&
                  DULIMOVEN_KIND_SEQUENCE_ENTRY == 9 &&
                  DULIMOVEN_KIND_CHECK == 13 && DULIMOVEN_KIND_SUM == 15,
              "");

/* the second word of the last link that there can be: 511 */
static_assert(DULIMOVEN_MOST_CHAIN_WORDS - DULIMOVEN_LINK_WORDS + 1 == 511, "");

/* format 5, which has another head and cards of 49 words, and no change since
   then; a preprocessor can tell */
static_assert(DULIMOVEN_VERSION / 1000 == DULIMOVEN_FORMAT, "");
#if DULIMOVEN_FORMAT != 5 || DULIMOVEN_VERSION != 5000
#error "the format is 5, the version 5000"
#endif

/* the image that is sealed is lent to be written, as no other image is */
static uint64_t (*const seals)(uint32_t *, size_t) = dulimoven_seal;
static uint64_t (*const checks)(const uint32_t *, size_t) = dulimoven_check;
static_assert(sizeof seals == sizeof checks, "");
