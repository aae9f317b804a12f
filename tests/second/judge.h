/*
 * What is right of a chain, for tests: each link is held against the words of
 * the library, and plain rounds say how many links are the fewest, what depth
 * is the least and which choice is the newest, the highest alternative and
 * there the lowest position. And of a list that says why a sequence has no run:
 * plain rounds say who has a run, and then what is reached. C11 and C++17.
 */
#ifndef DULIMOVEN_TESTS_JUDGE_H
#define DULIMOVEN_TESTS_JUDGE_H

#include <stddef.h>
#include <stdint.h>

/* What can be wrong with an answer of the chain call, and from FAULT_LISTED on
 * with one of the call that says why a sequence has no run. */
enum fault {
    NO_FAULT,
    FAULT_REFUSED,
    FAULT_MISSED,
    FAULT_INVENTED,
    FAULT_TOO_LONG,
    FAULT_CHANGED,
    FAULT_NOT_FEWEST,
    FAULT_FIRST_WORD,
    FAULT_SECOND_WORD,
    FAULT_UNTOUCHED,
    FAULT_BESIDE,
    FAULT_ENTRY,
    FAULT_NOT_NEWEST,
    FAULT_LISTED,
    FAULT_UNLISTED,
    FAULT_NOT_RISING,
    FAULT_UNSUPPORTED,
    FAULT_MEMBERS
};

const char *fault_text(enum fault fault);

/* What each word of the area holds before the call. */
#define JUDGE_BEFORE UINT32_C(0x5a5a5a5a)

/* Takes up an accepted image, and then a fact of it. */
void judge_library(const uint32_t *image, size_t length);
void judge_fact(uint32_t fact);

/*
 * Two questions more, for the columns "may end cleared", "may end unmentioned"
 * and "always stands", which the chain call does not answer: some run's last
 * item that sets, clears, needs or checks the fact clears it; some run has no
 * such item.
 */
enum {
    JUDGE_STANDING_CLEARED = 6,
    JUDGE_STANDING_UNTOUCHED = 7,
    JUDGE_QUESTIONS = 8
};

/* Whether a run of the sequence has the question's outcome. */
int judge_possible(uint32_t sequence, uint32_t question);

/* Whether it has a run. */
int judge_has_run(uint32_t sequence);

/* What is wrong with an answer, and the words that the area holds after it. */
enum fault judge_answer(uint32_t sequence, uint32_t question, uint64_t answer,
                        const uint32_t *area, size_t area_len);

/* The same of the call that says why a sequence has no run. An area with a word
 * for each sequence is asked for. */
enum fault judge_list(uint32_t sequence, uint64_t answer, const uint32_t *area,
                      size_t area_len);

#endif
