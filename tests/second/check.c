/*
 * The check: document 01, "Turned down, in checking order", refusals 1 to 7,
 * and of document 02 refusal 13 and the sum of request 6.
 */
#include "../image.h"
#include "dulimoven.h"
#include "second.h"

static uint64_t refusal(uint64_t number, size_t position)
{
    return number << 32 | position;
}

/*
 * How far the words between head and sum word are read. `set_by` has of each
 * fact how many steps were opened when a word last set it, 0 where none did.
 */
struct reading {
    uint32_t facts, steps, sequences;
    uint32_t opened_steps, opened_sequences;
    uint32_t before;
    uint32_t set_by[MOST_FACTS];
};

/* Rule 4: whether a word of this kind may stand here. */
static int stands(const struct reading *r, uint32_t word)
{
    switch (kind_of(word)) {
    case KIND_NEEDS:
    case KIND_SETS:
    case KIND_CLEARS:
        return kind_of(r->before) == KIND_STEP || is_fact(r->before);
    case KIND_STEP:
        return r->opened_sequences == 0;
    case KIND_SEQUENCE:
        return r->opened_steps >= r->steps;
    case KIND_ALTERNATIVE:
        return r->opened_sequences > 0;
    case KIND_STEP_ENTRY:
    case KIND_SEQUENCE_ENTRY:
    case KIND_CHECK:
        return kind_of(r->before) == KIND_ALTERNATIVE || is_entry(r->before);
    default:
        return 0;
    }
}

/* Rule 5: whether the payload keeps the rule of its kind. */
static int payload_right(const struct reading *r, uint32_t word)
{
    uint32_t p = payload_of(word);
    switch (kind_of(word)) {
    case KIND_STEP:
        return p == r->opened_steps && p < r->steps;
    case KIND_SEQUENCE:
        return p == r->opened_sequences && p < r->sequences;
    case KIND_ALTERNATIVE:
        return p == 0;
    case KIND_STEP_ENTRY:
        return p < r->steps;
    case KIND_SEQUENCE_ENTRY:
        return p < r->sequences;
    default: /* a fact word, or a check */
        return p < r->facts;
    }
}

/* Rule 6: whether a step's fact word is greater than the one before it. */
static int ascends(const struct reading *r, uint32_t word)
{
    return !is_fact(word) || !is_fact(r->before) || word > r->before;
}

/*
 * Rule 13: whether it is a "clear word naming a fact that an earlier word of
 * the same step sets". The fact is below F.
 */
static int clears_what_is_set(const struct reading *r, uint32_t word)
{
    return kind_of(word) == KIND_CLEARS &&
           r->set_by[payload_of(word)] == r->opened_steps;
}

/* The first of 4, 5, 6 and 13 that applies to a word, or 0. */
static uint64_t fault(const struct reading *r, uint32_t word)
{
    if (!stands(r, word))
        return DULIMOVEN_KIND;
    if (!payload_right(r, word))
        return DULIMOVEN_PAYLOAD;
    if (!ascends(r, word))
        return DULIMOVEN_FACT_ORDER;
    if (clears_what_is_set(r, word))
        return DULIMOVEN_SET_AND_CLEARED;
    return 0;
}

/* Reads a word that breaks no rule. */
static void read_word(struct reading *r, uint32_t word)
{
    r->before = word;
    switch (kind_of(word)) {
    case KIND_STEP:
        r->opened_steps++;
        break;
    case KIND_SETS:
        r->set_by[payload_of(word)] = r->opened_steps;
        break;
    case KIND_SEQUENCE:
        r->opened_sequences++;
        break;
    }
}

/*
 * Rule 2, word by word. Document 02, request 6: "Keep the running sum of these
 * with wrap at 2^32, and let b be the wrapping sum of its values after each
 * earlier word. The sum word's payload is now b mod 2^28."
 */
static int sum_right(const uint32_t *image, size_t length)
{
    uint32_t running = 0, b = 0;
    size_t i;
    for (i = 0; i + 1 < length; i++) {
        running += counts_as(image[i]);
        b += running;
    }
    return image[length - 1] == word_of(KIND_SUM, payload_of(b));
}

/* Every number of steps that a head can hold is right. */
static int head_right(uint32_t head)
{
    return kind_of(head) == KIND_HEAD && facts_of(head) >= LEAST_FACTS &&
           facts_of(head) <= MOST_FACTS &&
           sequences_of(head) <= MOST_SEQUENCES;
}

/* Refusals 4 to 7 and 13 of an image whose head and sum word are right. */
static uint64_t read_words(const uint32_t *image, size_t length)
{
    uint32_t head = image[0];
    struct reading r = {facts_of(head), steps_of(head), sequences_of(head),
                        0, 0, head, {0}};
    uint64_t number;
    size_t i;
    for (i = 1; i + 1 < length; i++) {
        number = fault(&r, image[i]);
        if (number != 0)
            return refusal(number, i);
        read_word(&r, image[i]);
    }
    if (r.opened_steps < r.steps || r.opened_sequences < r.sequences)
        return refusal(DULIMOVEN_MISSING, length - 1);
    return payload_of(head);
}

uint64_t second_check(const uint32_t *image, size_t image_len)
{
    if (image_len < LEAST_WORDS || image_len > MOST_WORDS)
        return refusal(DULIMOVEN_LENGTH, 0);
    if (!sum_right(image, image_len))
        return refusal(DULIMOVEN_SUM_WORD, image_len - 1);
    if (!head_right(image[0]))
        return refusal(DULIMOVEN_HEAD_WORD, 0);
    return read_words(image, image_len);
}
