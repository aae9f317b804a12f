#include "writer.h"

#include <stdlib.h>

enum { PAYLOAD_BITS = 28, PAYLOAD_MASK = (1 << PAYLOAD_BITS) - 1 };

/* Where the head has its numbers: those of steps and sequences. */
enum { HEAD_STEPS = 9, HEAD_SEQUENCES = 19 };

uint32_t word_kind(uint32_t word)
{
    return word >> PAYLOAD_BITS;
}

uint32_t word_payload(uint32_t word)
{
    return word & PAYLOAD_MASK;
}

void image_put(struct image *image, uint32_t kind, size_t payload, size_t at)
{
    image->words[image->length] = kind << PAYLOAD_BITS | (uint32_t)payload;
    image->places[image->length] = at;
    image->length++;
}

uint32_t head_of(size_t facts, size_t steps, size_t sequences)
{
    return (uint32_t)(facts | steps << HEAD_STEPS |
                      sequences << HEAD_SEQUENCES);
}

/* The order of a step's fact words: needs, sets, clears, each by ascending
 * facts; of two for the same, as they stand in the text. */
static int order_of_uses(const void *one, const void *other)
{
    const struct use *first = *(const struct use *const *)one;
    const struct use *second = *(const struct use *const *)other;
    if (first->kind != second->kind)
        return first->kind < second->kind ? -1 : 1;
    if (first->fact != second->fact)
        return first->fact < second->fact ? -1 : 1;
    return first < second ? -1 : 1;
}

static void put_step(struct image *image, const struct library *library,
                     size_t number)
{
    const struct step *step = &library->step[number];
    const struct use *uses[MOST_BETWEEN];
    size_t count = 0, i;
    image_put(image, DULIMOVEN_KIND_STEP, number, step->named.at);
    for (i = step->uses.begin; i < step->uses.end; i++)
        uses[count++] = &library->use[i];
    qsort(uses, count, sizeof uses[0], order_of_uses);
    for (i = 0; i < count; i++)
        image_put(image, uses[i]->kind, uses[i]->fact, uses[i]->at);
}

static void put_sequence(struct image *image, const struct library *library,
                         size_t number)
{
    const struct sequence *sequence = &library->sequence[number];
    size_t i, j;
    image_put(image, DULIMOVEN_KIND_SEQUENCE, number, sequence->named.at);
    for (i = sequence->alternatives.begin; i < sequence->alternatives.end;
         i++) {
        const struct alternative *alternative = &library->alternative[i];
        image_put(image, DULIMOVEN_KIND_ALTERNATIVE, 0, alternative->at);
        for (j = alternative->entries.begin; j < alternative->entries.end; j++)
            image_put(image, library->entry[j].kind, library->entry[j].number,
                      library->entry[j].at);
    }
}

/* The step whose words a word is among. */
static const char *step_at(const struct library *library,
                           const struct image *image, size_t word)
{
    while (word_kind(image->words[word]) != DULIMOVEN_KIND_STEP)
        word--;
    return library->step[word_payload(image->words[word])].named.name;
}

static const char *verb_of(uint32_t word)
{
    return word_kind(word) == DULIMOVEN_KIND_NEEDS  ? "needs"
           : word_kind(word) == DULIMOVEN_KIND_SETS ? "sets"
                                                    : "clears";
}

/* Tells why the check refuses the image, at the place of the word. */
static void tell_refusal(struct source *source, const struct library *library,
                         const struct image *image, uint64_t answer)
{
    uint32_t refusal = dulimoven_refusal_of(answer);
    uint32_t position = dulimoven_position_of(answer);
    uint32_t word = image->words[position];
    size_t at = image->places[position];
    if (refusal == DULIMOVEN_SET_AND_CLEARED)
        source_error(source, at,
                     "step '%s' sets and clears '%s', expected one of the two: "
                     "a step that sets it and another that clears it",
                     step_at(library, image, position),
                     library->fact[word_payload(word)].name);
    else if (refusal == DULIMOVEN_FACT_ORDER)
        source_error(source, at,
                     "found '%s' once more: step '%s' %s it already, expected "
                     "each fact once",
                     library->fact[word_payload(word)].name,
                     step_at(library, image, position), verb_of(word));
    else if (refusal == DULIMOVEN_HEAD_WORD && library->facts == 0)
        source_error(source, source->length,
                     "found a library without a fact, expected at least one");
    else
        source_error(source, at, "the check refuses what stands here: %u",
                     refusal);
}

int write_image(struct source *source, const struct library *library,
                struct image *image)
{
    uint64_t answer;
    size_t i;
    image->length = 0;
    image_put(image, DULIMOVEN_KIND_HEAD,
              head_of(library->facts, library->steps, library->sequences), 0);
    for (i = 0; i < library->steps; i++)
        put_step(image, library, i);
    for (i = 0; i < library->sequences; i++)
        put_sequence(image, library, i);
    image_put(image, DULIMOVEN_KIND_SUM, 0, source->length);
    answer = dulimoven_seal(image->words, image->length);
    if (!dulimoven_is_refusal(answer))
        answer = dulimoven_check(image->words, image->length);
    if (dulimoven_is_refusal(answer))
        tell_refusal(source, library, image, answer);
    return !dulimoven_is_refusal(answer);
}
