#include "seeded_words.h"

#include "second/seeded.h"

/* Does not compile where the numbers of the two headers differ. */
enum {
    SAME_KINDS = 1 / ((int)SEEDED_WORDS_KINDS == (int)SEEDED_KINDS),
    SAME_LENGTH = 1 / ((int)SEEDED_WORDS_MOST == (int)MOST_WORDS)
};

static struct image image;

uint32_t seeded_below(uint64_t *state, uint32_t below)
{
    struct seed seed = {*state};
    uint32_t drawn = draw(&seed, below);
    *state = seed.state;
    return drawn;
}

const char *seeded_kind(unsigned kind)
{
    return seeded_name(kind % SEEDED_KINDS);
}

size_t seeded_words(uint64_t *state, unsigned kind, int wide, uint32_t *words)
{
    struct seed seed = {*state};
    if (wide)
        make_wide_library(&seed, kind % SEEDED_KINDS, &image);
    else
        make_library(&seed, kind % SEEDED_KINDS, &image);
    *state = seed.state;
    memcpy(words, image.words, image.length * sizeof words[0]);
    return image.length;
}

/* A word that may stand after an alternative's opener. */
static void put_random(uint64_t *state)
{
    uint32_t head = image.words[0], of = seeded_below(state, 8);
    if (of == 0)
        image_put(&image, KIND_ALTERNATIVE, 0);
    else if (of == 1)
        image_put(&image, KIND_SEQUENCE_ENTRY,
                  seeded_below(state, sequences_of(head)));
    else if (of < 4 || steps_of(head) == 0)
        image_put(&image, KIND_CHECK, seeded_below(state, facts_of(head)));
    else
        image_put(&image, KIND_STEP_ENTRY, seeded_below(state, steps_of(head)));
}

size_t seeded_fill(uint64_t *state, uint32_t *words, size_t length,
                   size_t filled)
{
    if (length >= filled || sequences_of(words[0]) == 0)
        return length;
    image.length = length - 1;
    memcpy(image.words, words, image.length * sizeof words[0]);
    image_put(&image, KIND_ALTERNATIVE, 0);
    while (image.length + 1 < filled)
        put_random(state);
    image_end(&image);
    memcpy(words, image.words, image.length * sizeof words[0]);
    return image.length;
}
