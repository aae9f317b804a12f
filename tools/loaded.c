#include "loaded.h"

#include "lister.h"
#include "reader.h"

#include <stdio.h>
#include <stdlib.h>

/* What each refusal that the check can give says of an image. */
static const char *refusal_text(uint32_t refusal)
{
    switch (refusal) {
    case DULIMOVEN_LENGTH:
        return "it has fewer than 2 or more than 8,192 words, or a part of one";
    case DULIMOVEN_SUM_WORD:
        return "the last word is not the sum of those before it; a word was "
               "damaged, or the file is no image";
    case DULIMOVEN_HEAD_WORD:
        return "the first word is no head";
    case DULIMOVEN_KIND:
        return "a word of this kind may not stand there";
    case DULIMOVEN_PAYLOAD:
        return "a number is out of its range, or out of turn";
    case DULIMOVEN_FACT_ORDER:
        return "the facts of a step do not ascend";
    case DULIMOVEN_MISSING:
        return "there are fewer steps or sequences than the head counts";
    case DULIMOVEN_SET_AND_CLEARED:
        return "a step clears a fact that it sets";
    default:
        return "it is refused";
    }
}

/* Takes the words of an image, each as four bytes with the lowest first. A file
 * of other bytes counts as one without a word, which the check refuses. */
static void take_words(const struct source *source, struct image *image)
{
    const unsigned char *bytes = (const unsigned char *)source->bytes;
    size_t i;
    image->length = source->length % 4 == 0 ? source->length / 4 : 0;
    if (image->length > DULIMOVEN_MOST_IMAGE_WORDS)
        image->length = 0;
    for (i = 0; i < image->length; i++, bytes += 4)
        image->words[i] = (uint32_t)bytes[0] | (uint32_t)bytes[1] << 8 |
                          (uint32_t)bytes[2] << 16 | (uint32_t)bytes[3] << 24;
}

static int load_image(struct loaded *loaded)
{
    uint64_t answer;
    take_words(&loaded->source, &loaded->image);
    answer = dulimoven_check(loaded->image.words, loaded->image.length);
    if (!dulimoven_is_refusal(answer))
        return library_of_image(&loaded->image, &loaded->library);
    fprintf(stderr, "%s: error: the image is refused, number %u at word %u: "
                    "%s\n",
            loaded->source.name, dulimoven_refusal_of(answer),
            dulimoven_position_of(answer),
            refusal_text(dulimoven_refusal_of(answer)));
    return 0;
}

static int load_text(struct loaded *loaded)
{
    return read_text(&loaded->source, &loaded->library) &&
           write_image(&loaded->source, &loaded->library, &loaded->image);
}

struct loaded *load(const char *name)
{
    struct loaded *loaded = (struct loaded *)calloc(1, sizeof *loaded);
    if (loaded == NULL) {
        fprintf(stderr, "dlm: there is no memory for %s\n", name);
        return NULL;
    }
    if (source_read(&loaded->source, name)) {
        loaded->is_text = !source_is_image(&loaded->source);
        if (loaded->is_text ? load_text(loaded) : load_image(loaded)) {
            dulimoven_cards(loaded->image.words, loaded->image.length,
                            loaded->cards, DULIMOVEN_MOST_CARD_WORDS);
            return loaded;
        }
    }
    unload(loaded);
    return NULL;
}

void unload(struct loaded *loaded)
{
    library_free(&loaded->library);
    source_free(&loaded->source);
    free(loaded);
}

const uint64_t *card_of(const struct loaded *loaded, size_t sequence)
{
    return loaded->cards + DULIMOVEN_CARD_WORDS * sequence;
}

uint32_t sum_word(const struct loaded *loaded)
{
    return loaded->image.words[loaded->image.length - 1];
}
