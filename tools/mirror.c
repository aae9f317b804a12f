#include "mirror.h"

/* What a step does in the mirrored image, or 0. */
static uint32_t mirrored_use(const struct library *library,
                             const struct step *step, uint32_t fact)
{
    uint32_t kind = 0;
    size_t i;
    for (i = step->uses.begin; i < step->uses.end; i++) {
        const struct use *use = &library->use[i];
        if (use->fact != fact)
            continue;
        if (use->kind == DULIMOVEN_KIND_CLEARS)
            return DULIMOVEN_KIND_SETS;
        kind = DULIMOVEN_KIND_NEEDS;
    }
    return kind;
}

static void mirror_sequence(const struct library *library, size_t number,
                            struct image *image)
{
    const struct sequence *sequence = &library->sequence[number];
    size_t i, j;
    image_put(image, DULIMOVEN_KIND_SEQUENCE, number, NO_PLACE);
    for (i = sequence->alternatives.begin; i < sequence->alternatives.end;
         i++) {
        const struct range *entries = &library->alternative[i].entries;
        image_put(image, DULIMOVEN_KIND_ALTERNATIVE, 0, NO_PLACE);
        for (j = entries->end; j > entries->begin; j--)
            image_put(image, library->entry[j - 1].kind,
                      library->entry[j - 1].number, NO_PLACE);
    }
}

void mirror_image(const struct library *library, uint32_t fact,
                  struct image *image)
{
    size_t i;
    image->length = 0;
    image_put(image, DULIMOVEN_KIND_HEAD,
              head_of(library->facts, library->steps, library->sequences),
              NO_PLACE);
    for (i = 0; i < library->steps; i++) {
        uint32_t kind = mirrored_use(library, &library->step[i], fact);
        image_put(image, DULIMOVEN_KIND_STEP, i, NO_PLACE);
        if (kind != 0)
            image_put(image, kind, fact, NO_PLACE);
    }
    for (i = 0; i < library->sequences; i++)
        mirror_sequence(library, i, image);
    image_put(image, DULIMOVEN_KIND_SUM, 0, NO_PLACE);
    dulimoven_seal(image->words, image->length);
}
