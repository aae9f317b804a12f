#include "cards.h"

#include "verbs.h"

/* A line for each fact with a mark, in the order of the verbs. */
static void print_marked(FILE *file, const struct loaded *loaded,
                         size_t sequence, enum mark mark, enum verb verb)
{
    const struct named *facts = loaded->library.fact;
    const char *often = mark == ON_EVERY_RUN ? "always" : "sometimes";
    size_t fact;
    for (fact = 0; fact < loaded->library.facts; fact++) {
        if (mark_of(loaded, sequence, verb, fact) != mark)
            continue;
        fprintf(file, "    %s %s %s", often, verb_rules[verb].does,
                facts[fact].name);
        if (facts[fact].note != NULL)
            fprintf(file, ": %s", facts[fact].note);
        fprintf(file, "\n");
    }
}

static void print_card(FILE *file, const struct loaded *loaded, size_t sequence)
{
    const struct named *named = &loaded->library.sequence[sequence].named;
    const uint64_t *card = card_of(loaded, sequence);
    struct text why = {0};
    int verb;
    fprintf(file, "%s (sequence %zu)", named->name, sequence);
    if (named->note != NULL)
        fprintf(file, ": %s", named->note);
    fprintf(file, "\n");
    if (!dulimoven_has_run(card)) {
        put_endless(&why, loaded, (uint32_t)sequence);
        fprintf(file, "    no run: %s\n", text_string(&why));
        text_free(&why);
        return;
    }
    fprintf(file, dulimoven_has_empty_run(card) ? "    some run has no step\n"
                                                : "    every run has a step\n");
    for (verb = 0; verb < VERBS; verb++)
        print_marked(file, loaded, sequence, ON_EVERY_RUN, (enum verb)verb);
    for (verb = 0; verb < VERB_STANDS; verb++)
        print_marked(file, loaded, sequence, ON_SOME_RUNS, (enum verb)verb);
}

void print_cards(FILE *file, const struct loaded *loaded)
{
    size_t sequence;
    for (sequence = 0; sequence < loaded->library.sequences; sequence++)
        print_card(file, loaded, sequence);
}
