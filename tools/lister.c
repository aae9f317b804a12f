#include "lister.h"

#include <stdlib.h>
#include <string.h>

/* ---- from an image */

/* A made-up name is a letter and a number of at most four digits. */
enum { MADE_UP_LENGTH = 6 };

/* Makes up the name of a fact, a step or a sequence. */
static void make_name(struct library *library, struct named *named, char letter,
                      size_t number)
{
    size_t facts = DULIMOVEN_MOST_FACTS, steps = DULIMOVEN_MOST_STEPS;
    size_t first = letter == 'f' ? 0 : letter == 's' ? facts : facts + steps;
    char *name = library->names + (first + number) * MADE_UP_LENGTH;
    snprintf(name, MADE_UP_LENGTH, "%c%u", letter, (unsigned)(number % 10000));
    named->name = name;
    named->note = NULL;
    named->at = NO_PLACE;
}

static void add_step(struct library *library)
{
    struct step *step = &library->step[library->steps];
    make_name(library, &step->named, 's', library->steps++);
    step->uses.begin = step->uses.end = library->uses;
}

static void add_use(struct library *library, uint32_t kind, uint32_t fact)
{
    library->use[library->uses].kind = kind;
    library->use[library->uses].fact = fact;
    library->step[library->steps - 1].uses.end = ++library->uses;
}

static void add_sequence(struct library *library)
{
    struct sequence *sequence = &library->sequence[library->sequences];
    make_name(library, &sequence->named, 'q', library->sequences++);
    sequence->alternatives.begin = library->alternatives;
    sequence->alternatives.end = library->alternatives;
}

static void add_alternative(struct library *library)
{
    struct alternative *last = &library->alternative[library->alternatives++];
    last->at = NO_PLACE;
    last->entries.begin = last->entries.end = library->entries;
    library->sequence[library->sequences - 1].alternatives.end =
        library->alternatives;
}

static void add_entry(struct library *library, uint32_t kind, uint32_t number)
{
    library->entry[library->entries].kind = kind;
    library->entry[library->entries].number = number;
    library->alternative[library->alternatives - 1].entries.end =
        ++library->entries;
}

/* Adds what a word between head and sum word opens or names. */
static void add_word(struct library *library, uint32_t word)
{
    uint32_t kind = word_kind(word);
    if (kind == DULIMOVEN_KIND_STEP)
        add_step(library);
    else if (kind == DULIMOVEN_KIND_SEQUENCE)
        add_sequence(library);
    else if (kind == DULIMOVEN_KIND_ALTERNATIVE)
        add_alternative(library);
    else if (kind <= DULIMOVEN_KIND_CLEARS)
        add_use(library, kind, word_payload(word));
    else
        add_entry(library, kind, word_payload(word));
}

int library_of_image(const struct image *image, struct library *library)
{
    size_t names = DULIMOVEN_MOST_FACTS + DULIMOVEN_MOST_STEPS +
                   DULIMOVEN_MOST_SEQUENCES;
    size_t facts = dulimoven_facts(word_payload(image->words[0])), i;
    memset(library, 0, sizeof *library);
    library->names = (char *)malloc(names * MADE_UP_LENGTH);
    if (library->names == NULL)
        return 0;
    for (; library->facts < facts; library->facts++)
        make_name(library, &library->fact[library->facts], 'f', library->facts);
    for (i = 1; i + 1 < image->length; i++)
        add_word(library, image->words[i]);
    return 1;
}

/* ---- to text */

enum { COLUMNS = 80, INDENT = 4 };

/* Names on lines of at most 80 columns: where the next one begins. */
struct line {
    FILE *file;
    size_t column, indent;
};

/* Prints a name and what comes after it, on the next line where this one is
 * full. */
static void print_name(struct line *line, const char *before, const char *name,
                       const char *after)
{
    size_t length = strlen(before) + strlen(name) + strlen(after);
    if (line->column + 1 + length > COLUMNS && line->column > line->indent) {
        fprintf(line->file, "\n%*s", (int)line->indent, "");
        line->column = line->indent;
    } else {
        fprintf(line->file, " ");
        line->column++;
    }
    fprintf(line->file, "%s%s%s", before, name, after);
    line->column += length;
}

static void print_note(FILE *file, const char *note)
{
    if (note != NULL)
        fprintf(file, " \"%s\"", note);
}

/* The facts that are marked, as a line of a step or a claim. */
static void print_facts(FILE *file, const struct library *library,
                        const char *words, const char *marked)
{
    struct line line = {file, INDENT + strlen(words), 2 * INDENT};
    size_t left = 0, fact;
    for (fact = 0; fact < library->facts; fact++)
        left += marked[fact] != 0;
    if (left == 0)
        return;
    fprintf(file, "%*s%s", INDENT, "", words);
    for (fact = 0; fact < library->facts; fact++)
        if (marked[fact])
            print_name(&line, "", library->fact[fact].name,
                       --left > 0 ? "," : ";");
    fprintf(file, "\n");
}

static void print_step(FILE *file, const struct library *library,
                       const struct step *step)
{
    static const char *const verbs[] = {"needs", "sets", "clears"};
    size_t i;
    int kind;
    fprintf(file, "step %s", step->named.name);
    print_note(file, step->named.note);
    if (step->uses.begin == step->uses.end) {
        fprintf(file, " { }\n");
        return;
    }
    fprintf(file, " {\n");
    for (kind = 0; kind < 3; kind++) {
        char marked[DULIMOVEN_MOST_FACTS] = {0};
        for (i = step->uses.begin; i < step->uses.end; i++)
            if (library->use[i].kind == DULIMOVEN_KIND_NEEDS + (uint32_t)kind)
                marked[library->use[i].fact] = 1;
        print_facts(file, library, verbs[kind], marked);
    }
    fprintf(file, "}\n");
}

/* The claims of a sequence, those with the same words in one line. */
static void print_claims(FILE *file, const struct library *library,
                         const struct sequence *sequence)
{
    static const char *const words[2][VERBS] = {
        {"never needs", "never sets", "never clears", ""},
        {"always needs", "always sets", "always clears", "always stands"}};
    size_t i;
    int always, verb;
    for (always = 1; always >= 0; always--)
        for (verb = 0; verb < VERBS; verb++) {
            char marked[DULIMOVEN_MOST_FACTS] = {0};
            for (i = sequence->claims.begin; i < sequence->claims.end; i++)
                if (library->claim[i].always == always &&
                    library->claim[i].verb == (enum verb)verb)
                    marked[library->claim[i].fact] = 1;
            print_facts(file, library, words[always][verb], marked);
        }
}

static const char *entry_name(const struct library *library,
                              const struct entry *entry)
{
    return entry->kind == DULIMOVEN_KIND_STEP_ENTRY
               ? library->step[entry->number].named.name
           : entry->kind == DULIMOVEN_KIND_SEQUENCE_ENTRY
               ? library->sequence[entry->number].named.name
               : library->fact[entry->number].name;
}

static void print_alternative(FILE *file, const struct library *library,
                              const struct alternative *alternative)
{
    struct line line = {file, 0, 2 * INDENT};
    size_t i;
    line.column = INDENT + strlen("alternative");
    fprintf(file, "%*salternative", INDENT, "");
    if (alternative->label != NULL)
        line.column += (size_t)fprintf(file, " %s", alternative->label);
    if (alternative->note != NULL)
        line.column += (size_t)fprintf(file, " \"%s\"", alternative->note);
    line.column += (size_t)fprintf(file, " {");
    for (i = alternative->entries.begin; i < alternative->entries.end; i++) {
        const struct entry *entry = &library->entry[i];
        print_name(&line,
                   entry->kind == DULIMOVEN_KIND_CHECK ? "check " : "",
                   entry_name(library, entry), ";");
    }
    print_name(&line, "", "}", "");
    fprintf(file, "\n");
}

static void print_sequence(FILE *file, const struct library *library,
                           const struct sequence *sequence)
{
    size_t i;
    fprintf(file, "sequence %s", sequence->named.name);
    print_note(file, sequence->named.note);
    fprintf(file, " {\n");
    print_claims(file, library, sequence);
    for (i = sequence->alternatives.begin; i < sequence->alternatives.end; i++)
        print_alternative(file, library, &library->alternative[i]);
    fprintf(file, "}\n");
}

void print_text(FILE *file, const struct library *library)
{
    size_t i;
    if (library->name != NULL) {
        fprintf(file, "library %s", library->name);
        print_note(file, library->note);
        fprintf(file, ";\n\n");
    }
    for (i = 0; i < library->facts; i++) {
        fprintf(file, "fact %s", library->fact[i].name);
        print_note(file, library->fact[i].note);
        fprintf(file, ";\n");
    }
    for (i = 0; i < library->steps; i++) {
        fprintf(file, i == 0 ? "\n" : "");
        print_step(file, library, &library->step[i]);
    }
    for (i = 0; i < library->sequences; i++) {
        fprintf(file, "\n");
        print_sequence(file, library, &library->sequence[i]);
    }
}
