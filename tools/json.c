/*
 * The report as JSON: the content of the page, and of a large library more of
 * it. docs/TEXT.md has its fields.
 */
#include "report.h"

#include "claims.h"

#include <inttypes.h>

/* A string, or null where there is none. */
static void put_string(struct text *data, const char *string)
{
    if (string == NULL) {
        text_put(data, "null");
        return;
    }
    text_put(data, "\"");
    for (; *string != 0; string++)
        text_format(data, *string == '"' || *string == '\\' ? "\\%c" : "%c",
                    *string);
    text_put(data, "\"");
}

/* A member of an object: a comma where it is not the first, and its name. */
static void put_field(struct text *data, const char *before, const char *name)
{
    text_format(data, "%s\"%s\":", before, name);
}

/* Numbers in an array, of which each is said to be there or not. */
struct array {
    struct text *data;
    const char *comma;
};

static struct array open_array(struct text *data, const char *before,
                               const char *name)
{
    struct array array = {data, ""};
    put_field(data, before, name);
    text_put(data, "[");
    return array;
}

static void put_element(struct array *array, size_t number)
{
    text_format(array->data, "%s%zu", array->comma, number);
    array->comma = ",";
}

static void put_library(struct text *data, const struct loaded *loaded)
{
    const struct library *library = &loaded->library;
    put_field(data, "", "library");
    put_field(data, "{", "name");
    put_string(data, library->name);
    put_field(data, ",", "note");
    put_string(data, library->note);
    text_format(data,
                ",\"words\":%zu,\"sum\":\"%08" PRIx32 "\",\"facts\":%zu,"
                "\"steps\":%zu,\"sequences\":%zu}",
                loaded->image.length, sum_word(loaded), library->facts,
                library->steps, library->sequences);
}

/* A named thing's first fields. */
static void put_named(struct text *data, size_t number,
                      const struct named *named)
{
    text_format(data, "%s\n{\"number\":%zu,\"name\":\"%s\",\"note\":",
                number == 0 ? "" : ",", number, named->name);
    put_string(data, named->note);
}

static void put_facts(struct text *data, const struct loaded *loaded)
{
    const struct library *library = &loaded->library;
    size_t i;
    put_field(data, ",\n", "facts");
    text_put(data, "[");
    for (i = 0; i < library->facts; i++) {
        put_named(data, i, &library->fact[i]);
        text_put(data, "}");
    }
    text_put(data, "]");
}

/* The facts that a step needs, sets or clears. */
static void put_uses(struct text *data, const struct library *library,
                     const struct step *step, const char *name, uint32_t kind)
{
    struct array array = open_array(data, ",", name);
    size_t i;
    for (i = step->uses.begin; i < step->uses.end; i++)
        if (library->use[i].kind == kind)
            put_element(&array, library->use[i].fact);
    text_put(data, "]");
}

static void put_steps(struct text *data, const struct loaded *loaded)
{
    const struct library *library = &loaded->library;
    size_t i;
    put_field(data, ",\n", "steps");
    text_put(data, "[");
    for (i = 0; i < library->steps; i++) {
        const struct step *step = &library->step[i];
        put_named(data, i, &step->named);
        put_uses(data, library, step, "needs", DULIMOVEN_KIND_NEEDS);
        put_uses(data, library, step, "sets", DULIMOVEN_KIND_SETS);
        put_uses(data, library, step, "clears", DULIMOVEN_KIND_CLEARS);
        text_put(data, "}");
    }
    text_put(data, "]");
}

/* The facts with a mark. */
static void put_marked(struct text *data, const struct loaded *loaded,
                       size_t sequence, enum verb verb, enum mark mark,
                       const char *before)
{
    struct array array = open_array(
        data, before, mark == ON_EVERY_RUN ? "always" : "sometimes");
    size_t fact;
    for (fact = 0; fact < loaded->library.facts; fact++)
        if (mark_of(loaded, sequence, verb, fact) == mark)
            put_element(&array, fact);
    text_put(data, "]");
}

/* A reason: what the run does, its lines where the page shows them, and the
 * cause. */
static void put_reason(struct text *data, const struct findings *findings,
                       const struct finding *finding, int does)
{
    struct reason reason;
    const struct line *cause;
    struct text line = {0};
    size_t i;
    finding_reason(findings, finding, does, &reason);
    cause = cause_of(&reason);
    put_field(data, ",", does ? "does" : "does_not");
    put_field(data, "{", "run");
    put_string(data, outcome_text(reason.outcome));
    if (shows_reasons(findings)) {
        put_field(data, ",", "lines");
        for (i = 0; i < reason.count; i++) {
            text_clear(&line);
            put_line(&line, findings->loaded, &reason, &reason.lines[i], "it");
            text_put(data, i == 0 ? "[" : ",");
            put_string(data, text_string(&line));
        }
        text_put(data, "]");
    }
    text_format(data, ",\"cause\":{\"sequence\":%u,\"alternative\":%u}}",
                cause->sequence, cause->alternative);
    text_free(&line);
}

/* The labels of a sequence's alternatives. */
static void put_alternatives(struct text *data, const struct library *library,
                             const struct sequence *sequence)
{
    size_t i;
    put_field(data, ",", "alternatives");
    text_put(data, "[");
    for (i = sequence->alternatives.begin; i < sequence->alternatives.end;
         i++) {
        text_put(data, i == sequence->alternatives.begin ? "" : ",");
        put_string(data, library->alternative[i].label);
    }
    text_put(data, "]");
}

static void put_runs(struct text *data, const struct loaded *loaded,
                     size_t sequence)
{
    const uint64_t *card = card_of(loaded, sequence);
    struct text why = {0};
    text_format(data, ",\"has_run\":%s,\"has_empty_run\":%s",
                dulimoven_has_run(card) ? "true" : "false",
                dulimoven_has_empty_run(card) ? "true" : "false");
    if (!dulimoven_has_run(card)) {
        put_endless(&why, loaded, (uint32_t)sequence);
        put_field(data, ",", "why_no_run");
        put_string(data, text_string(&why));
        text_free(&why);
    }
    put_field(data, ",", "card");
    text_put(data, "[\"");
    put_numbers(data, loaded, sequence, "\",\"");
    text_put(data, "\"]");
}

/* A sequence with the findings from `begin` to `end`. */
static void put_sequence(struct text *data, const struct findings *findings,
                         size_t number, const struct finding *begin,
                         const struct finding *end)
{
    const struct loaded *loaded = findings->loaded;
    const struct sequence *sequence = &loaded->library.sequence[number];
    const struct finding *finding;
    int verb;
    put_named(data, number, &sequence->named);
    put_alternatives(data, &loaded->library, sequence);
    put_runs(data, loaded, number);
    for (verb = 0; verb < VERBS; verb++) {
        put_field(data, ",\n ", verb_rules[verb].does);
        put_marked(data, loaded, number, (enum verb)verb, ON_EVERY_RUN, "{");
        if (verb != VERB_STANDS)
            put_marked(data, loaded, number, (enum verb)verb, ON_SOME_RUNS,
                       ",");
        text_put(data, "}");
    }
    put_field(data, ",\n ", "reasons");
    text_put(data, "[");
    for (finding = begin; finding < end; finding++) {
        text_format(data, "%s\n {\"verb\":\"%s\",\"fact\":%u",
                    finding == begin ? "" : ",",
                    verb_rules[finding->verb].does, finding->fact);
        put_reason(data, findings, finding, 1);
        put_reason(data, findings, finding, 0);
        text_put(data, "}");
    }
    text_put(data, "]}");
}

static void put_sequences(struct text *data, const struct findings *findings)
{
    const struct finding *begin = findings->finding, *end;
    const struct finding *last = begin + findings->count;
    size_t i;
    put_field(data, ",\n", "sequences");
    text_put(data, "[");
    for (i = 0; i < findings->loaded->library.sequences; i++) {
        for (end = begin; end < last && end->sequence == i;)
            end++;
        put_sequence(data, findings, i, begin, end);
        begin = end;
    }
    text_put(data, "]");
}

/* The claims, which stand in the order of the text; so do their lines. */
static void put_claims(struct text *data, const struct loaded *loaded)
{
    size_t line = 1, at = 0, i;
    put_field(data, ",\n", "claims");
    text_put(data, "[");
    for (i = 0; i < loaded->library.claims; i++) {
        const struct claim *claim = &loaded->library.claim[i];
        for (; at < claim->at; at++)
            line += loaded->source.bytes[at] == '\n';
        text_format(data,
                    "%s\n{\"line\":%zu,\"sequence\":%u,\"always\":%s,"
                    "\"verb\":\"%s\",\"fact\":%u,\"holds\":%s}",
                    i == 0 ? "" : ",", line, claim->sequence,
                    claim->always ? "true" : "false",
                    verb_rules[claim->verb].does, claim->fact,
                    claim_holds(loaded, claim) ? "true" : "false");
    }
    text_put(data, "]");
}

void write_json(struct text *data, const struct findings *findings)
{
    text_format(data, "{\"version\":%d,\"format\":%d,\n", DULIMOVEN_VERSION,
                DULIMOVEN_FORMAT);
    put_library(data, findings->loaded);
    put_facts(data, findings->loaded);
    put_steps(data, findings->loaded);
    put_sequences(data, findings);
    put_claims(data, findings->loaded);
    text_put(data, "}\n");
}
