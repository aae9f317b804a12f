#include "findings.h"

#include "progress.h"

#include <stdio.h>
#include <stdlib.h>

static void *memory(size_t count, size_t size)
{
    void *bytes = calloc(count + 1, size);
    if (bytes == NULL) {
        fprintf(stderr, "dlm: there is no memory for a report\n");
        exit(1);
    }
    return bytes;
}

/* The cause that a reason names. */
static struct cause cause_in(const struct findings *findings,
                             const struct reason *reason)
{
    const struct line *line = cause_of(reason);
    struct cause cause;
    cause.alternative =
        (uint32_t)(library_alternative(&findings->loaded->library,
                                       line->sequence, line->alternative) -
                   findings->loaded->library.alternative);
    cause.kind = line->kind;
    cause.position = line->kind == LINE_TOUCH ? line->position : 0;
    cause.outcome = line->kind == LINE_TOUCH ? reason->outcome
                                             : alone_beside(reason->outcome);
    return cause;
}

void finding_reason(const struct findings *findings,
                    const struct finding *finding, int does,
                    struct reason *reason)
{
    find_reason(findings->asker, finding->sequence,
                does ? verb_rules[finding->verb].outcome : finding->rival,
                finding->fact, reason);
}

/* A cause as one number, which causes are sorted by. */
static uint64_t cause_key(const struct cause *cause)
{
    return (uint64_t)cause->alternative << 32 | (uint64_t)cause->outcome << 24 |
           cause->position;
}

int same_cause(const struct cause *one, const struct cause *other)
{
    return cause_key(one) == cause_key(other);
}

static int order_of_effects(const void *one, const void *other)
{
    const struct effect *first = (const struct effect *)one;
    const struct effect *second = (const struct effect *)other;
    uint64_t key = cause_key(&first->cause), next = cause_key(&second->cause);
    if (key != next)
        return key < next ? -1 : 1;
    if (first->fact != second->fact)
        return first->fact < second->fact ? -1 : 1;
    return first->sequence < second->sequence   ? -1
           : first->sequence > second->sequence ? 1
                                                : 0;
}

/* Lists what is so on some runs only. Answers how much there is, and where
 * `finding` is not NULL writes it there. */
static size_t list_findings(const struct loaded *loaded,
                            struct finding *finding)
{
    const struct library *library = &loaded->library;
    size_t count = 0, sequence, fact;
    int verb;
    for (sequence = 0; sequence < library->sequences; sequence++)
        for (verb = 0; verb < VERB_STANDS; verb++)
            for (fact = 0; fact < library->facts; fact++) {
                if (mark_of(loaded, sequence, (enum verb)verb, fact) !=
                    ON_SOME_RUNS)
                    continue;
                if (finding != NULL) {
                    finding[count].sequence = (uint32_t)sequence;
                    finding[count].verb = (enum verb)verb;
                    finding[count].fact = (uint32_t)fact;
                    finding[count].rival =
                        rival_of(loaded, sequence, (enum verb)verb, fact);
                }
                count++;
            }
    return count;
}

/* Finds the causes of a finding. */
static void find_causes(struct findings *findings, size_t number)
{
    struct finding *finding = &findings->finding[number];
    struct effect *effect = &findings->effect[2 * number];
    struct reason reason;
    finding_reason(findings, finding, 1, &reason);
    finding->does = cause_in(findings, &reason);
    finding_reason(findings, finding, 0, &reason);
    finding->does_not = cause_in(findings, &reason);
    effect[0].cause = finding->does;
    effect[1].cause = finding->does_not;
    effect[0].sequence = effect[1].sequence = finding->sequence;
    effect[0].fact = effect[1].fact = finding->fact;
}

void find_all(struct findings *findings, const struct loaded *loaded)
{
    const struct library *library = &loaded->library;
    size_t i, j;
    findings->loaded = loaded;
    findings->asker = asker_new(loaded);
    findings->count = list_findings(loaded, NULL);
    findings->finding =
        (struct finding *)memory(findings->count, sizeof(struct finding));
    findings->effect =
        (struct effect *)memory(2 * findings->count, sizeof(struct effect));
    findings->owner =
        (uint32_t *)memory(library->alternatives, sizeof(uint32_t));
    for (i = 0; i < library->sequences; i++)
        for (j = library->sequence[i].alternatives.begin;
             j < library->sequence[i].alternatives.end; j++)
            findings->owner[j] = (uint32_t)i;
    list_findings(loaded, findings->finding);
    progress_begin("reasons");
    for (i = 0; i < findings->count; i++) {
        find_causes(findings, i);
        progress_at(i, findings->count);
    }
    progress_end();
    qsort(findings->effect, 2 * findings->count, sizeof(struct effect),
          order_of_effects);
}

void findings_free(struct findings *findings)
{
    asker_free(findings->asker);
    free(findings->finding);
    free(findings->effect);
    free(findings->owner);
}
