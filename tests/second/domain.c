/*
 * Reads the domain of an accepted image, and what its actions do with a fact.
 */
#include "domain.h"

static void begin_method(struct domain *d, uint32_t c)
{
    struct method *m = &d->method[d->methods++];
    m->c = (uint16_t)c;
    m->begin = m->end = (uint16_t)d->tasks;
}

/* Puts a task at the end of the last method's task network. */
static void put_task(struct domain *d, uint32_t number, int is_action)
{
    struct task *t = &d->task[d->tasks++];
    t->number = (uint16_t)number;
    t->is_action = (uint16_t)is_action;
    d->method[d->methods - 1].end = (uint16_t)d->tasks;
}

void read_domain(const uint32_t *image, size_t length, struct domain *d)
{
    uint32_t c = 0;
    size_t i;
    d->facts = facts_of(image[0]);
    d->compounds = sequences_of(image[0]);
    d->methods = d->tasks = 0;
    for (i = 1; i + 1 < length; i++) {
        uint32_t p = payload_of(image[i]);
        switch (kind_of(image[i])) {
        case KIND_SEQUENCE:
            c = p;
            break;
        case KIND_ALTERNATIVE:
            begin_method(d, c);
            break;
        case KIND_STEP_ENTRY:
            put_task(d, p, 1);
            break;
        case KIND_SEQUENCE_ENTRY:
            put_task(d, p, 0);
            break;
        case KIND_CHECK:
            put_task(d, CHECKS + p, 1);
            break;
        }
    }
}

/*
 * What a step does by a fact word of kind `kind` and by those before it: they
 * stand in the order needs, sets, clears, so that a need comes before a set. "A
 * step that needs and clears counts as clearing."
 */
static unsigned with(unsigned before, uint32_t kind)
{
    if (kind == KIND_NEEDS)
        return before | PREC | STAND;
    if (kind == KIND_SETS && (before & PREC))
        return before | ADD | STAND;
    if (kind == KIND_SETS)
        return before | ADD | STAND | FIRST_ADD;
    return (before | DEL) & ~(unsigned)STAND;
}

/* What the checks do: that of the fact needs it and leaves it standing. */
static void read_checks(uint32_t f, struct actions *a)
{
    uint32_t g;
    for (g = 0; g < MOST_FACTS; g++)
        a->does[CHECKS + g] = g == f ? PREC | STAND : 0;
}

void read_actions(const uint32_t *image, size_t length, uint32_t f,
                  struct actions *a)
{
    uint8_t *now = a->does;
    size_t i;
    read_checks(f, a);
    for (i = 1; i + 1 < length; i++) {
        uint32_t word = image[i];
        if (kind_of(word) == KIND_SEQUENCE)
            return;
        if (kind_of(word) == KIND_STEP) {
            now = &a->does[payload_of(word)];
            *now = 0;
        } else if (payload_of(word) == f) {
            *now = (uint8_t)with(*now, kind_of(word));
        }
    }
}
