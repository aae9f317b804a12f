/*
 * Libraries made from a seed.
 */
#include "seeded.h"

#include <string.h>

/* A shift register of 64 bits (xorshift: 13, 7, 17). */
uint32_t draw(struct seed *seed, uint32_t below)
{
    uint64_t x = seed->state;
    x ^= x << 13;
    x ^= x >> 7;
    x ^= x << 17;
    seed->state = x;
    return below == 0 ? 0 : (uint32_t)(x >> 33) % below;
}

/* True `of` times out of 64. */
static int chance(struct seed *seed, uint32_t of)
{
    return draw(seed, 64) < of;
}

/* A number from `low` to `low + more`. */
struct range {
    uint32_t low, more;
};

static uint32_t draw_from(struct seed *seed, struct range r)
{
    return r.more == 0 ? r.low : r.low + draw(seed, r.more + 1);
}

/* Which sequences are called. */
enum callee { ANY, ITSELF, NEXT, BEFORE, NEIGHBOUR };

/*
 * What the libraries of a kind look like: the counts of the head; how many
 * times out of 64 a step needs, sets or clears a fact, where 0 says that step 0
 * alone does; the fewest alternatives of a sequence, and how many more there
 * may be; the most entries of an alternative, less one; how many times out of
 * 64 an alternative is empty, an entry is a check, and another entry is a call.
 */
struct kind {
    const char *name;
    struct range facts, steps, sequences, touching;
    struct range alternatives, more, entries, empty, checks, calls;
    enum callee callee;
};

static const struct kind kinds[SEEDED_KINDS] = {
    {"small", {1, 2}, {0, 4}, {1, 5}, {4, 20},
     {0, 1}, {1, 2}, {1, 3}, {8, 0}, {0, 8}, {16, 32}, ANY},
    {"calling themselves", {1, 2}, {1, 3}, {2, 4}, {4, 20},
     {0, 1}, {3, 0}, {3, 0}, {8, 0}, {0, 8}, {36, 0}, ITSELF},
    {"calling each other", {1, 2}, {1, 3}, {2, 4}, {4, 20},
     {0, 1}, {3, 0}, {3, 0}, {8, 0}, {0, 8}, {36, 0}, NEIGHBOUR},
    {"endless", {1, 2}, {1, 3}, {2, 4}, {4, 20},
     {0, 1}, {3, 0}, {3, 0}, {2, 0}, {0, 8}, {44, 0}, ANY},
    {"deep, calling the next", {2, 0}, {12, 0}, {16, 4}, {1, 0},
     {1, 0}, {1, 0}, {4, 0}, {1, 0}, {0, 1}, {48, 0}, NEXT},
    {"deep, calling the one before", {2, 0}, {12, 0}, {16, 4}, {1, 0},
     {1, 0}, {1, 0}, {4, 0}, {1, 0}, {0, 1}, {48, 0}, BEFORE},
    {"many empty alternatives", {1, 2}, {3, 0}, {1, 4}, {12, 0},
     {0, 0}, {12, 0}, {4, 0}, {48, 0}, {0, 8}, {40, 0}, ANY},
    {"long alternatives", {2, 0}, {24, 0}, {2, 4}, {1, 0},
     {1, 0}, {3, 0}, {500, 0}, {16, 0}, {0, 4}, {1, 30}, ANY},
    {"one fact", {1, 0}, {1, 5}, {1, 4}, {12, 0},
     {0, 0}, {2, 0}, {3, 0}, {8, 0}, {0, 8}, {24, 0}, ANY},
    {"64 facts", {64, 0}, {1, 5}, {1, 4}, {12, 0},
     {0, 0}, {2, 0}, {3, 0}, {8, 0}, {0, 16}, {24, 0}, ANY},
    {"ties", {1, 2}, {1, 4}, {1, 3}, {30, 20},
     {1, 0}, {2, 0}, {3, 0}, {8, 0}, {0, 8}, {24, 0}, ANY},
    {"large", {4, 0}, {64, 64}, {MOST_SEQUENCES, 0}, {1, 0},
     {0, 0}, {4, 0}, {10, 0}, {4, 0}, {0, 4}, {20, 0}, ANY},
    {"very deep, calling the next", {2, 0}, {12, 0}, {205, 51}, {0, 0},
     {1, 0}, {1, 0}, {4, 0}, {1, 0}, {0, 0}, {63, 0}, NEXT},
    {"very deep, calling the one before", {2, 0}, {12, 0}, {205, 51}, {0, 0},
     {1, 0}, {1, 0}, {4, 0}, {1, 0}, {0, 0}, {63, 0}, BEFORE},
    {"large, 64 facts", {64, 0}, {64, 64}, {MOST_SEQUENCES, 0},
     {1, 0}, {0, 0}, {4, 0}, {10, 0}, {4, 0}, {0, 8}, {20, 0}, ANY},
    {"checks", {1, 2}, {0, 4}, {1, 5}, {4, 20},
     {0, 1}, {1, 2}, {1, 3}, {8, 0}, {16, 32}, {16, 32}, ANY},
    {"many without a run", {1, 1}, {4, 4}, {40, 216}, {4, 8},
     {0, 1}, {1, 1}, {1, 2}, {0, 4}, {0, 4}, {28, 28}, ANY}};

const char *seeded_name(unsigned kind) { return kinds[kind].name; }

/* The shape of one library. */
struct shape {
    uint32_t facts, steps, sequences, touching;
    uint32_t alternatives, more, entries, empty, checks, calls;
    enum callee callee;
};

static struct shape draw_shape(struct seed *seed, const struct kind *k)
{
    struct shape s;
    s.facts = draw_from(seed, k->facts);
    s.steps = draw_from(seed, k->steps);
    s.sequences = draw_from(seed, k->sequences);
    s.touching = draw_from(seed, k->touching);
    s.alternatives = draw_from(seed, k->alternatives);
    s.more = draw_from(seed, k->more);
    s.entries = draw_from(seed, k->entries);
    s.empty = draw_from(seed, k->empty);
    s.checks = draw_from(seed, k->checks);
    s.calls = draw_from(seed, k->calls);
    s.callee = k->callee;
    return s;
}

/*
 * Fact words stand among the first 3,000 words, and alternatives and entries
 * where every opener and the sum word still have room after them.
 */
enum { FACTS_END = 3000, ROOM_END = MOST_WORDS - MOST_SEQUENCES - 1 };

static int room(const struct image *image)
{
    return image->length < ROOM_END;
}

/*
 * The fact words of a step, needs first, then sets, then clears of facts that
 * it does not set.
 */
static void put_facts(struct seed *seed, const struct shape *s, uint32_t a,
                      struct image *image)
{
    uint32_t of = s->touching == 0 && a == 0 ? 48 : s->touching;
    unsigned char sets[MOST_FACTS] = {0};
    uint32_t kind, f;
    for (kind = KIND_NEEDS; kind <= KIND_CLEARS; kind++)
        for (f = 0; f < s->facts; f++) {
            if (!chance(seed, of) || image->length >= FACTS_END)
                continue;
            if (kind == KIND_SETS)
                sets[f] = 1;
            if (kind != KIND_CLEARS || !sets[f])
                image_put(image, kind, f);
        }
}

/* A sequence that sequence c calls, or one that there is not. */
static uint32_t draw_callee(struct seed *seed, const struct shape *s,
                            uint32_t c)
{
    uint32_t any = draw(seed, s->sequences);
    uint32_t which = draw(seed, 4);
    uint32_t before = c == 0 ? s->sequences : c - 1;
    switch (s->callee) {
    case ITSELF:
        return which == 0 ? any : c;
    case NEXT:
        return c + 1;
    case BEFORE:
        return before;
    case NEIGHBOUR:
        return which < 2 ? before : c + 1;
    default:
        return any;
    }
}

/*
 * A step for an entry. Where step 0 alone touches a fact, it is kept for a
 * sequence that has none to call, `last`.
 */
static uint32_t draw_step(struct seed *seed, const struct shape *s, int last)
{
    struct range others = {1, 10};
    if (s->touching != 0)
        return draw(seed, s->steps);
    return last ? 0 : draw_from(seed, others);
}

/* An entry of an alternative of sequence c. */
static uint32_t draw_entry(struct seed *seed, const struct shape *s, uint32_t c)
{
    uint32_t callee = draw_callee(seed, s, c);
    int last = callee >= s->sequences;
    if (chance(seed, s->checks))
        return word_of(KIND_CHECK, draw(seed, s->facts));
    if (chance(seed, s->calls) && !last)
        return word_of(KIND_SEQUENCE_ENTRY, callee);
    if (s->steps > 0)
        return word_of(KIND_STEP_ENTRY, draw_step(seed, s, last));
    return word_of(KIND_SEQUENCE_ENTRY, c);
}

static void put_entry(struct seed *seed, const struct shape *s, uint32_t c,
                      struct image *image)
{
    uint32_t entry = draw_entry(seed, s, c);
    if (room(image))
        image_put(image, kind_of(entry), payload_of(entry));
}

static void put_alternative(struct seed *seed, const struct shape *s,
                            uint32_t c, struct image *image)
{
    struct range entries = {1, s->entries};
    uint32_t n;
    if (!room(image))
        return;
    image_put(image, KIND_ALTERNATIVE, 0);
    if (chance(seed, s->empty))
        return;
    for (n = draw_from(seed, entries); n > 0; n--)
        put_entry(seed, s, c, image);
}

static void put_sequence(struct seed *seed, const struct shape *s, uint32_t c,
                         struct image *image)
{
    struct range alternatives = {s->alternatives, s->more};
    uint32_t n;
    image_put(image, KIND_SEQUENCE, c);
    for (n = draw_from(seed, alternatives); n > 0; n--)
        put_alternative(seed, s, c, image);
}

/* Writes a library of a shape. */
static void make_shape(struct seed *seed, const struct shape *s,
                       struct image *image)
{
    uint32_t a, c;
    image_begin(image, s->facts, s->steps, s->sequences);
    for (a = 0; a < s->steps; a++) {
        image_put(image, KIND_STEP, a);
        put_facts(seed, s, a, image);
    }
    for (c = 0; c < s->sequences; c++)
        put_sequence(seed, s, c, image);
    image_end(image);
}

void make_library(struct seed *seed, unsigned kind, struct image *image)
{
    struct shape s = draw_shape(seed, &kinds[kind]);
    make_shape(seed, &s, image);
}

/* A number of facts: any, or half of the times one beside a multiple of 64. */
static uint32_t draw_facts(struct seed *seed)
{
    struct range any = {LEAST_FACTS, MOST_FACTS - LEAST_FACTS};
    uint32_t border = 64 + 64 * draw(seed, 4), beside = draw(seed, 3);
    if (chance(seed, 32))
        return draw_from(seed, any);
    return border == MOST_FACTS ? border - beside : border + 1 - beside;
}

void make_wide_library(struct seed *seed, unsigned kind, struct image *image)
{
    struct shape s = draw_shape(seed, &kinds[kind]);
    s.facts = draw_facts(seed);
    make_shape(seed, &s, image);
}

/* The position of the set word before which there are `before`, or 0. */
static size_t set_word(const struct image *image, uint32_t before)
{
    size_t i;
    for (i = 1; i + 1 < image->length; i++)
        if (kind_of(image->words[i]) == KIND_SETS && before-- == 0)
            return i;
    return 0;
}

static uint32_t count_sets(const struct image *image)
{
    uint32_t count = 0;
    size_t i;
    for (i = 1; i + 1 < image->length; i++)
        count += kind_of(image->words[i]) == KIND_SETS;
    return count;
}

size_t make_pulse(struct seed *seed, const struct image *library,
                  struct image *pulse)
{
    size_t i = set_word(library, draw(seed, count_sets(library)));
    uint32_t clear;
    if (i == 0 || library->length == MOST_WORDS)
        return 0;
    clear = word_of(KIND_CLEARS, payload_of(library->words[i]));
    while (is_fact(library->words[i]) && library->words[i] < clear)
        i++;
    image_copy(pulse, library);
    memmove(pulse->words + i + 1, pulse->words + i,
            (pulse->length - 1 - i) * sizeof pulse->words[0]);
    pulse->words[i] = clear;
    image_end(pulse);
    return i;
}
