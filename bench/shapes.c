/*
 * The generator of the shapes. Every image is one that the check accepts; the
 * numbers come from a generator with a fixed seed, so that each run of the
 * benchmark has the same images.
 */
#include "bench.h"

static struct shape *out;
static uint32_t seed;

/* A number below n, which is below 2^24. */
static uint32_t below(uint32_t n)
{
    seed = seed * 1664525u + 1013904223u;
    return (uint32_t)((uint64_t)(seed >> 8) * n >> 24);
}

static void put(uint32_t kind, uint32_t payload)
{
    out->words[out->length++] = word_of(kind, payload);
}

static uint32_t last_kind(void)
{
    return kind_of(out->words[out->length - 1]);
}

static void begin(struct shape *shape, const char *name, uint32_t facts,
                  uint32_t steps, uint32_t sequences)
{
    out = shape;
    out->name = name;
    out->length = 0;
    seed = 2024;
    put(KIND_HEAD, payload_of(head_word(facts, steps, sequences)));
}

static void end(void)
{
    put(KIND_SUM, payload_of(sum_word_after(out->words, out->length)));
}

/* How many words are left, with one kept for the sum word. */
static size_t room(void) { return MOST_WORDS - 1 - out->length; }

static void put_facts(uint32_t k, struct column facts)
{
    uint32_t f;
    for (f = 0; f < MOST_FACTS; f++)
        if (is_in(f, facts))
            put(k, f);
}

/* A step, which clears no fact that it sets. */
static void step(uint32_t a, struct column needs, struct column sets,
                 struct column clears)
{
    put(KIND_STEP, a);
    put_facts(KIND_NEEDS, needs);
    put_facts(KIND_SETS, sets);
    put_facts(KIND_CLEARS, without(clears, sets));
}

/* Some of the facts from `from` up to and without `to`. */
static struct column some(uint32_t count, uint32_t from, uint32_t to)
{
    struct column c = low_facts(0);
    while (count-- > 0)
        c = union_of(c, one_fact(from + below(to - from)));
    return c;
}

/* One time in 16 a check of one of the facts, which is put as an entry. */
static int puts_check(uint32_t facts)
{
    if (below(16) != 0)
        return 0;
    put(KIND_CHECK, below(facts));
    return 1;
}

static void put_step_or_check(uint32_t steps, uint32_t facts)
{
    if (!puts_check(facts))
        put(KIND_STEP_ENTRY, below(steps));
}

/*
 * An image like an everyday one: of its words a quarter are steps of about
 * four words, the rest sequences of some four alternatives, most of them of two
 * to six entries, mostly steps, one in 16 a check; a sequence calls those of
 * lower numbers, and now and then any one.
 */
static void everyday(struct shape *shape, const char *name, uint32_t words,
                     uint32_t facts)
{
    uint32_t steps = words / 16, sequences = words / 32;
    uint32_t a, c, i, entries;
    size_t stop;
    begin(shape, name, facts, steps, sequences);
    for (a = 0; a < steps; a++)
        step(a, some(1, 0, facts), some(1, 0, facts), some(below(3), 0, facts));
    for (c = 0; c < sequences; c++) {
        stop = out->length + (words - 1 - out->length) / (sequences - c);
        put(KIND_SEQUENCE, c);
        put(KIND_ALTERNATIVE, 0);
        put_step_or_check(steps, facts);
        while (out->length + 8 < stop) {
            put(KIND_ALTERNATIVE, 0);
            entries = 2 + below(5);
            for (i = 0; i < entries; i++) {
                if (puts_check(facts))
                    continue;
                if (c > 0 && below(4) == 0)
                    put(KIND_SEQUENCE_ENTRY,
                        below(8) == 0 ? below(sequences) : below(c));
                else
                    put(KIND_STEP_ENTRY, below(steps));
            }
        }
        put(KIND_ALTERNATIVE, 0);
        while (out->length < stop)
            put_step_or_check(steps, facts);
    }
    end();
}

/* 512 steps, of up to two needs, sets and clears each. */
static void random_steps(uint32_t facts)
{
    uint32_t a;
    for (a = 0; a < 512; a++)
        step(a, some(below(3), 0, facts), some(below(3), 0, facts),
             some(below(3), 0, facts));
}

static void random_words(struct shape *shape, uint32_t facts)
{
    uint32_t c;
    size_t stop;
    begin(shape, "random", facts, 512, 256);
    random_steps(facts);
    for (c = 0; c < 256; c++) {
        stop = out->length + room() / (256 - c);
        put(KIND_SEQUENCE, c);
        while (out->length + 1 < stop) {
            put(KIND_ALTERNATIVE, 0);
            while (out->length < stop && below(5) != 0) {
                if (puts_check(facts))
                    continue;
                if (below(2) == 0)
                    put(KIND_SEQUENCE_ENTRY, below(256));
                else
                    put(KIND_STEP_ENTRY, below(512));
            }
        }
    }
    end();
}

/*
 * The steps of the shapes of 256 sequences: step 0 sets fact 0, step 1 clears
 * it, step 2 needs it, and no other touches it.
 */
static void chain_steps(uint32_t facts)
{
    const struct column none = low_facts(0), fact = one_fact(0);
    uint32_t a;
    step(0, none, fact, none);
    step(1, none, none, fact);
    step(2, fact, none, none);
    for (a = 3; a < 256; a++)
        step(a, some(1, 1, facts), some(1, 1, facts), some(1, 1, facts));
}

enum calls { NEXT, BEFORE, SHUFFLED, NEIGHBOURS, RING, ENDLESS, NO_WAY_OUT };

/*
 * 8,192 words: 256 sequences, in each of whose alternatives others are called
 * as the shape says. What runs there are, and every touch of fact 0, come from
 * the alternatives of one sequence that call none; of an endless shape, and of
 * a ring without a way out, no sequence has one.
 */
static void calling(struct shape *shape, const char *name, enum calls calls,
                    uint32_t facts)
{
    uint32_t order[256], place[256];
    uint32_t c, d, i, n, swap, base;
    size_t stop;
    begin(shape, name, facts, 256, 256);
    chain_steps(facts);
    for (i = 0; i < 256; i++)
        order[i] = i;
    if (calls == SHUFFLED) {
        for (i = 255; i > 0; i--) {
            d = below(i + 1);
            swap = order[i];
            order[i] = order[d];
            order[d] = swap;
        }
    }
    for (i = 0; i < 256; i++)
        place[order[i]] = i;
    base = calls == BEFORE ? 0 : calls == RING ? 128 : order[255];
    for (c = 0; c < 256; c++) {
        stop = out->length + room() / (256 - c);
        put(KIND_SEQUENCE, c);
        if (c == base && calls < ENDLESS) {
            for (i = 0; i < 3; i++) {
                put(KIND_ALTERNATIVE, 0);
                put(KIND_STEP_ENTRY, 3 + below(253));
                put(KIND_STEP_ENTRY, i);
            }
        }
        for (n = 0; out->length + 7 < stop; n++) {
            switch (calls) {
            case NEXT:
            case SHUFFLED:
                d = order[place[c] < 255 ? place[c] + 1 : 255];
                break;
            case BEFORE:
                d = c > 0 ? c - 1 : 0;
                break;
            case NEIGHBOURS:
                d = n % 2 == 0 ? (c < 255 ? c + 1 : 255) : (c > 0 ? c - 1 : 0);
                break;
            case RING:
            case NO_WAY_OUT:
                d = (c + 1) % 256;
                break;
            default:
                d = below(256);
            }
            put(KIND_ALTERNATIVE, 0);
            put(KIND_STEP_ENTRY, 3 + below(253));
            put(KIND_SEQUENCE_ENTRY, d);
            put(KIND_STEP_ENTRY, 3 + below(253));
            if (below(2) == 0)
                put(KIND_SEQUENCE_ENTRY, d);
        }
        if (out->length < stop && last_kind() == KIND_SEQUENCE)
            put(KIND_ALTERNATIVE, 0);
        while (out->length < stop)
            put(KIND_STEP_ENTRY, 3 + below(253));
    }
    end();
}

static void one_alternative(struct shape *shape)
{
    uint32_t a;
    begin(shape, "one alternative", 64, 1023, 2);
    for (a = 0; a < 1023; a++)
        step(a, some(a % 3 == 0, 0, 64), some(a % 3 == 1, 0, 64),
             some(a % 3 == 2, 0, 64));
    put(KIND_SEQUENCE, 0);
    put(KIND_ALTERNATIVE, 0);
    put(KIND_STEP_ENTRY, 1);
    put(KIND_ALTERNATIVE, 0);
    put(KIND_SEQUENCE, 1);
    put(KIND_ALTERNATIVE, 0);
    while (room() > 0) {
        if (below(8) == 0)
            put(KIND_SEQUENCE_ENTRY, 0);
        else
            put(KIND_STEP_ENTRY, below(1023));
    }
    end();
}

static void empty_alternatives(struct shape *shape)
{
    uint32_t c;
    size_t stop;
    begin(shape, "empty alternatives", 64, 256, 8);
    chain_steps(64);
    for (c = 0; c < 8; c++) {
        stop = out->length + room() / (8 - c);
        put(KIND_SEQUENCE, c);
        while (out->length + 2 < stop)
            put(KIND_ALTERNATIVE, 0);
        put(KIND_ALTERNATIVE, 0);
        put(KIND_STEP_ENTRY, below(256));
    }
    end();
}

/*
 * Steps of as many fact words as there are facts, in turn sets, clears, and of
 * one half sets with the other half cleared. One sequence, of one of each, is
 * there to be asked.
 */
static void full_steps(struct shape *shape, const char *name, uint32_t steps,
                       uint32_t facts)
{
    const struct column all = facts_below(facts), none = low_facts(0);
    const struct column half = facts_below(facts / 2);
    const struct column sets[3] = {all, none, half};
    const struct column clears[3] = {none, all, without(all, half)};
    uint32_t a;
    begin(shape, name, facts, steps, 1);
    for (a = 0; a < steps; a++)
        step(a, none, sets[a % 3], clears[a % 3]);
    put(KIND_SEQUENCE, 0);
    put(KIND_ALTERNATIVE, 0);
    for (a = 0; a < 3; a++)
        put(KIND_STEP_ENTRY, a);
    end();
}

/*
 * 8,191 words: 64 sequences, of which the last calls itself and is endless.
 * Each other one has an alternative of one step, then alternatives of 40
 * entries, of which the one at `place` calls the endless sequence, and last an
 * alternative of steps. The other entries of the 40 are steps, or one time in
 * eight a call of one of the 63.
 */
static void dead_alternatives(struct shape *shape, const char *name,
                              uint32_t place)
{
    enum { WORDS = 8191, ENDLESS_WORDS = 3, LIVE = 63, ENTRIES = 40 };
    uint32_t c, i;
    size_t stop;
    begin(shape, name, 64, 512, LIVE + 1);
    random_steps(64);
    for (c = 0; c < LIVE; c++) {
        stop = out->length +
               (WORDS - 1 - ENDLESS_WORDS - out->length) / (LIVE - c);
        put(KIND_SEQUENCE, c);
        put(KIND_ALTERNATIVE, 0);
        put(KIND_STEP_ENTRY, below(512));
        while (out->length + ENTRIES + 2 < stop) {
            put(KIND_ALTERNATIVE, 0);
            for (i = 0; i < ENTRIES; i++) {
                if (i == place)
                    put(KIND_SEQUENCE_ENTRY, LIVE);
                else if (below(8) == 0)
                    put(KIND_SEQUENCE_ENTRY, below(LIVE));
                else
                    put(KIND_STEP_ENTRY, below(512));
            }
        }
        put(KIND_ALTERNATIVE, 0);
        while (out->length < stop)
            put(KIND_STEP_ENTRY, below(512));
    }
    put(KIND_SEQUENCE, LIVE);
    put(KIND_ALTERNATIVE, 0);
    put(KIND_SEQUENCE_ENTRY, LIVE);
    end();
}

void write_shapes(struct shape shapes[SHAPES])
{
    everyday(&shapes[0], "everyday", 200, 24);
    everyday(&shapes[1], "everyday, large", MOST_WORDS, 64);
    random_words(&shapes[2], 64);
    calling(&shapes[3], "calls the next", NEXT, 64);
    calling(&shapes[4], "calls the one before", BEFORE, 64);
    calling(&shapes[5], "calls next, shuffled", SHUFFLED, 64);
    calling(&shapes[6], "calls both neighbours", NEIGHBOURS, 64);
    calling(&shapes[7], "one ring", RING, 64);
    one_alternative(&shapes[8]);
    empty_alternatives(&shapes[9]);
    calling(&shapes[10], "all endless", ENDLESS, 64);
    full_steps(&shapes[11], "steps of 64 facts", 63, 64);
    dead_alternatives(&shapes[12], "dead at first entry", 0);
    dead_alternatives(&shapes[13], "dead at middle entry", 20);
    dead_alternatives(&shapes[14], "dead at last entry", 39);
}

/* Each sequence is an alternative that calls the next, and no more. */
static void short_ring(struct shape *shape)
{
    uint32_t c;
    begin(shape, "short ring, no way out", 1, 0, 256);
    for (c = 0; c < 256; c++) {
        put(KIND_SEQUENCE, c);
        put(KIND_ALTERNATIVE, 0);
        put(KIND_SEQUENCE_ENTRY, (c + 1) % 256);
    }
    end();
}

void write_rings(struct shape shapes[RINGS])
{
    short_ring(&shapes[0]);
    calling(&shapes[1], "one ring, no way out", NO_WAY_OUT, 64);
}

void write_facts(struct shape shapes[FACT_SHAPES], uint32_t facts)
{
    everyday(&shapes[0], "everyday", 200, facts);
    everyday(&shapes[1], "everyday, large", MOST_WORDS, facts);
    random_words(&shapes[2], facts);
    calling(&shapes[3], "calls the next", NEXT, facts);
    calling(&shapes[4], "one ring", RING, facts);
    full_steps(&shapes[5], "steps of all facts", 4096 / (facts + 1), facts);
}

void write_growth(struct shape shapes[GROWTH])
{
    int i;
    for (i = 0; i < GROWTH; i++)
        everyday(&shapes[i], "everyday", 256u << i, i == 0 ? 24 : 64);
}
