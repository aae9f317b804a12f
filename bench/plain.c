/*
 * The second baseline: 64 facts at a time, one block of them after the other,
 * and for each plain passes over all sequences in the order of their numbers
 * until nothing changes. The check is the second engine's, one word after the
 * other.
 */
#include "bench.h"
#include <string.h>

static uint64_t refusal(uint64_t n) { return n << 32; }

/* What is possible: on the last side sets, clears and untouched, on the first
 * side needs, sets and untouched, and of the last item that sets, clears, needs
 * or checks the fact that it clears it, and that there is none. */
struct row {
    uint64_t run, empty, last[3], first[3], standing[2];
};

/* The library, as a block of 64 facts sees it: bit b is fact 64 * block + b,
 * and `all` has those that there are. */
static struct {
    uint64_t all;
    uint32_t block, sequences;
    uint64_t needs[MOST_STEPS], sets[MOST_STEPS], clears[MOST_STEPS];
    size_t place[MOST_SEQUENCES];
    struct row table[MOST_SEQUENCES];
} lib;

/* The bit of a fact in the block, or 0 where it is in another. */
static uint64_t bit_of(uint32_t fact)
{
    return fact / 64 == lib.block ? UINT64_C(1) << fact % 64 : 0;
}

/* The facts from the block's first on that are below F. */
static uint64_t facts_in_block(uint64_t facts, uint64_t block)
{
    if (facts <= 64 * block)
        return 0;
    return facts - 64 * block >= 64 ? ~UINT64_C(0)
                                    : (UINT64_C(1) << facts % 64) - 1;
}

static void read_library(const uint32_t *image, size_t length, uint32_t block)
{
    uint32_t a = 0;
    size_t i;
    lib.block = block;
    lib.all = facts_in_block(facts_of(image[0]), block);
    lib.sequences = sequences_of(image[0]);
    for (i = 1; i + 1 < length; i++) {
        uint32_t p = payload_of(image[i]);
        switch (kind_of(image[i])) {
        case KIND_NEEDS:
            lib.needs[a] |= bit_of(p);
            break;
        case KIND_SETS:
            lib.sets[a] |= bit_of(p);
            break;
        case KIND_CLEARS:
            lib.clears[a] |= bit_of(p);
            break;
        case KIND_STEP:
            a = p;
            lib.needs[a] = lib.sets[a] = lib.clears[a] = 0;
            break;
        case KIND_SEQUENCE:
            lib.place[p] = i + 1;
            break;
        }
    }
}

static struct row step_row(uint32_t a)
{
    uint64_t n = lib.needs[a], s = lib.sets[a], c = lib.clears[a];
    struct row r = {lib.all, 0, {s, c, lib.all & ~(s | c)},
                    {n, s & ~n, lib.all & ~(n | s)},
                    {c, lib.all & ~(n | s | c)}};
    return r;
}

static struct row check_row(uint32_t f)
{
    uint64_t n = bit_of(f);
    struct row r = {lib.all, lib.all, {0, 0, lib.all}, {n, 0, lib.all & ~n},
                    {0, lib.all & ~n}};
    return r;
}

static struct row entry_row(uint32_t w)
{
    uint32_t p = payload_of(w);
    return kind_of(w) == KIND_STEP_ENTRY ? step_row(p)
           : kind_of(w) == KIND_CHECK    ? check_row(p)
                                         : lib.table[p];
}

/* The row of a sequence by its alternatives and the table as it stands. */
static struct row look(const uint32_t *image, size_t i)
{
    struct row sum = {0, 0, {0, 0, 0}, {0, 0, 0}, {0, 0}};
    while (kind_of(image[i]) == KIND_ALTERNATIVE) {
        struct row x = {lib.all, lib.all, {0, 0, lib.all}, {0, 0, lib.all},
                        {0, lib.all}};
        for (i++; is_entry(image[i]); i++) {
            struct row y = entry_row(image[i]);
            x.run &= y.run;
            x.empty &= y.empty;
            x.last[0] = (x.last[0] & y.last[2]) | y.last[0];
            x.last[1] = (x.last[1] & y.last[2]) | y.last[1];
            x.last[2] &= y.last[2];
            x.first[0] |= x.first[2] & y.first[0];
            x.first[1] |= x.first[2] & y.first[1];
            x.first[2] &= y.first[2];
            x.standing[0] = (x.standing[0] & y.standing[1]) | y.standing[0];
            x.standing[1] &= y.standing[1];
        }
        if (x.run == 0)
            continue;
        sum.run |= x.run;
        sum.empty |= x.empty;
        sum.last[0] |= x.last[0];
        sum.last[1] |= x.last[1];
        sum.last[2] |= x.last[2];
        sum.first[0] |= x.first[0];
        sum.first[1] |= x.first[1];
        sum.first[2] |= x.first[2];
        sum.standing[0] |= x.standing[0];
        sum.standing[1] |= x.standing[1];
    }
    return sum;
}

static void fill_table(const uint32_t *image)
{
    uint32_t c;
    int changed = 1;
    memset(lib.table, 0, sizeof(struct row) * lib.sequences);
    while (changed) {
        changed = 0;
        for (c = 0; c < lib.sequences; c++) {
            struct row r = look(image, lib.place[c]);
            changed |= memcmp(&r, &lib.table[c], sizeof r) != 0;
            lib.table[c] = r;
        }
    }
}

/* Where a card has the first word of a column. */
enum {
    ALWAYS_NEEDED = 1,
    MAY_NEED = ALWAYS_NEEDED + COLUMN_WORDS,
    MAY_SET = MAY_NEED + COLUMN_WORDS,
    MAY_CLEAR = MAY_SET + COLUMN_WORDS,
    ALWAYS_SET = MAY_CLEAR + COLUMN_WORDS,
    ALWAYS_CLEARED = ALWAYS_SET + COLUMN_WORDS,
    ALWAYS_STANDS = ALWAYS_CLEARED + COLUMN_WORDS,
    FIRST_SET = ALWAYS_STANDS + COLUMN_WORDS,
    UNTOUCHED_FIRST = FIRST_SET + COLUMN_WORDS,
    UNTOUCHED_LAST = UNTOUCHED_FIRST + COLUMN_WORDS,
    END_CLEARED = UNTOUCHED_LAST + COLUMN_WORDS,
    UNMENTIONED = END_CLEARED + COLUMN_WORDS
};

/* Writes a block's word of each column, and adds its count to the flags. */
static void write_block(const struct row *r, uint32_t block, uint64_t *card)
{
    uint64_t *word = card + block;
    uint64_t changeable = r->last[0] | r->last[1];
    card[0] += (uint64_t)__builtin_popcountll(changeable) << 8;
    card[0] |= (r->run & 1) | (r->empty & 1) << 1;
    word[ALWAYS_NEEDED] = r->run & ~(r->first[1] | r->first[2]);
    word[MAY_NEED] = r->first[0];
    word[MAY_SET] = r->last[0];
    word[MAY_CLEAR] = r->last[1];
    word[ALWAYS_SET] = r->run & ~(r->last[1] | r->last[2]);
    word[ALWAYS_CLEARED] = r->run & ~(r->last[0] | r->last[2]);
    word[ALWAYS_STANDS] = r->run & ~(r->standing[0] | r->standing[1]);
    word[FIRST_SET] = r->first[1];
    word[UNTOUCHED_FIRST] = r->first[2];
    word[UNTOUCHED_LAST] = r->last[2];
    word[END_CLEARED] = r->standing[0];
    word[UNMENTIONED] = r->standing[1];
}

uint64_t plain_cards(const uint32_t *image, size_t length, uint64_t *area,
                     size_t area_length)
{
    uint64_t answer = second_check(image, length);
    uint32_t c, block, sequences;
    if (answer >> 32 != 0)
        return answer;
    sequences = sequences_of(image[0]);
    if (area_length < (size_t)CARD * sequences)
        return refusal(8);
    memset(area, 0, sizeof *area * CARD * sequences);
    for (block = 0; 64 * block < facts_of(image[0]); block++) {
        read_library(image, length, block);
        fill_table(image);
        for (c = 0; c < sequences; c++)
            write_block(&lib.table[c], block, area + CARD * c);
    }
    return sequences;
}

/*
 * One member after the other, 64 facts at a time; the bits from F upward are
 * dropped at the end.
 */
static void fold_block(uint64_t all, uint32_t block, const uint64_t *cards,
                       const uint32_t *list, size_t list_length, uint64_t *card)
{
    const uint64_t every = ~UINT64_C(0);
    uint64_t last[3] = {0, 0, every}, first[3] = {0, 0, every};
    uint64_t standing[2] = {0, every};
    struct row r;
    size_t i;
    for (i = 0; i < list_length; i++) {
        const uint64_t *y = cards + (size_t)CARD * list[i] + block;
        last[0] = (last[0] & y[UNTOUCHED_LAST]) | y[MAY_SET];
        last[1] = (last[1] & y[UNTOUCHED_LAST]) | y[MAY_CLEAR];
        last[2] &= y[UNTOUCHED_LAST];
        first[0] |= first[2] & y[MAY_NEED];
        first[1] |= first[2] & y[FIRST_SET];
        first[2] &= y[UNTOUCHED_FIRST];
        standing[0] = (standing[0] & y[UNMENTIONED]) | y[END_CLEARED];
        standing[1] &= y[UNMENTIONED];
    }
    r = (struct row){all,
                     0,
                     {all & last[0], all & last[1], all & last[2]},
                     {all & first[0], all & first[1], all & first[2]},
                     {all & standing[0], all & standing[1]}};
    write_block(&r, block, card);
}

uint64_t plain_list(uint64_t facts, uint64_t sequences, const uint64_t *cards,
                    size_t cards_length, const uint32_t *list,
                    size_t list_length, uint64_t *card)
{
    uint64_t flags = 3;
    uint32_t block;
    size_t i;
    if (cards_length / CARD < sequences)
        return refusal(8);
    if (list_length > DULIMOVEN_MOST_LIST)
        return refusal(14);
    for (i = 0; i < list_length; i++) {
        if (list[i] >= sequences)
            return refusal(15);
        flags &= cards[(size_t)CARD * list[i]];
    }
    memset(card, 0, CARD * sizeof *card);
    if ((flags & 1) == 0)
        return 0;
    for (block = 0; block < COLUMN_WORDS && 64 * (uint64_t)block < facts;
         block++)
        fold_block(facts_in_block(facts, block), block, cards, list,
                   list_length, card);
    card[0] = (card[0] & ~(uint64_t)3) | flags;
    return 0;
}

/* The question, and the rank of each sequence. */
static struct {
    int first;
    uint32_t mark, fact, bit, none;
    uint32_t rank[MOST_SEQUENCES];
} ask;

struct traits {
    uint32_t rank;
    int stays, runs;
};

/* The mark of a step or a check: 0 and 1 for the touches, 2 for none. */
static uint32_t mark_of(uint32_t w)
{
    uint32_t p = payload_of(w);
    uint64_t one, other;
    if (kind_of(w) == KIND_CHECK)
        return ask.first && p == ask.fact ? 0 : 2;
    one = ask.first ? lib.needs[p] : lib.sets[p];
    other = ask.first ? lib.sets[p] : lib.clears[p];
    return one >> ask.bit & 1 ? 0 : other >> ask.bit & 1 ? 1 : 2;
}

static struct traits traits(uint32_t w)
{
    struct traits t;
    uint32_t p = payload_of(w), mark;
    if (kind_of(w) != KIND_SEQUENCE_ENTRY) {
        mark = mark_of(w);
        t.rank = mark == ask.mark ? 0 : ask.none;
        t.stays = mark == 2;
        t.runs = 1;
    } else {
        const struct row *r = &lib.table[p];
        t.rank = ask.rank[p];
        t.stays = (ask.first ? r->first[2] : r->last[2]) >> ask.bit & 1;
        t.runs = r->run >> ask.bit & 1;
    }
    return t;
}

/* What the alternative comes to whose entries stand from index i on: the least
 * rank among the positions allowed, or the greatest depth. */
static uint32_t value(const uint32_t *image, size_t i)
{
    uint32_t best = ask.mark == 2 ? 0 : ask.none;
    int ok = 1;
    for (; is_entry(image[i]); i++) {
        struct traits t = traits(image[i]);
        int ahead = ask.first ? t.stays : t.runs;
        int behind = ask.first ? t.runs : t.stays;
        if (ask.mark == 2) {
            best = t.rank > best ? t.rank : best;
            continue;
        }
        if (!behind)
            best = ask.none;
        if (ok && t.rank < best)
            best = t.rank;
        ok &= ahead;
    }
    return best;
}

/* The first position of an alternative that comes to no more than k. */
static uint32_t position(const uint32_t *image, size_t i, uint32_t k)
{
    size_t start = i, end, quiet;
    for (end = i; is_entry(image[end]); end++)
        ;
    for (quiet = end; quiet > start; quiet--) {
        struct traits t = traits(image[quiet - 1]);
        if (!(ask.first ? t.runs : t.stays))
            break;
    }
    while (i + 1 < quiet || traits(image[i]).rank > k)
        i++;
    return (uint32_t)(i - start);
}

static int in_sequence(uint32_t w)
{
    return kind_of(w) == KIND_ALTERNATIVE || is_entry(w);
}

uint64_t plain_chain(const uint32_t *image, size_t length, uint64_t sequence,
                     uint64_t question, uint64_t fact, uint32_t *area,
                     size_t area_length)
{
    uint64_t answer = second_check(image, length);
    uint32_t c, d, k, count;
    size_t i;
    int changed = 1;
    if (answer >> 32 != 0)
        return answer;
    if (sequence >= sequences_of(image[0]))
        return refusal(9);
    if (question > 5)
        return refusal(10);
    if (fact >= facts_of(image[0]))
        return refusal(11);
    read_library(image, length, (uint32_t)fact / 64);
    fill_table(image);
    ask.first = question >= 3;
    ask.mark = (uint32_t)(question % 3);
    ask.fact = (uint32_t)fact;
    ask.bit = (uint32_t)fact % 64;
    ask.none = lib.sequences + 2;
    for (c = 0; c < lib.sequences; c++)
        ask.rank[c] = ask.none;
    while (changed) {
        changed = 0;
        for (c = 0; c < lib.sequences; c++) {
            for (i = lib.place[c]; in_sequence(image[i]); i++) {
                uint32_t v;
                if (is_entry(image[i]))
                    continue;
                v = value(image, i + 1);
                if (v + 1 < ask.rank[c]) {
                    ask.rank[c] = v + 1;
                    changed = 1;
                }
            }
        }
    }
    d = (uint32_t)sequence;
    if (ask.rank[d] >= ask.none)
        return 0;
    count = ask.mark == 2 ? 1 : ask.rank[d];
    if (area_length < 2 * (size_t)count)
        return refusal(12);
    for (k = 0; k < count; k++) {
        uint32_t m = 0, newest = 0, at, goal = ask.rank[d] - 1;
        size_t entries = 0;
        /* of the alternatives that come to the goal the last stays */
        for (i = lib.place[d]; in_sequence(image[i]); i++) {
            if (is_entry(image[i]))
                continue;
            if (value(image, i + 1) <= goal) {
                newest = m;
                entries = i + 1;
            }
            m++;
        }
        area[2 * k] = choice_word(d, newest);
        if (ask.mark == 2) {
            area[1] = word_of(KIND_UNTOUCHED, 0);
            break;
        }
        at = position(image, entries, goal);
        area[2 * k + 1] = word_of(KIND_POSITION, at);
        d = payload_of(image[entries + at]);
    }
    return count;
}

/* Whether an alternative has a run: each of its calls has one. */
static int gives_run(const uint32_t *image, size_t i, const uint8_t *runs)
{
    while (kind_of(image[i]) == KIND_ALTERNATIVE) {
        int gives = 1;
        for (i++; is_entry(image[i]); i++)
            if (kind_of(image[i]) == KIND_SEQUENCE_ENTRY)
                gives &= runs[payload_of(image[i])];
        if (gives)
            return 1;
    }
    return 0;
}

/* The calls without a run of a sequence are found; whether one is new. */
static int reaches(const uint32_t *image, size_t i, const uint8_t *runs,
                   uint8_t *found)
{
    int changed = 0;
    for (; in_sequence(image[i]); i++) {
        uint32_t d = payload_of(image[i]);
        if (kind_of(image[i]) == KIND_SEQUENCE_ENTRY && !runs[d] && !found[d]) {
            found[d] = 1;
            changed = 1;
        }
    }
    return changed;
}

uint64_t plain_endless(const uint32_t *image, size_t length, uint64_t sequence,
                       uint32_t *area, size_t area_length)
{
    uint64_t answer = second_check(image, length);
    uint8_t runs[MOST_SEQUENCES] = {0}, found[MOST_SEQUENCES] = {0};
    uint32_t c, sequences, count = 0;
    int changed = 1;
    size_t i;
    if (answer >> 32 != 0)
        return answer;
    sequences = sequences_of(image[0]);
    if (sequence >= sequences)
        return refusal(9);
    for (i = 1; i + 1 < length; i++)
        if (kind_of(image[i]) == KIND_SEQUENCE)
            lib.place[payload_of(image[i])] = i + 1;
    while (changed) {
        changed = 0;
        for (c = 0; c < sequences; c++)
            if (!runs[c] && gives_run(image, lib.place[c], runs))
                runs[c] = changed = 1;
    }
    if (runs[sequence])
        return refusal(16);
    found[sequence] = 1;
    for (changed = 1; changed;) {
        changed = 0;
        for (c = 0; c < sequences; c++)
            if (found[c])
                changed |= reaches(image, lib.place[c], runs, found);
    }
    for (c = 0; c < sequences; c++)
        count += found[c];
    if (area_length < count)
        return refusal(17);
    for (c = 0, count = 0; c < sequences; c++)
        if (found[c])
            area[count++] = c;
    return count;
}
