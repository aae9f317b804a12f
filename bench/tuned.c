/*
 * The best C that was found, to hold the library against.
 *
 * Check: the sum is worked out in four lanes, and the words are read by the
 * grammar, one test a word; only an image that fails goes through the rules one
 * by one. Cards: each alternative becomes a short list of rows, in which
 * neighbouring steps and checks are joined once and for all; an alternative
 * without calls is worked out once. Sequences are visited in the finishing
 * order of a depth-first walk and against it by turns, and only where one that
 * they call has changed. Where there are more than 64 facts, each alternative
 * is gone through once for every 64 of them. All this is compiled twice, for 64
 * facts and for more. Chain: everything is about one fact, so that counting
 * what each alternative still lacks gives the answer in one walk, by levels.
 * Why there is no run: an alternative waits at its first call without a run and
 * goes on from there once that has one; what it names from there on is written
 * down in the same walk, so that a queue over sets gives what is reached.
 */
#include "bench.h"
#include <string.h>

static uint64_t refusal(uint64_t n) { return n << 32; }

/* Four words, as numbers with a sign. */
typedef int32_t four __attribute__((vector_size(16)));

static four all_four(uint32_t w)
{
    int32_t x = (int32_t)w;
    return (four){x, x, x, x};
}

/* -1 where all bits are set. */
static int64_t both_halves(four v)
{
    int64_t half[2];
    memcpy(half, &v, sizeof half);
    return half[0] & half[1];
}

/*
 * Whether two ascending runs of fact words, the sets from `s` up to `c` and the
 * clears from there up to `end`, have a fact in common.
 */
static int share_fact(const uint32_t *s, const uint32_t *c, const uint32_t *end)
{
    const uint32_t *sets_end = c;
    while (s < sets_end && c < end) {
        uint32_t set = payload_of(*s), cleared = payload_of(*c);
        if (set == cleared)
            return 1;
        s += set < cleared;
        c += cleared < set;
    }
    return 0;
}

/*
 * Where the steps end, or 0 where one breaks a rule. The fact words of a step
 * are three runs, each ascending to its kind's end. A word past that end fails
 * in the next run, since it is not above its start, or as an opener. That a
 * step clears no fact that it sets is seen by the last six bits of its facts;
 * only where two agree in these are the runs compared.
 */
static size_t steps_end(const uint32_t *image, uint32_t facts, uint32_t steps)
{
    const uint32_t needs_end = 0x20000000u + facts;
    const uint32_t sets_end = 0x30000000u + facts;
    const uint32_t clears_end = 0x40000000u + facts;
    size_t i = 1;
    uint32_t a, w, before;
    for (a = 0; a < steps; a++) {
        uint64_t sets = 0, clears = 0;
        size_t sets_from, clears_from;
        if (image[i] != (0x50000000u | a))
            return 0;
        w = image[++i];
        for (before = 0x1fffffffu; w < needs_end; w = image[++i]) {
            if (w <= before)
                return 0;
            before = w;
        }
        sets_from = i;
        for (before = 0x2fffffffu; w < sets_end; w = image[++i]) {
            if (w <= before)
                return 0;
            before = w;
            sets |= UINT64_C(1) << (w & 63);
        }
        clears_from = i;
        for (before = 0x3fffffffu; w < clears_end; w = image[++i]) {
            if (w <= before)
                return 0;
            before = w;
            clears |= UINT64_C(1) << (w & 63);
        }
        if ((sets & clears) &&
            share_fact(image + sets_from, image + clears_from, image + i))
            return 0;
    }
    return i;
}

/* Where the sequences begin, of the image that was checked last. */
static size_t sequences_from;

/* Whether the words between head and sum word keep the rules. */
static int well_formed(const uint32_t *image, size_t length, uint32_t facts,
                       uint32_t steps, uint32_t sequences)
{
    size_t i = steps_end(image, facts, steps);
    uint32_t c, w, inside;
    /* kinds 8 and 9 are the least numbers, read with a sign */
    const four seven = all_four(0x70000000u), nine = all_four(0x90000000u);
    const four eight_end = all_four(0x80000000u + steps);
    const four nine_end = all_four(0x90000000u + sequences);
    const four thirteen = all_four(0xd0000000u);
    const four thirteen_end = all_four(0xd0000000u + facts);
    if (i == 0)
        return 0;
    sequences_from = i;
    for (c = 0, inside = 0; i + 1 < length; i++) {
        /* four words at a time, where all are alternatives and entries */
        while (inside && i + 4 < length) {
            four v, right;
            memcpy(&v, image + i, sizeof v);
            right = (v < eight_end) | ((v >= nine) & (v < nine_end)) |
                    ((v >= thirteen) & (v < thirteen_end)) | (v == seven);
            if (both_halves(right) != -1)
                break;
            i += 4;
        }
        w = image[i];
        if (w == (0x60000000u | c)) {
            inside = 0;
            c++;
        } else if (w == 0x70000000u) {
            if (c == 0)
                return 0;
            inside = 1;
        } else if (!inside ||
                   !((w - 0x80000000u < steps) | (w - 0x90000000u < sequences) |
                     (w - 0xd0000000u < facts))) {
            break;
        }
    }
    return i + 1 == length && c == sequences;
}

/* Four lanes: lane l has the words at l, l + 4, l + 8 and so on. */
typedef uint32_t lanes __attribute__((vector_size(16)));

/*
 * The sum word after so many words. A word of lane l that is in t running sums
 * of its lane, itself the first, is in 4 * t - l of all words. So what they add
 * up to is four times what those of the lanes do, less l times the sum of each
 * lane. Modulo 2^28 a word may keep its kind in the upper bits.
 */
static uint32_t tuned_sum_word(const uint32_t *image, size_t count)
{
    lanes s = {0, 0, 0, 0}, b = {0, 0, 0, 0}, v;
    uint32_t running, all;
    size_t i;
#pragma GCC unroll 4
    for (i = 0; i + 4 <= count; i += 4) {
        memcpy(&v, image + i, sizeof v);
        s += v + ((v >> 18) & 0x3c00u);
        b += s;
    }
    running = s[0] + s[1] + s[2] + s[3];
    all = 4 * (b[0] + b[1] + b[2] + b[3]) - s[1] - 2 * s[2] - 3 * s[3];
    for (; i < count; i++) {
        running += counts_as(image[i]);
        all += running;
    }
    return 0xf0000000u | all;
}

uint64_t tuned_check(const uint32_t *image, size_t length)
{
    uint32_t head;
    if (length < 2 || length > MOST_WORDS)
        return second_check(image, length);
    head = image[0];
    if (image[length - 1] != tuned_sum_word(image, length - 1) ||
        kind_of(head) != 1 || facts_of(head) < 1 ||
        facts_of(head) > MOST_FACTS || sequences_of(head) > MOST_SEQUENCES ||
        !well_formed(image, length, facts_of(head), steps_of(head),
                     sequences_of(head)))
        return second_check(image, length);
    return payload_of(head);
}

/* The kinds of a sequence's words, in an image that is accepted. */
static int is_any_entry(uint32_t w) { return w - 0x80000000u < 0x70000000u; }
static int is_step(uint32_t w) { return w - 0x80000000u < 0x10000000u; }
static int is_call(uint32_t w) { return w - 0x90000000u < 0x10000000u; }
static int is_check(uint32_t w) { return w - 0xd0000000u < 0x10000000u; }

/* Two columns of 64 facts side by side, and one of them twice. */
typedef uint64_t pair __attribute__((vector_size(16)));

static pair twice_first(pair x) { return __builtin_shuffle(x, (pair){0, 0}); }
static pair twice_second(pair x) { return __builtin_shuffle(x, (pair){1, 1}); }

/*
 * What is possible for 64 facts, in pairs, which make 64 bytes: last is sets
 * and clears, first is needs and sets, and untouched is that on the last side
 * and on the first. Standing is of the last item that sets, clears, needs or
 * checks the fact: it clears it, and there is none.
 */
struct row {
    pair last, first, untouched, standing;
};

enum { RUN = 1, EMPTY = 2 };
enum { STEP_ROWS = MOST_SEQUENCES, JOINED_ROWS = STEP_ROWS + MOST_STEPS };
enum { MOST_ROWS = JOINED_ROWS + MOST_WORDS / 2, BLOCKS = COLUMN_WORDS };

/*
 * Rows of sequences, of steps, and of neighbouring steps and checks joined. Of
 * each there is one, or where there are more than 64 facts four in a row, one
 * for each block of 64 facts.
 */
static struct row rows[BLOCKS * MOST_ROWS];
static uint8_t flags[MOST_ROWS];

/* How many blocks there are, how many rows there are of each, and the facts of
 * each block. The first two are known where the functions are compiled. */
struct width {
    uint32_t blocks, apart;
    uint64_t all[BLOCKS];
};

#define INLINE static inline __attribute__((always_inline))

static struct row joined(struct row x, const struct row *y)
{
    x.last = (x.last & twice_first(y->untouched)) | y->last;
    x.first |= twice_second(x.untouched) & y->first;
    x.untouched &= y->untouched;
    x.standing = (x.standing & twice_second(y->standing)) |
                 (pair){y->standing[0], 0};
    return x;
}

/* A row of a block and after it a check of fact f. */
INLINE struct row checked(struct row x, uint32_t f, uint32_t block,
                          uint32_t blocks)
{
    uint64_t bit = blocks == 1 || f >> 6 == block ? UINT64_C(1) << (f & 63) : 0;
    x.first |= twice_second(x.untouched) & (pair){bit, 0};
    x.untouched &= (pair){~UINT64_C(0), ~bit};
    x.standing &= (pair){~bit, ~bit};
    return x;
}

static struct row united(struct row x, struct row y)
{
    x.last |= y.last;
    x.first |= y.first;
    x.untouched |= y.untouched;
    x.standing |= y.standing;
    return x;
}

static int same(struct row x, struct row y)
{
    pair d = (x.last ^ y.last) | (x.first ^ y.first) |
             (x.untouched ^ y.untouched) | (x.standing ^ y.standing);
    return (d[0] | d[1]) == 0;
}

/* The row of no entry. */
static struct row start_row(uint64_t all)
{
    return (struct row){{0, 0}, {0, 0}, {all, all}, {0, all}};
}

/* What the alternatives without calls give, and the lists of the others. */
static struct row base[BLOCKS * MOST_SEQUENCES];
static uint8_t base_flags[MOST_SEQUENCES];
static uint32_t first_list[MOST_SEQUENCES + 1];
static uint16_t list_end[MOST_WORDS + 1];
static uint16_t list_rows[MOST_WORDS];
static uint64_t calls[MOST_SEQUENCES][4], callers[MOST_SEQUENCES][4];

INLINE size_t read_steps(const uint32_t *image, const struct width *width,
                         uint32_t steps)
{
    size_t i = 1;
    uint32_t a, w, k;
    for (a = 0; a < steps; a++) {
        uint64_t mask[BLOCKS][3];
        for (k = 0; k < width->blocks; k++)
            mask[k][0] = mask[k][1] = mask[k][2] = 0;
        for (i++; (w = image[i]) - 0x20000000u < 0x30000000u; i++) {
            k = width->blocks == 1 ? 0 : w >> 6 & 3;
            mask[k][kind_of(w) - 2] |= UINT64_C(1) << (w & 63);
        }
        for (k = 0; k < width->blocks; k++) {
            struct row *r = &rows[(STEP_ROWS + a) * width->apart + k];
            uint64_t all = width->all[k], *m = mask[k];
            uint64_t u = all & ~(m[0] | m[1]);
            r->last = (pair){m[1], m[2]};
            r->first = (pair){m[0], m[1] & ~m[0]};
            r->untouched = (pair){all & ~(m[1] | m[2]), u};
            r->standing = (pair){m[2], u & ~m[2]};
        }
    }
    return i;
}

/* The steps and checks from `i` on, of which there is one, joined for a block;
 * where they end, and whether there is a step. */
INLINE struct row join_run(const uint32_t *image, size_t *i, uint32_t block,
                           const struct width *width, uint8_t *has)
{
    uint32_t w = image[(*i)++];
    struct row x;
    if (is_step(w)) {
        x = rows[(STEP_ROWS + payload_of(w)) * width->apart + block];
        *has = RUN;
    } else {
        x = checked(start_row(width->all[block]), payload_of(w), block,
                    width->blocks);
        *has = RUN | EMPTY;
    }
    for (;; ++*i) {
        if (is_step(w = image[*i])) {
            x = joined(
                x, &rows[(STEP_ROWS + payload_of(w)) * width->apart + block]);
            *has = RUN;
        } else if (is_check(w)) {
            x = checked(x, payload_of(w), block, width->blocks);
        } else {
            return x;
        }
    }
}

INLINE void read_sequences(const uint32_t *image, size_t i,
                           const struct width *width, uint32_t sequences)
{
    const uint32_t blocks = width->blocks, apart = width->apart;
    uint32_t c, k, n = 0, lists = 0, spare = JOINED_ROWS;
    memset(calls, 0, sizeof calls[0] * sequences);
    memset(callers, 0, sizeof callers[0] * sequences);
    for (c = 0; c < sequences; c++) {
        struct row sum[BLOCKS];
        uint8_t found = 0;
        for (k = 0; k < blocks; k++)
            sum[k] = (struct row){{0, 0}, {0, 0}, {0, 0}, {0, 0}};
        first_list[c] = lists;
        for (i++; image[i] == 0x70000000u;) {
            uint32_t from = n, w;
            struct row x[BLOCKS];
            uint8_t has = RUN | EMPTY;
            for (k = 0; k < blocks; k++)
                x[k] = start_row(width->all[k]);
            for (i++; is_any_entry(w = image[i]);) {
                if (is_call(w)) {
                    uint32_t d = payload_of(w);
                    calls[c][d >> 6] |= UINT64_C(1) << (d & 63);
                    callers[d][c >> 6] |= UINT64_C(1) << (c & 63);
                    list_rows[n++] = (uint16_t)d;
                    i++;
                } else {
                    uint32_t row = STEP_ROWS + payload_of(w);
                    size_t begin = i;
                    x[0] = join_run(image, &i, 0, width, &has);
                    for (k = 1; k < blocks; k++) {
                        i = begin;
                        x[k] = join_run(image, &i, k, width, &has);
                    }
                    if (n == from && !is_call(image[i]))
                        goto constant;
                    if (i - begin > 1 || (has & EMPTY)) {
                        row = spare++;
                        for (k = 0; k < blocks; k++)
                            rows[row * apart + k] = x[k];
                        flags[row] = has;
                    }
                    list_rows[n++] = (uint16_t)row;
                }
            }
            if (n == from) {
            constant:
                found |= has;
                for (k = 0; k < blocks; k++)
                    sum[k] = united(sum[k], x[k]);
            } else {
                list_end[++lists] = (uint16_t)n;
            }
        }
        for (k = 0; k < blocks; k++)
            base[c * apart + k] = sum[k];
        base_flags[c] = found;
    }
    first_list[c] = lists;
}

/* The finishing order of a depth-first walk over calls. */
static void finishing_order(uint32_t sequences, uint8_t *order)
{
    uint64_t fresh[4];
    uint8_t stack[MOST_SEQUENCES];
    uint32_t root, c, k, depth = 0, done = 0;
    memset(fresh, 0xff, sizeof fresh);
    for (root = 0; root < sequences; root++) {
        if (!(fresh[root >> 6] >> (root & 63) & 1))
            continue;
        fresh[root >> 6] ^= UINT64_C(1) << (root & 63);
        stack[depth++] = (uint8_t)root;
        while (depth > 0) {
            c = stack[depth - 1];
            for (k = 0; k < 4; k++) {
                uint64_t next = calls[c][k] & fresh[k];
                if (next != 0) {
                    fresh[k] ^= next & -next;
                    stack[depth++] =
                        (uint8_t)(64 * k + (uint32_t)__builtin_ctzll(next));
                    break;
                }
            }
            if (k == 4) {
                order[done++] = (uint8_t)c;
                depth--;
            }
        }
    }
}

/* The entries of an alternative joined, as a block sees them. */
INLINE struct row join_list(uint32_t n, uint32_t end, uint32_t block,
                            const struct width *width)
{
    struct row x = start_row(width->all[block]);
    for (; n < end; n++)
        x = joined(x, &rows[list_rows[n] * width->apart + block]);
    return x;
}

/* What all entries of an alternative have of a run and of an empty one. */
static uint8_t list_flags(uint32_t n, uint32_t end)
{
    uint8_t has = RUN | EMPTY;
    for (; n < end; n++)
        has &= flags[list_rows[n]];
    return has;
}

/* Looks at a sequence of more than 64 facts again; whether its rows changed. */
static int visit_wide(uint32_t c, const struct width *width)
{
    uint8_t found = base_flags[c];
    uint32_t l = first_list[c], stop = first_list[c + 1], k;
    uint32_t first = list_end[l], lists = 0, n;
    static uint16_t live[MOST_WORDS][2];
    int changed;
    for (n = first; l < stop; l++) {
        uint32_t end = list_end[l + 1];
        uint8_t has = list_flags(n, end);
        if (has & RUN) {
            found |= has;
            live[lists][0] = (uint16_t)n;
            live[lists++][1] = (uint16_t)end;
        }
        n = end;
    }
    changed = found != flags[c];
    flags[c] = found;
    for (k = 0; k < width->blocks; k++) {
        struct row sum = base[c * BLOCKS + k];
        for (l = 0; l < lists; l++)
            sum = united(sum, join_list(live[l][0], live[l][1], k, width));
        changed |= !same(sum, rows[c * BLOCKS + k]);
        rows[c * BLOCKS + k] = sum;
    }
    return changed;
}

/* The same of one with up to 64 facts. */
static int visit_narrow(uint32_t c, struct row start)
{
    struct row sum = base[c];
    uint8_t found = base_flags[c];
    uint32_t l = first_list[c], stop = first_list[c + 1], n = list_end[l];
    for (; l < stop; l++) {
        uint32_t end = list_end[l + 1];
        struct row x = start;
        uint8_t has = RUN | EMPTY;
        for (; n < end; n++) {
            has &= flags[list_rows[n]];
            x = joined(x, &rows[list_rows[n]]);
        }
        if (has & RUN) {
            found |= has;
            sum = united(sum, x);
        }
    }
    if (found == flags[c] && same(sum, rows[c]))
        return 0;
    rows[c] = sum;
    flags[c] = found;
    return 1;
}

INLINE void settle(uint32_t sequences, const struct width *width)
{
    const struct row start = start_row(width->all[0]);
    uint8_t order[MOST_SEQUENCES];
    uint64_t dirty[4];
    uint32_t i, c, k;
    int back = 0;
    finishing_order(sequences, order);
    memset(rows, 0, sizeof rows[0] * width->apart * sequences);
    memset(flags, 0, sequences);
    memset(dirty, 0xff, sizeof dirty);
    for (c = sequences; c < MOST_SEQUENCES; c++)
        dirty[c >> 6] &= ~(UINT64_C(1) << (c & 63));
    while (dirty[0] | dirty[1] | dirty[2] | dirty[3]) {
        for (i = 0; i < sequences; i++) {
            c = order[back ? sequences - 1 - i : i];
            if (!(dirty[c >> 6] >> (c & 63) & 1))
                continue;
            dirty[c >> 6] ^= UINT64_C(1) << (c & 63);
            if (width->blocks == 1 ? visit_narrow(c, start)
                                   : visit_wide(c, width))
                for (k = 0; k < 4; k++)
                    dirty[k] |= callers[c][k];
        }
        back = !back;
    }
}

/* Writes a block's word of each column, and adds its count to the flags. */
INLINE void write_block(const struct row *r, uint64_t run, uint32_t block,
                        uint64_t *card)
{
    uint64_t *word = card + 1 + block;
    card[0] += (uint64_t)__builtin_popcountll(r->last[0] | r->last[1]) << 8;
    word[0 * BLOCKS] = run & ~(r->first[1] | r->untouched[1]);
    word[1 * BLOCKS] = r->first[0];
    word[2 * BLOCKS] = r->last[0];
    word[3 * BLOCKS] = r->last[1];
    word[4 * BLOCKS] = run & ~(r->last[1] | r->untouched[0]);
    word[5 * BLOCKS] = run & ~(r->last[0] | r->untouched[0]);
    word[6 * BLOCKS] = run & ~(r->standing[0] | r->standing[1]);
    word[7 * BLOCKS] = r->first[1];
    word[8 * BLOCKS] = r->untouched[1];
    word[9 * BLOCKS] = r->untouched[0];
    word[10 * BLOCKS] = r->standing[0];
    word[11 * BLOCKS] = r->standing[1];
}

INLINE void fill_cards(const uint32_t *image, const struct width *width,
                       uint64_t *area)
{
    uint32_t c, k, sequences = sequences_of(image[0]);
    size_t at = read_steps(image, width, steps_of(image[0]));
    memset(flags + STEP_ROWS, RUN, steps_of(image[0]));
    read_sequences(image, at, width, sequences);
    settle(sequences, width);
    for (c = 0; c < sequences; c++) {
        uint64_t *card = area + CARD * c;
        memset(card, 0, sizeof *card * CARD);
        card[0] = flags[c];
        for (k = 0; k < width->blocks; k++)
            write_block(&rows[c * width->apart + k],
                        flags[c] & RUN ? width->all[k] : 0, k, card);
    }
}

static void fill_narrow(const uint32_t *image, uint32_t facts, uint64_t *area)
{
    const struct width width = {1, 1, {~UINT64_C(0) >> (64 - facts), 0, 0, 0}};
    fill_cards(image, &width, area);
}

static void fill_wide(const uint32_t *image, uint32_t facts, uint64_t *area)
{
    struct width width = {(facts + 63) / 64, BLOCKS, {0, 0, 0, 0}};
    uint32_t k;
    for (k = 0; k < width.blocks; k++)
        width.all[k] = facts >= 64 * k + 64
                           ? ~UINT64_C(0)
                           : ~UINT64_C(0) >> (64 - facts % 64);
    fill_cards(image, &width, area);
}

uint64_t tuned_cards(const uint32_t *image, size_t length, uint64_t *area,
                     size_t area_length)
{
    uint64_t answer = tuned_check(image, length);
    uint32_t facts;
    if (answer >> 32 != 0)
        return answer;
    if (area_length < (size_t)CARD * sequences_of(image[0]))
        return refusal(8);
    facts = facts_of(image[0]);
    if (facts <= 64)
        fill_narrow(image, facts, area);
    else
        fill_wide(image, facts, area);
    return sequences_of(image[0]);
}

/* The alternatives, as a chain question sees them. */
struct alternative {
    uint16_t from, end, lacks_run, lacks_quiet, owner;
};

static struct alternative alternatives[MOST_WORDS];
static uint16_t first_alternative[MOST_SEQUENCES + 1];

/* The calls of each sequence: the alternative that one stands in, and the
 * next. */
struct call {
    uint16_t alternative, next;
};

static struct call all_calls[MOST_WORDS + 1];
static uint16_t calls_of[MOST_SEQUENCES];
static uint8_t marks[MOST_STEPS];

/* The word of a check that touches the fact, or 0 where none does. */
static uint32_t touching_check;

/* Marks of the steps: 0 and 1 for the touches, 2 for none. */
static size_t read_marks(const uint32_t *image, uint32_t steps, uint32_t one,
                         uint32_t other)
{
    size_t i = 1;
    uint32_t a, w;
    for (a = 0; a < steps; a++) {
        uint8_t m = 2;
        for (i++; (w = image[i]) - 0x20000000u < 0x30000000u; i++) {
            if (w == other && m == 2)
                m = 1;
            if (w == one)
                m = 0;
        }
        marks[a] = m;
    }
    return i;
}

/* The mark of a step or a check. */
static uint32_t mark_of(uint32_t w)
{
    return w < 0x90000000u ? marks[payload_of(w)] : w == touching_check ? 0 : 2;
}

/* Whether an entry cannot stay untouched. */
static int must_touch(uint32_t w, const uint16_t *depth)
{
    if (w < 0x90000000u)
        return marks[payload_of(w)] != 2;
    return w < 0xa0000000u ? depth[payload_of(w)] == 0 : w == touching_check;
}

static uint32_t read_calls(const uint32_t *image, size_t i, uint32_t sequences)
{
    uint32_t c, m = 0, n = 0;
    memset(calls_of, 0, sizeof calls_of);
    for (c = 0; c < sequences; c++) {
        first_alternative[c] = (uint16_t)m;
        for (i++; image[i] == 0x70000000u; m++) {
            struct alternative *alt = &alternatives[m];
            uint32_t w, count = 0, touched = 0;
            alt->owner = (uint16_t)c;
            alt->from = (uint16_t)(i + 1);
            for (i++; is_any_entry(w = image[i]); i++) {
                uint32_t p = payload_of(w);
                if (w < 0x90000000u) {
                    touched |= marks[p] != 2;
                } else if (w >= 0xa0000000u) {
                    touched |= w == touching_check;
                } else {
                    all_calls[++n].alternative = (uint16_t)m;
                    all_calls[n].next = calls_of[p];
                    calls_of[p] = (uint16_t)n;
                    count++;
                }
            }
            alt->end = (uint16_t)i;
            alt->lacks_run = (uint16_t)count;
            alt->lacks_quiet = (uint16_t)(touched ? 0x8000u | count : count);
        }
    }
    first_alternative[c] = (uint16_t)m;
    return m;
}

/* Which sequences have a run. */
static void find_runs(uint32_t count, uint8_t *runs)
{
    uint8_t queue[MOST_SEQUENCES];
    uint32_t m, n, from = 0, to = 0;
    memset(runs, 0, MOST_SEQUENCES);
    for (m = 0; m < count; m++) {
        uint16_t c = alternatives[m].owner;
        if (alternatives[m].lacks_run == 0 && !runs[c]) {
            runs[c] = 1;
            queue[to++] = (uint8_t)c;
        }
    }
    while (from < to)
        for (n = calls_of[queue[from++]]; n != 0; n = all_calls[n].next) {
            struct alternative *alt = &alternatives[all_calls[n].alternative];
            if (--alt->lacks_run == 0 && !runs[alt->owner]) {
                runs[alt->owner] = 1;
                queue[to++] = (uint8_t)alt->owner;
            }
        }
}

/* The depth at which each sequence can stay untouched, 0 where it cannot. */
static void find_depths(uint32_t count, uint16_t *depth)
{
    uint8_t queue[MOST_SEQUENCES];
    uint32_t m, n, from = 0, to = 0;
    memset(depth, 0, sizeof *depth * MOST_SEQUENCES);
    for (m = 0; m < count; m++) {
        uint16_t c = alternatives[m].owner;
        if (alternatives[m].lacks_quiet == 0 && depth[c] == 0) {
            depth[c] = 1;
            queue[to++] = (uint8_t)c;
        }
    }
    while (from < to) {
        uint32_t d = queue[from++];
        for (n = calls_of[d]; n != 0; n = all_calls[n].next) {
            struct alternative *alt = &alternatives[all_calls[n].alternative];
            if (--alt->lacks_quiet == 0 && depth[alt->owner] == 0) {
                depth[alt->owner] = (uint16_t)(depth[d] + 1);
                queue[to++] = (uint8_t)alt->owner;
            }
        }
    }
}

/* The entries at which the touch may stand, of an alternative with a run. */
struct window {
    uint32_t from, end;
};

static struct window window(const uint32_t *image,
                            const struct alternative *alt, int first,
                            const uint16_t *depth)
{
    struct window win = {alt->from, alt->end};
    uint32_t i;
    if (first) {
        for (i = alt->from; i < alt->end; i++) {
            if (must_touch(image[i], depth)) {
                win.end = i + 1;
                break;
            }
        }
    } else {
        for (i = alt->end; i > alt->from; i--) {
            if (must_touch(image[i - 1], depth)) {
                win.from = i - 1;
                break;
            }
        }
    }
    return win;
}

/* The number of links of each sequence's shortest chain, 0 where it has none,
 * found up to that of sequence c. */
static void find_links(const uint32_t *image, uint32_t count, int first,
                       uint32_t mark, const uint16_t *depth, uint32_t c,
                       uint16_t *links)
{
    static struct call edges[MOST_WORDS + 1];
    uint16_t edges_of[MOST_SEQUENCES];
    uint8_t queue[MOST_SEQUENCES];
    uint32_t m, i, n = 0, from = 0, to = 0;
    memset(links, 0, sizeof *links * MOST_SEQUENCES);
    memset(edges_of, 0, sizeof edges_of);
    for (m = 0; m < count; m++) {
        const struct alternative *alt = &alternatives[m];
        struct window win;
        if (alt->lacks_run != 0 || links[alt->owner] != 0)
            continue;
        win = window(image, alt, first, depth);
        for (i = win.from; i < win.end; i++) {
            uint32_t w = image[i], p = payload_of(w);
            if (!is_call(w)) {
                if (mark_of(w) == mark) {
                    links[alt->owner] = 1;
                    queue[to++] = (uint8_t)alt->owner;
                    break;
                }
            } else {
                edges[++n].alternative = alt->owner;
                edges[n].next = edges_of[p];
                edges_of[p] = (uint16_t)n;
            }
        }
    }
    while (from < to && links[c] == 0) {
        uint32_t d = queue[from++];
        for (n = edges_of[d]; n != 0; n = edges[n].next) {
            uint16_t owner = edges[n].alternative;
            if (links[owner] == 0) {
                links[owner] = (uint16_t)(links[d] + 1);
                queue[to++] = (uint8_t)owner;
            }
        }
    }
}

/*
 * The highest alternative of c all of whose calls stay untouched at less depth
 * than c.
 */
static uint32_t quiet_alternative(const uint32_t *image, const uint16_t *depth,
                                  uint32_t c)
{
    uint32_t m, i;
    for (m = first_alternative[c + 1] - 1u;; m--) {
        int ok = alternatives[m].lacks_quiet == 0;
        for (i = alternatives[m].from; ok && i < alternatives[m].end; i++)
            if (is_call(image[i]))
                ok = depth[payload_of(image[i])] < depth[c];
        if (ok)
            return m - first_alternative[c];
    }
}

/* At each link the highest alternative that fits, and its lowest position. */
static void write_links(const uint32_t *image, int first, uint32_t mark,
                        const uint16_t *depth, const uint16_t *links,
                        uint32_t c, uint32_t *area)
{
    uint32_t k, m, i, at = 0;
    for (k = links[c]; k > 0; k--) {
        for (m = first_alternative[c + 1] - 1u;; m--) {
            const struct alternative *alt = &alternatives[m];
            struct window win;
            if (alt->lacks_run != 0)
                continue;
            win = window(image, alt, first, depth);
            for (i = win.from; i < win.end; i++) {
                uint32_t w = image[i];
                if (k == 1 ? !is_call(w) && mark_of(w) == mark
                           : is_call(w) && links[payload_of(w)] == k - 1)
                    break;
            }
            if (i < win.end)
                break;
        }
        area[at++] = 0xa0000000u | (m - first_alternative[c]) << 8 | c;
        area[at++] = 0xb0000000u | (i - alternatives[m].from);
        c = payload_of(image[i]);
    }
}

uint64_t tuned_chain(const uint32_t *image, size_t length, uint64_t sequence,
                     uint64_t question, uint64_t fact, uint32_t *area,
                     size_t area_length)
{
    uint64_t answer = tuned_check(image, length);
    uint8_t runs[MOST_SEQUENCES];
    uint16_t depth[MOST_SEQUENCES], links[MOST_SEQUENCES];
    uint32_t c = (uint32_t)sequence, f = (uint32_t)fact, sequences, count;
    int first = question >= 3;
    size_t at;
    if (answer >> 32 != 0)
        return answer;
    sequences = sequences_of(image[0]);
    if (sequence >= sequences)
        return refusal(9);
    if (question > 5)
        return refusal(10);
    if (fact >= facts_of(image[0]))
        return refusal(11);
    at = read_marks(image, steps_of(image[0]),
                    (first ? 0x20000000u : 0x30000000u) | f,
                    (first ? 0x30000000u : 0x40000000u) | f);
    touching_check = first ? 0xd0000000u | f : 0;
    count = read_calls(image, at, sequences);
    find_depths(count, depth);
    if (question % 3 == 2) {
        if (depth[c] == 0)
            return 0;
        if (area_length < 2)
            return refusal(12);
        area[0] = 0xa0000000u | quiet_alternative(image, depth, c) << 8 | c;
        area[1] = 0xc0000000u;
        return 1;
    }
    find_runs(count, runs);
    if (!runs[c])
        return 0;
    find_links(image, count, first, (uint32_t)(question % 3), depth, c, links);
    if (links[c] == 0)
        return 0;
    if (area_length < 2 * (size_t)links[c])
        return refusal(12);
    write_links(image, first, (uint32_t)(question % 3), depth, links, c, area);
    return links[c];
}

/*
 * The alternatives that wait for a sequence to get a run, in a list for each:
 * the sequence that one is of, where its next entries stand, and the next one.
 */
struct waiting {
    uint16_t at, next;
    uint8_t owner;
};

static struct waiting waiting[MOST_WORDS + 1];
static uint16_t waiting_for[MOST_SEQUENCES];
static uint32_t waits;

/*
 * The entries from `at` on. Answers 0 where none is without a run. Otherwise
 * the alternative waits there, and the answer is where that entry stands.
 */
static size_t waits_at(const uint32_t *image, size_t at, const uint8_t *dead,
                       uint32_t owner)
{
    uint32_t w;
    for (; is_any_entry(w = image[at]); at++) {
        uint32_t d = w - 0x90000000u;
        if (d < MOST_SEQUENCES && dead[d]) {
            struct waiting *x = &waiting[++waits];
            x->at = (uint16_t)(at + 1);
            x->owner = (uint8_t)owner;
            x->next = waiting_for[d];
            waiting_for[d] = (uint16_t)waits;
            return at;
        }
    }
    return 0;
}

/*
 * Which sequences have no run, in one walk and a queue. Of a sequence that has
 * none by then the walk writes down what its alternatives name, from the entry
 * on at which each waits; all before that have a run.
 */
static void find_dead(const uint32_t *image, size_t at, uint32_t sequences,
                      uint8_t *dead)
{
    uint8_t queue[MOST_SEQUENCES];
    uint32_t c, n, from = 0, to = 0;
    waits = 0;
    memset(waiting_for, 0, sizeof waiting_for[0] * sequences);
    memset(calls, 0, sizeof calls[0] * sequences);
    memset(dead, 1, sequences);
    for (c = 0; c < sequences; c++) {
        for (at++; image[at] == 0x70000000u;) {
            size_t stop = waits_at(image, at + 1, dead, c);
            uint32_t w;
            if (stop == 0) {
                dead[c] = 0;
                queue[to++] = (uint8_t)c;
                while (image[at] - 0x70000000u < 0x80000000u)
                    at++;
                break;
            }
            for (at = stop; is_any_entry(w = image[at]); at++)
                if (is_call(w))
                    calls[c][payload_of(w) >> 6] |= UINT64_C(1) << (w & 63);
        }
    }
    while (from < to)
        for (n = waiting_for[queue[from++]]; n != 0; n = waiting[n].next) {
            c = waiting[n].owner;
            if (dead[c] && waits_at(image, waiting[n].at, dead, c) == 0) {
                dead[c] = 0;
                queue[to++] = (uint8_t)c;
            }
        }
}

/* Finds what a sequence without a run reaches, as a set; answers how many. */
static uint32_t find_reached(uint32_t sequences, uint32_t c,
                             const uint8_t *dead, uint64_t *found)
{
    uint64_t left[4] = {0, 0, 0, 0};
    uint8_t queue[MOST_SEQUENCES];
    uint32_t from = 0, to = 0, k;
    for (k = 0; k < sequences; k++)
        left[k >> 6] |= (uint64_t)dead[k] << (k & 63);
    queue[to++] = (uint8_t)c;
    left[c >> 6] ^= UINT64_C(1) << (c & 63);
    found[c >> 6] |= UINT64_C(1) << (c & 63);
    while (from < to) {
        c = queue[from++];
        for (k = 0; k < 4; k++) {
            uint64_t fresh = calls[c][k] & left[k];
            left[k] ^= fresh;
            found[k] |= fresh;
            for (; fresh != 0; fresh &= fresh - 1)
                queue[to++] =
                    (uint8_t)(64 * k + (uint32_t)__builtin_ctzll(fresh));
        }
    }
    return to;
}

uint64_t tuned_endless(const uint32_t *image, size_t length, uint64_t sequence,
                       uint32_t *area, size_t area_length)
{
    uint64_t answer = tuned_check(image, length), found[4] = {0, 0, 0, 0};
    uint8_t dead[MOST_SEQUENCES];
    uint32_t count, sequences, k;
    if (answer >> 32 != 0)
        return answer;
    sequences = sequences_of(image[0]);
    if (sequence >= sequences)
        return refusal(9);
    find_dead(image, sequences_from, sequences, dead);
    if (!dead[sequence])
        return refusal(16);
    count = find_reached(sequences, (uint32_t)sequence, dead, found);
    if (area_length < count)
        return refusal(17);
    for (k = 0; k < 4; k++)
        for (; found[k] != 0; found[k] &= found[k] - 1)
            *area++ = 64 * k + (uint32_t)__builtin_ctzll(found[k]);
    return count;
}
