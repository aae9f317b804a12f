/*
 * The benchmark: the library's check, cards, chain, list and why there is no
 * run beside the engines in C, over the generator's shapes, some of which it
 * also has with 64 facts and with 256, side by side. First each answer
 * and each word written is compared, and a difference is an error; then each
 * call is timed. The engines take turns, so that other work on the machine
 * meets all alike, and each time is the median of many.
 */
#define _POSIX_C_SOURCE 199309L
#include "bench.h"
#include <inttypes.h>
#include <stdio.h>
#include <stdlib.h>
#include <string.h>
#include <time.h>

enum { ENGINES = 4, MOST_SAMPLES = 301 };
enum { LIBRARY, PAPER, PLAIN, TUNED };

/* The second engine checks by plain rules, and fills cards by the paper. */
static check_call *const checks[ENGINES] = {dulimoven_check, NULL,
                                            second_check, tuned_check};
static cards_call *const cards[ENGINES] = {dulimoven_cards, second_cards,
                                           plain_cards, tuned_cards};
static chain_call *const chains[ENGINES] = {dulimoven_chain, NULL, plain_chain,
                                            tuned_chain};
static list_call *const lists[ENGINES] = {dulimoven_list, NULL, plain_list,
                                          NULL};
static endless_call *const reasons[ENGINES] = {dulimoven_endless, NULL,
                                               plain_endless, tuned_endless};

static uint64_t card_area[ENGINES][CARD * MOST_SEQUENCES];
static uint32_t chain_area[ENGINES][2 * MOST_SEQUENCES];
static uint64_t list_area[ENGINES][CARD];
static uint32_t endless_area[ENGINES][MOST_SEQUENCES];

/* What the list call is lent: the cards of a shape, and members. */
static uint64_t lent_cards[CARD * MOST_SEQUENCES];
static uint32_t lent_list[DULIMOVEN_MOST_LIST];

/* The call that is timed. */
struct timed {
    const struct shape *shape;
    enum { CHECK, CARDS, CHAIN, LIST, ENDLESS } call;
    uint64_t sequence, question, fact;
    size_t members;
};

static uint64_t run(const struct timed *t, int engine)
{
    const uint32_t *image = t->shape->words;
    size_t length = t->shape->length;
    switch (t->call) {
    case CHECK:
        return checks[engine](image, length);
    case CARDS:
        return cards[engine](image, length, card_area[engine],
                             CARD * MOST_SEQUENCES);
    case LIST:
        return lists[engine](facts_of(image[0]), sequences_of(image[0]),
                             lent_cards, (size_t)CARD * sequences_of(image[0]),
                             lent_list, t->members, list_area[engine]);
    case ENDLESS:
        return reasons[engine](image, length, t->sequence, endless_area[engine],
                               MOST_SEQUENCES);
    default:
        return chains[engine](image, length, t->sequence, t->question, t->fact,
                              chain_area[engine], 2 * MOST_SEQUENCES);
    }
}

static int has(const struct timed *t, int engine)
{
    if (t->call == LIST)
        return engine == LIBRARY || engine == PLAIN;
    return t->call == CARDS || engine != PAPER;
}

/* Whether an engine has written the library's cards, of which the paper's has
 * the first words alone. */
static int same_cards(int engine)
{
    size_t i;
    for (i = 0; i < CARD * MOST_SEQUENCES; i++)
        if ((engine != PAPER || i % CARD < SECOND_WORDS) &&
            card_area[engine][i] != card_area[LIBRARY][i])
            return 0;
    return 1;
}

/* Whether it has written what the library has. */
static int same_words(const struct timed *t, int engine)
{
    switch (t->call) {
    case CHECK:
        return 1;
    case CARDS:
        return same_cards(engine);
    case LIST:
        return memcmp(list_area[engine], list_area[LIBRARY],
                      sizeof list_area[engine]) == 0;
    case ENDLESS:
        return memcmp(endless_area[engine], endless_area[LIBRARY],
                      sizeof endless_area[engine]) == 0;
    default:
        return memcmp(chain_area[engine], chain_area[LIBRARY],
                      sizeof chain_area[engine]) == 0;
    }
}

/* Whether a call may be refused so: with 16, where a sequence has a run. */
static int may_answer(const struct timed *t, uint64_t answer)
{
    return answer >> 32 == 0 ||
           (t->call == ENDLESS && answer >> 32 == DULIMOVEN_HAS_RUN);
}

/* Compares the engines' answers and the words that they write. */
static void verify(const struct timed *t)
{
    uint64_t answer[ENGINES] = {0};
    int e;
    memset(card_area, 0xa5, sizeof card_area);
    memset(chain_area, 0xa5, sizeof chain_area);
    memset(list_area, 0xa5, sizeof list_area);
    memset(endless_area, 0xa5, sizeof endless_area);
    for (e = 0; e < ENGINES; e++) {
        if (!has(t, e))
            continue;
        answer[e] = run(t, e);
        if (answer[e] != answer[LIBRARY] || !may_answer(t, answer[e]) ||
            !same_words(t, e)) {
            printf("%s: engine %d differs in call %d, sequence %" PRIu64
                   ", question %" PRIu64 ", fact %" PRIu64 ": %" PRIx64
                   " and %" PRIx64 "\n",
                   t->shape->name, e, (int)t->call, t->sequence, t->question,
                   t->fact, answer[e], answer[LIBRARY]);
            exit(1);
        }
    }
}

static double now(void)
{
    struct timespec t;
    clock_gettime(CLOCK_MONOTONIC, &t);
    return (double)t.tv_sec * 1e6 + (double)t.tv_nsec * 1e-3;
}

static int by_value(const void *a, const void *b)
{
    double x = *(const double *)a, y = *(const double *)b;
    return (x > y) - (x < y);
}

static double median(double *x, int n)
{
    qsort(x, (size_t)n, sizeof *x, by_value);
    return x[n / 2];
}

/*
 * The microseconds of a call by each engine: medians of samples that end when
 * `budget` microseconds are used up, 25 of them at least. Of an engine that
 * takes milliseconds for a call there are `slow` samples.
 */
static void measure(const struct timed *t, double budget, int slow, double *us)
{
    static double sample[ENGINES][MOST_SAMPLES];
    int calls[ENGINES] = {0}, most[ENGINES];
    int e, i, n = 0;
    double begun, start = now(), each;
    for (e = 0; e < ENGINES; e++) {
        if (!has(t, e))
            continue;
        run(t, e);
        begun = now();
        run(t, e);
        each = now() - begun;
        calls[e] = each >= 20 ? 1 : (int)(20 / (each + 0.1)) + 1;
        most[e] = each >= 2000 ? slow : MOST_SAMPLES;
    }
    while (n < MOST_SAMPLES && (n < 25 || now() - start < budget)) {
        for (e = 0; e < ENGINES; e++) {
            if (calls[e] == 0 || n >= most[e])
                continue;
            begun = now();
            for (i = 0; i < calls[e]; i++)
                run(t, e);
            sample[e][n] = (now() - begun) / calls[e];
        }
        n++;
    }
    for (e = 0; e < ENGINES; e++)
        us[e] = calls[e] == 0 ? 0
                              : median(sample[e], n < most[e] ? n : most[e]);
}

static void card_row(const struct shape *shape)
{
    struct timed check = {shape, CHECK, 0, 0, 0, 0};
    struct timed call = {shape, CARDS, 0, 0, 0, 0};
    double c[ENGINES], us[ENGINES];
    verify(&check);
    verify(&call);
    measure(&check, 2e5, 9, c);
    measure(&call, 1e6, 9, us);
    printf("%-22s %5zu | %6.2f %6.2f %6.2f %5.2f | %8.2f %10.1f %9.2f %7.2f |"
           " %7.1f %7.2f %6.2f\n",
           shape->name, shape->length, c[LIBRARY], c[PLAIN], c[TUNED],
           c[LIBRARY] / c[TUNED], us[LIBRARY], us[PAPER], us[PLAIN], us[TUNED],
           us[PAPER] / us[LIBRARY], us[PLAIN] / us[LIBRARY],
           us[LIBRARY] / us[TUNED]);
    fflush(stdout);
}

/*
 * All questions on the facts 0, F/2 and F-1 of the sequences 0, C/2 and C-1,
 * and the fact and the sequence that are a third of the way up. What each
 * engine takes for the median question is put into `middle`; where it is not
 * shown, a slow engine is timed once. Answers that of the library.
 */
static double chain_row(const struct shape *shape, int shown, double *middle)
{
    static double us[ENGINES][96];
    uint32_t head = shape->words[0];
    uint32_t facts = facts_of(head), sequences = sequences_of(head);
    uint32_t fact[4] = {0, facts / 3, facts / 2, facts - 1};
    uint32_t sequence[4] = {0, sequences / 3, sequences / 2, sequences - 1};
    double one[ENGINES], to_plain = 1e9, to_tuned = 0;
    int n = 0, found = 0, e, s, q, f;
    uint64_t most = 0, links;
    for (s = 0; s < 4; s++)
        for (q = 0; q < 6; q++)
            for (f = 0; f < 4; f++) {
                struct timed t = {shape, CHAIN, sequence[s], (uint64_t)q,
                                  fact[f], 0};
                verify(&t);
                links = run(&t, LIBRARY);
                found += links != 0;
                most = links > most ? links : most;
                measure(&t, 1e4, shown ? 5 : 1, one);
                for (e = 0; e < ENGINES; e++)
                    us[e][n] = one[e];
                n++;
                if (one[PLAIN] / one[LIBRARY] < to_plain)
                    to_plain = one[PLAIN] / one[LIBRARY];
                if (one[LIBRARY] / one[TUNED] > to_tuned)
                    to_tuned = one[LIBRARY] / one[TUNED];
            }
    for (e = 0; e < ENGINES; e++)
        middle[e] = median(us[e], n);
    if (!shown)
        return middle[LIBRARY];
    printf("%-22s %5zu %3d %4" PRIu64
           " | %8.2f %8.2f %8.2f %5.2f %5.2f | %8.2f %8.2f %8.2f %5.2f %5.2f |"
           " %5.2f %5.2f\n",
           shape->name, shape->length, found, most, middle[LIBRARY],
           middle[PLAIN], middle[TUNED], middle[PLAIN] / middle[LIBRARY],
           middle[LIBRARY] / middle[TUNED], us[LIBRARY][n - 1],
           us[PLAIN][n - 1], us[TUNED][n - 1],
           us[PLAIN][n - 1] / us[LIBRARY][n - 1],
           us[LIBRARY][n - 1] / us[TUNED][n - 1], to_plain, to_tuned);
    fflush(stdout);
    return middle[LIBRARY];
}

/* The first sequence without a run, or 0, where there is none. */
static uint32_t first_endless(const struct shape *shape)
{
    uint32_t c, sequences = sequences_of(shape->words[0]);
    dulimoven_cards(shape->words, shape->length, lent_cards,
                    CARD * MOST_SEQUENCES);
    for (c = 0; c < sequences; c++)
        if (!dulimoven_has_run(lent_cards + CARD * c))
            return c;
    return 0;
}

/*
 * Why a sequence without a run has none; of a shape that has no such sequence
 * sequence 0 gets 16. Beside the check, the cards, and the median question of
 * a chain, which is `question` microseconds.
 */
static void endless_row(const struct shape *shape, double question)
{
    struct timed check = {shape, CHECK, 0, 0, 0, 0};
    struct timed call = {shape, CARDS, 0, 0, 0, 0};
    struct timed t = {shape, ENDLESS, first_endless(shape), 0, 0, 0};
    double us[ENGINES], c[ENGINES], all[ENGINES];
    uint64_t answer;
    char list[16];
    verify(&t);
    answer = run(&t, LIBRARY);
    snprintf(list, sizeof list, "%u%s",
             (unsigned)(answer >> 32 == 0 ? answer : answer >> 32),
             answer >> 32 == 0 ? "" : "!");
    measure(&t, 5e5, 9, us);
    measure(&check, 2e5, 5, c);
    measure(&call, 2e5, 5, all);
    printf("%-22s %5zu %4u %4s | %8.2f %8.2f %8.2f %5.2f %5.2f | %6.2f %6.2f |"
           " %8.2f %6.2f | %8.2f %6.2f\n",
           shape->name, shape->length, (unsigned)t.sequence, list, us[LIBRARY],
           us[PLAIN], us[TUNED], us[PLAIN] / us[LIBRARY],
           us[LIBRARY] / us[TUNED], c[LIBRARY], us[LIBRARY] / c[LIBRARY],
           question, us[LIBRARY] / question, all[LIBRARY],
           us[LIBRARY] / all[LIBRARY]);
    fflush(stdout);
}

/*
 * Lists of sequences that have a run, one after the other from the first on and
 * then again, beside a plain fold over the same words and beside a card call on
 * the image.
 */
static void list_rows(const struct shape *shape)
{
    static const size_t members[] = {1, 16, DULIMOVEN_MOST_LIST};
    struct timed call = {shape, CARDS, 0, 0, 0, 0};
    uint32_t sequences = sequences_of(shape->words[0]), c = 0;
    double us[ENGINES], all[ENGINES];
    size_t i, n = 0;
    verify(&call);
    memcpy(lent_cards, card_area[LIBRARY], sizeof lent_cards);
    while (n < DULIMOVEN_MOST_LIST) {
        if (dulimoven_has_run(lent_cards + CARD * c))
            lent_list[n++] = c;
        c = (c + 1) % sequences;
        if (c == 0 && n == 0) {
            printf("%s: no sequence has a run\n", shape->name);
            exit(1);
        }
    }
    for (i = 0; i < sizeof members / sizeof members[0]; i++) {
        struct timed t = {shape, LIST, 0, 0, 0, members[i]};
        verify(&t);
        measure(&t, 2e5, 9, us);
        measure(&call, 2e5, 5, all);
        printf("%-22s %5zu %5u %7zu | %8.4f %8.4f %5.2f | %8.2f %8.5f\n",
               shape->name, shape->length, facts_of(shape->words[0]),
               members[i], us[LIBRARY], us[PLAIN], us[LIBRARY] / us[PLAIN],
               all[LIBRARY], us[LIBRARY] / all[LIBRARY]);
        fflush(stdout);
    }
}

/* What check, cards and the median question take, by each engine. */
enum { CHECK_TIME, CARDS_TIME, QUESTION_TIME, TIMES };

/*
 * One shape with 64 facts and with 256. They take turns: each time is the
 * median of five rounds.
 */
static void facts_row(const struct shape *few, const struct shape *many)
{
    enum { ROUNDS = 5 };
    static double us[2][TIMES][ENGINES][ROUNDS];
    double one[ENGINES], time[2][TIMES][ENGINES];
    const struct shape *shapes[2];
    int round, i, k, e;
    shapes[0] = few;
    shapes[1] = many;
    for (round = 0; round < ROUNDS; round++)
        for (i = 0; i < 2; i++) {
            struct timed check = {shapes[i], CHECK, 0, 0, 0, 0};
            struct timed call = {shapes[i], CARDS, 0, 0, 0, 0};
            verify(&check);
            verify(&call);
            for (k = 0; k < TIMES; k++) {
                if (k == CHECK_TIME)
                    measure(&check, 1e5, 3, one);
                else if (k == CARDS_TIME)
                    measure(&call, 2e5, 3, one);
                else
                    chain_row(shapes[i], 0, one);
                for (e = 0; e < ENGINES; e++)
                    us[i][k][e][round] = one[e];
            }
        }
    for (i = 0; i < 2; i++)
        for (k = 0; k < TIMES; k++)
            for (e = 0; e < ENGINES; e++)
                time[i][k][e] = median(us[i][k][e], ROUNDS);
    printf("%-20s", few->name);
    for (k = 0; k < TIMES; k++)
        printf(" | %8.2f %8.2f %5.2f %5.2f %5.2f", time[0][k][LIBRARY],
               time[1][k][LIBRARY], time[1][k][LIBRARY] / time[0][k][LIBRARY],
               time[0][k][LIBRARY] / time[0][k][TUNED],
               time[1][k][LIBRARY] / time[1][k][TUNED]);
    printf(" | %7.1f %6.2f %6.2f\n",
           time[1][CARDS_TIME][PAPER] / time[1][CARDS_TIME][LIBRARY],
           time[1][CARDS_TIME][PLAIN] / time[1][CARDS_TIME][LIBRARY],
           time[1][CARDS_TIME][TUNED] / time[0][CARDS_TIME][TUNED]);
    fflush(stdout);
}

/*
 * Growth: the time of each size, and beside it how many times that of half the
 * size. The sizes take turns too: each time is the median of five rounds.
 */
static void growth(const struct shape *shapes)
{
    static double us[GROWTH][3][ENGINES][5];
    double one[ENGINES], time[GROWTH][3][ENGINES];
    int round, i, k, e;
    for (round = 0; round < 5; round++)
        for (i = 0; i < GROWTH; i++) {
            const struct shape *shape = &shapes[i];
            uint32_t head = shape->words[0];
            struct timed t[3] = {{shape, CHECK, 0, 0, 0, 0},
                                 {shape, CARDS, 0, 0, 0, 0},
                                 {shape, CHAIN, sequences_of(head) - 1, 0,
                                  facts_of(head) / 2, 0}};
            for (k = 0; k < 3; k++) {
                verify(&t[k]);
                measure(&t[k], 5e4, 5, one);
                for (e = 0; e < ENGINES; e++)
                    us[i][k][e][round] = one[e];
            }
        }
    for (i = 0; i < GROWTH; i++) {
        printf("%5zu |", shapes[i].length);
        for (k = 0; k < 3; k++) {
            for (e = 0; e < ENGINES; e++)
                time[i][k][e] = median(us[i][k][e], 5);
            printf(" %8.2f", time[i][k][LIBRARY]);
            if (i == 0)
                printf("       ");
            else
                printf(" x%5.2f", time[i][k][LIBRARY] / time[i - 1][k][LIBRARY]);
            printf(" %8.2f |", time[i][k][TUNED]);
        }
        printf(" %10.1f\n", time[i][1][PAPER]);
    }
}

int main(void)
{
    static struct shape shapes[SHAPES], sizes[GROWTH], rings[RINGS];
    static struct shape few[FACT_SHAPES], many[FACT_SHAPES];
    double question[SHAPES], middle[ENGINES];
    int i;
    write_shapes(shapes);
    write_rings(rings);
    write_growth(sizes);
    write_facts(few, 64);
    write_facts(many, 256);
    printf("Microseconds, medians of many calls, the engines in turns. paper: "
           "the algorithms of 001, fact by\nfact; plain: columns with plain "
           "passes; tuned: the best C. Of the ratios, paper/lib and plain/lib\n"
           "are how many times as long the baseline takes, lib/tuned how many "
           "times as long the library takes.\n\n");
    printf("%-22s %5s | %-27s | %-37s |\n", "", "", "check", "cards");
    printf("%-22s %5s | %6s %6s %6s %5s | %8s %10s %9s %7s | %7s %7s %6s\n",
           "shape", "words", "lib", "plain", "tuned", "ratio", "lib", "paper",
           "plain", "tuned", "pap/lib", "pla/lib", "lib/tu");
    for (i = 0; i < SHAPES; i++)
        card_row(&shapes[i]);
    printf("\nThe chain, of 96 questions; found: how many have a chain; most: "
           "its links at the most; last: the\nworst ratios of one question.\n");
    printf("%-22s %5s %3s %4s | %-37s | %-37s |\n", "", "", "", "",
           "the median question", "the slowest question");
    printf("%-22s %5s %3s %4s | %8s %8s %8s %5s %5s | %8s %8s %8s %5s %5s |"
           " %5s %5s\n",
           "shape", "words", "fnd", "most", "lib", "plain", "tuned", "pl/li",
           "li/tu", "lib", "plain", "tuned", "pl/li", "li/tu", "pl/li",
           "li/tu");
    for (i = 0; i < SHAPES; i++)
        question[i] = chain_row(&shapes[i], 1, middle);
    printf("\nWhy the sequence asked has no run; list: its members, or 16! "
           "where each sequence has a run;\nbeside the check, the median "
           "question of the chain and the cards: the library's time, and how\n"
           "many times that the call takes.\n");
    printf("%-22s %5s %4s %4s | %-38s | %-13s | %-15s | %-15s\n", "", "", "",
           "", "why", "check", "chain", "cards");
    printf("%-22s %5s %4s %4s | %8s %8s %8s %5s %5s | %6s %6s | %8s %6s | "
           "%8s %6s\n",
           "shape", "words", "seq", "list", "lib", "plain", "tuned", "pl/li",
           "li/tu", "lib", "times", "lib", "times", "lib", "times");
    for (i = 0; i < SHAPES; i++)
        endless_row(&shapes[i], question[i]);
    for (i = 0; i < RINGS; i++)
        endless_row(&rings[i], chain_row(&rings[i], 0, middle));
    printf("\nWith 64 facts and with 256, in turns; times: how many times as "
           "long with 256; li/tu: how many times as long\nas the tuned C, with "
           "64 facts and with 256; last, the baselines of the cards with 256 "
           "facts, and how many\ntimes as long they take the tuned C with "
           "256.\n");
    printf("%-20s | %-35s | %-35s | %-35s | %-21s\n", "", "check", "cards",
           "the median question", "cards");
    printf("%-20s", "shape");
    for (i = 0; i < TIMES; i++)
        printf(" | %8s %8s %5s %5s %5s", "lib 64", "lib 256", "times", "li/tu",
               "li/tu");
    printf(" | %7s %6s %6s\n", "pap/lib", "pl/lib", "tuned");
    for (i = 0; i < FACT_SHAPES; i++)
        facts_row(&few[i], &many[i]);
    printf("\nThe list call, beside a plain fold over the same words and beside "
           "the library's cards of the image.\n");
    printf("%-22s %5s %5s %7s | %-23s | %-17s\n", "", "", "", "", "list",
           "cards");
    printf("%-22s %5s %5s %7s | %8s %8s %5s | %8s %8s\n", "shape", "words",
           "facts", "members", "lib", "plain", "li/pl", "lib", "list/ca");
    list_rows(&shapes[1]);
    list_rows(&shapes[2]);
    list_rows(&many[1]);
    list_rows(&many[2]);
    printf("\nGrowth with the size of everyday images: the library's time, by "
           "what it grew, and the tuned C.\n");
    printf("%5s | %-24s | %-24s | %-24s | %10s\n", "words", "check", "cards",
           "chain", "paper");
    growth(sizes);
    return 0;
}
