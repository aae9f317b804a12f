/*
 * Calls in several threads at once answer what they answer one by one: on an
 * image that all threads read, and on copies of their own. The arrays that a
 * thread lends begin at each of 16 words in turn, which are all places in 64
 * bytes, since the calls ask for no more than the alignment of a word. C11 and
 * C++17. Prints a line for each thread whose answers differ, then a count; the
 * exit status is 0 where none does.
 */
#define _POSIX_C_SOURCE 200809L
#include "harness.h"
#include "samples.h"

#include <pthread.h>

/* The libraries: L, a ring of sequences, each of which calls the next or does a
 * step, and the same ring without the steps, so that none has a run. */
enum { LIBRARIES = 3, RING = 100, RING_WORDS = 7 + 5 * RING + 1, BEGINS = 16 };
static struct library {
    uint32_t image[RING_WORDS];
    size_t words;
    uint64_t facts, sequences;
} libraries[LIBRARIES];

/* What a thread lends to the calls: from word `begin` of each array on. */
struct lent {
    size_t begin;
    uint32_t image[BEGINS + RING_WORDS];
    uint64_t cards[BEGINS + RING * DULIMOVEN_CARD_WORDS];
    uint32_t chain[BEGINS + RING * DULIMOVEN_LINK_WORDS];
    uint32_t list[BEGINS + DULIMOVEN_MOST_LIST];
    uint64_t card[BEGINS + DULIMOVEN_CARD_WORDS];
    uint32_t why[BEGINS + RING];
    uint32_t sealed[BEGINS + RING_WORDS];
};

/* One number for all numbers so far: each counts, and so does its place. */
static uint64_t folded(uint64_t fold, uint64_t number)
{
    return (fold ^ number) * UINT64_C(0x100000001b3);
}

/*
 * The card of each list of so many members, from one sequence on each with its
 * next; as a number.
 */
static uint64_t lists(const struct library *library, struct lent *lent)
{
    static const size_t lengths[] = {0, 1, 2, 7, DULIMOVEN_MOST_LIST};
    uint32_t *list = lent->list + lent->begin;
    uint64_t *card = lent->card + lent->begin;
    uint64_t fold = 0;
    size_t i, j, first;
    for (first = 0; first < library->sequences; first++)
        for (i = 0; i < COUNT(lengths); i++) {
            for (j = 0; j < lengths[i]; j++)
                list[j] = (uint32_t)((first + j) % library->sequences);
            fold = folded(fold,
                          dulimoven_list(library->facts, library->sequences,
                                         lent->cards + lent->begin,
                                         library->sequences *
                                             DULIMOVEN_CARD_WORDS,
                                         list, lengths[i], card));
            for (j = 0; j < DULIMOVEN_CARD_WORDS; j++)
                fold = folded(fold, card[j]);
        }
    return fold;
}

/* Why each sequence has no run, and of the next that there is none. */
static uint64_t reasons(const uint32_t *image, const struct library *library,
                        struct lent *lent)
{
    uint32_t *why = lent->why + lent->begin;
    uint64_t fold = 0, sequence, answer;
    size_t i;
    for (sequence = 0; sequence <= library->sequences; sequence++) {
        answer = dulimoven_endless(image, library->words, sequence, why,
                                   library->sequences);
        fold = folded(fold, answer);
        for (i = 0; i < answer && i < library->sequences &&
                    !dulimoven_is_refusal(answer);
             i++)
            fold = folded(fold, why[i]);
    }
    return fold;
}

/* The sum words of the image's first words, however many, in a copy that the
 * thread writes alone. */
static uint64_t seals(const uint32_t *image, const struct library *library,
                      struct lent *lent)
{
    uint32_t *sealed = lent->sealed + lent->begin;
    uint64_t fold = 0;
    size_t length;
    for (length = 0; length <= library->words; length++) {
        memcpy(sealed, image, length * sizeof image[0]);
        fold = folded(fold, dulimoven_seal(sealed, length));
        if (length != 0)
            fold = folded(fold, sealed[length - 1]);
    }
    return fold;
}

/* All answers and all words that the calls write for an image, as a number. */
static uint64_t answers(const uint32_t *image, const struct library *library,
                        struct lent *lent)
{
    uint64_t *cards = lent->cards + lent->begin;
    uint32_t *chain = lent->chain + lent->begin;
    size_t card_words = library->sequences * DULIMOVEN_CARD_WORDS;
    size_t chain_words = library->sequences * DULIMOVEN_LINK_WORDS;
    uint64_t sequence, question, answer, fold;
    size_t i;
    fold = dulimoven_check(image, library->words);
    answer = dulimoven_cards(image, library->words, cards, card_words);
    fold = folded(fold, answer);
    for (i = 0; i < card_words; i++)
        fold = folded(fold, cards[i]);
    fold = folded(fold, lists(library, lent));
    fold = folded(fold, reasons(image, library, lent));
    fold = folded(fold, seals(image, library, lent));
    for (sequence = 0; sequence < library->sequences; sequence++)
        for (question = 0; question <= DULIMOVEN_FIRST_UNTOUCHED; question++) {
            /* the first fact and the last by turns */
            answer = dulimoven_chain(image, library->words, sequence, question,
                                     sequence % 2 * (library->facts - 1), chain,
                                     chain_words);
            fold = folded(fold, answer);
            for (i = 0; i < answer * DULIMOVEN_LINK_WORDS && i < chain_words;
                 i++)
                fold = folded(fold, chain[i]);
        }
    return fold;
}

/* The answers one by one, which all threads must get. */
static uint64_t expected[LIBRARIES];

/* A thread, and how many times it got something else. */
enum { THREADS = 4 };
static struct worker {
    pthread_t thread;
    unsigned shared_differ, own_differ;
    struct lent lent;
} workers[THREADS];

static void *work(void *given)
{
    struct worker *worker = (struct worker *)given;
    struct lent *lent = &worker->lent;
    size_t i;
    for (lent->begin = 0; lent->begin < BEGINS; lent->begin++)
        for (i = 0; i < LIBRARIES; i++) {
            const struct library *library = libraries + i;
            uint32_t *own = lent->image + lent->begin;
            memcpy(own, library->image, sizeof library->image);
            if (answers(library->image, library, lent) != expected[i])
                worker->shared_differ++;
            if (answers(own, library, lent) != expected[i])
                worker->own_differ++;
        }
    return NULL;
}

/* Takes the image under test for a library. */
static void take(struct library *library)
{
    uint64_t accepted = dulimoven_check(area + GUARD, words);
    hold("the library is accepted",
         !dulimoven_is_refusal(accepted) && words <= RING_WORDS);
    memcpy(library->image, area + GUARD, words * sizeof area[0]);
    library->words = words;
    library->facts = dulimoven_facts(accepted);
    library->sequences = dulimoven_sequences(accepted);
}

/* Sequence c is <sequence c + 1> or <step c % 2>; of 200 facts step 0 sets 0
 * and 199, 1 clears 0 and sets 130. Where there is no way out, it is the first
 * of these alone. */
static void build_ring(int way_out)
{
    uint32_t c;
    start();
    put(HEAD(200, 2, RING));
    put(STEP(0));
    put(SETS(0));
    put(SETS(199));
    put(STEP(1));
    put(SETS(130));
    put(CLEARS(0));
    for (c = 0; c < RING; c++) {
        put(SEQUENCE(c));
        put(ALTERNATIVE);
        put(CALL((c + 1) % RING));
        if (!way_out)
            continue;
        put(ALTERNATIVE);
        put(DO(c % 2));
    }
    put_sum();
}

int main(void)
{
    size_t i;
    build(library_l, L_SUM);
    take(libraries);
    build_ring(1);
    take(libraries + 1);
    build_ring(0);
    take(libraries + 2);
    hold("the ring without a way out has no run",
         dulimoven_endless(libraries[2].image, libraries[2].words, 0, NULL,
                           0) == REFUSED(17, 0));
    for (i = 0; i < LIBRARIES; i++)
        expected[i] = answers(libraries[i].image, libraries + i,
                              &workers[0].lent);
    for (i = 0; i < THREADS; i++)
        if (pthread_create(&workers[i].thread, NULL, work, workers + i) != 0) {
            printf("threads_test: no thread\n");
            return 1;
        }
    for (i = 0; i < THREADS; i++) {
        pthread_join(workers[i].thread, NULL);
        hold("an image that all threads read", workers[i].shared_differ == 0);
        hold("an image of its own", workers[i].own_differ == 0);
    }
    printf("threads_test: %u checks, %u failed\n", ran, failed);
    return failed == 0 ? 0 : 1;
}
