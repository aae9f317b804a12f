/*
 * How much of the stack each call takes, against the header's numbers. A call
 * is made in a thread whose stack is painted below the frame that calls it;
 * afterwards the lowest word without the paint says how deep the call went.
 * C11 and C++17. Prints what each call takes at most and may take, then a
 * count; the exit status is 0 where none takes more.
 *
 * The calls keep their tables on the stack, of a fixed size each, and none of
 * their functions calls itself; so what they take depends on which functions an
 * image and a question lead to. Tried are L, L with each word in each kind, a
 * step that clears what it sets, the largest libraries that there can be, and
 * all questions; lists of none, one and the most sequences, and each refusal of
 * a list; why sequences have no run, where they do and where they do not. Each
 * of these images is sealed too, and so are 8,192 words and one more.
 */
#define _POSIX_C_SOURCE 200809L
#include "harness.h"
#include "samples.h"

#include <pthread.h>
#include <stdlib.h>

/* What is measured: a call, for a chain with its question and its fact, for a
 * list with its length and the sequences that there are, for why there is no
 * run with the sequence. */
enum call {
    CHECK_CALL,
    CARDS_CALL,
    CHAIN_CALL,
    LIST_CALL,
    ENDLESS_CALL,
    SEAL_CALL,
    CALLS
};
static enum call measured;
static uint64_t question;
static uint64_t fact;
static uint64_t sequences;
static size_t members;
static uint64_t asked;

static const struct {
    const char *name;
    size_t allowed;
} calls[CALLS] = {{"dulimoven_check", DULIMOVEN_STACK_CHECK},
                  {"dulimoven_cards", DULIMOVEN_STACK_CARDS},
                  {"dulimoven_chain", DULIMOVEN_STACK_CHAIN},
                  {"dulimoven_list", DULIMOVEN_STACK_LIST},
                  {"dulimoven_endless", DULIMOVEN_STACK_ENDLESS},
                  {"dulimoven_seal", DULIMOVEN_STACK_SEAL}};
static size_t most_taken[CALLS];

/* The library clears words by memset. With AddressSanitizer that is its own,
 * and takes some 2 KiB of the stack, which are no part of a call's number. */
#ifdef __SANITIZE_ADDRESS__
enum { MEMSET_TAKES = 4096 };
#else
enum { MEMSET_TAKES = 0 };
#endif

/* Calls on the image under test, a list on the cards that were filled last. A
 * chain is asked about sequence 0. */
static void make_call(void)
{
    static uint64_t cards[DULIMOVEN_MOST_CARD_WORDS];
    static uint32_t chain[DULIMOVEN_MOST_CHAIN_WORDS];
    static uint32_t list[DULIMOVEN_MOST_LIST + 1];
    static uint64_t card[DULIMOVEN_CARD_WORDS];
    static uint32_t why[DULIMOVEN_MOST_ENDLESS_WORDS];
    const uint32_t *image = area + GUARD;
    if (measured == CHECK_CALL)
        dulimoven_check(image, words);
    else if (measured == CARDS_CALL)
        dulimoven_cards(image, words, cards, COUNT(cards));
    else if (measured == LIST_CALL)
        dulimoven_list(MOST_F, sequences, cards, COUNT(cards), list, members,
                       card);
    else if (measured == ENDLESS_CALL)
        dulimoven_endless(image, words, asked, why, COUNT(why));
    else if (measured == SEAL_CALL)
        dulimoven_seal(area + GUARD, words);
    else
        dulimoven_chain(image, words, 0, question, fact, chain, COUNT(chain));
}

/*
 * The stack of the thread that calls, in bytes: four times what any call may
 * take, so that a call that takes too much is measured, and not ended. The
 * bytes right below the calling frame are left as they are, since the frame's
 * own may be among them, and count as taken.
 */
enum { STACK = 4 * DULIMOVEN_STACK_CARDS, ALIGNMENT = 4096, FRAME = 128 };
static const uint64_t paint = UINT64_C(0x5afe5afe5afe5afe);
static void *stack;

/* Paints what is below this frame, makes the call, and looks for the paint. */
static void *measure(void *unused)
{
    static volatile uint64_t *at, *end;
    size_t taken;
    end = (volatile uint64_t *)__builtin_frame_address(0);
    end -= FRAME / sizeof *end;
    for (at = (uint64_t *)stack; at < end; at++)
        *at = paint;
    make_call();
    at = (uint64_t *)stack;
    while (at < end && *at == paint)
        at++;
    taken = (size_t)(end - at) * sizeof *end + FRAME;
    if (taken > most_taken[measured])
        most_taken[measured] = taken;
    return unused;
}

static void measure_in_thread(void)
{
    pthread_attr_t attributes;
    pthread_t thread;
    if (pthread_attr_init(&attributes) != 0 ||
        pthread_attr_setstack(&attributes, stack, STACK) != 0 ||
        pthread_create(&thread, &attributes, measure, NULL) != 0 ||
        pthread_join(thread, NULL) != 0) {
        printf("stack_test: no thread\n");
        exit(1);
    }
    pthread_attr_destroy(&attributes);
}

/* All calls on the image under test. */
static void measure_calls(void)
{
    measured = CHECK_CALL;
    measure_in_thread();
    measured = CARDS_CALL;
    measure_in_thread();
    measured = CHAIN_CALL;
    for (question = 0; question <= DULIMOVEN_FIRST_UNTOUCHED; question++)
        for (fact = 0; fact < MOST_F; fact += MOST_F - 1)
            measure_in_thread();
    measured = LIST_CALL;
    sequences = MOST_C;
    for (members = 0; members <= 1; members++)
        measure_in_thread();
    measured = ENDLESS_CALL;
    for (asked = 0; asked <= 3; asked++)
        measure_in_thread();
    measured = SEAL_CALL;
    measure_in_thread();
}

/* The longest list, and refusals 14, 15 and 8. */
static void long_lists(void)
{
    static const uint64_t counts[] = {MOST_C, 0, MOST_C + 1};
    size_t i;
    measured = LIST_CALL;
    for (i = 0; i < COUNT(counts); i++)
        for (members = DULIMOVEN_MOST_LIST; members <= DULIMOVEN_MOST_LIST + 1;
             members++) {
            sequences = counts[i];
            measure_in_thread();
        }
}

/* The longest lists of sequences without a run: a ring of 256, and one in which
 * each calls the next 29, which is nearly 8,192 words. */
static void long_reasons(void)
{
    enum { NEXT = 29 };
    static uint32_t all[MOST_C];
    uint32_t c, i, calls;
    for (calls = 1; calls <= NEXT; calls += NEXT - 1) {
        start();
        put(HEAD(1, 0, MOST_C));
        for (c = 0; c < MOST_C; c++) {
            put(SEQUENCE(c));
            put(ALTERNATIVE);
            for (i = 1; i <= calls; i++)
                put(CALL((c + i) % MOST_C));
        }
        put_sum();
        hold("a list of 256",
             dulimoven_endless(area + GUARD, words, 0, all, MOST_C) == MOST_C);
        measure_calls();
    }
}

/* A full image that was never sealed, and its refusal with a word more; of few
 * words those whose count leaves 0 to 3 beside fours. */
static void seals(void)
{
    static const size_t lengths[] = {0, 1, 2, 3, 4, 5, 6, FULL, FULL + 1};
    size_t i;
    measured = SEAL_CALL;
    for (i = 0; i < COUNT(lengths); i++) {
        start();
        fill(UINT32_MAX, lengths[i]);
        measure_in_thread();
    }
}

/*
 * L, and L with each word but the sum word in each kind; and refusal 13, which
 * is not among those.
 */
static void small(void)
{
    size_t i;
    uint32_t kind;
    build(library_l, L_SUM);
    measure_calls();
    for (i = 0; i < 19; i++)
        for (kind = 0; kind < 16; kind++) {
            uint32_t given[19];
            memcpy(given, library_l, sizeof given);
            given[i] = WORD(kind, given[i] & 0xfffffffu);
            build(given, 19);
            measure_calls();
        }
    BUILD(HEAD(1, 1, 1), STEP(0), SETS(0), CLEARS(0), SEQUENCE(0));
    measure_calls();
}

/*
 * The largest library: each step needs a fact, sets the next and clears the one
 * after that, and each sequence has an alternative with the sequence `ahead` of
 * it and one with nine steps and a check; the last goes on as far as there is
 * room.
 */
static void large(uint32_t ahead)
{
    uint32_t a, c, i;
    start();
    put(HEAD(MOST_F, MOST_A, MOST_C));
    for (a = 0; a < MOST_A; a++) {
        put(STEP(a));
        put(NEEDS(a % MOST_F));
        put(SETS((a + 1) % MOST_F));
        put(CLEARS((a + 2) % MOST_F));
    }
    for (c = 0; c < MOST_C; c++) {
        put(SEQUENCE(c));
        put(ALTERNATIVE);
        put(DO(c));
        put(CALL((c + ahead) % MOST_C));
        put(ALTERNATIVE);
        for (i = 0; i < 9; i++)
            put(DO((10 * c + i) % MOST_A));
        put(CHECK(c % MOST_F));
    }
    while (words < FULL - 1)
        put(DO(words % MOST_A));
    put_sum();
    hold("the large library is full and is accepted",
         words == FULL && dulimoven_check(area + GUARD, words) ==
                              ACCEPTED(MOST_F, MOST_A, MOST_C));
    measure_calls();
}

int main(void)
{
    int call;
    if (posix_memalign(&stack, ALIGNMENT, STACK) != 0) {
        printf("stack_test: no memory\n");
        return 1;
    }
    small();
    large(0);
    large(1);
    large(255);
    long_lists();
    long_reasons();
    seals();
    for (call = 0; call < CALLS; call++) {
        printf("%s takes %zu bytes of stack, and may take %zu\n",
               calls[call].name, most_taken[call], calls[call].allowed);
        /* the list call and the seal call may take so little that the bytes
           which are left as they are hide it */
        hold(calls[call].name,
             (most_taken[call] > FRAME || call == LIST_CALL ||
              call == SEAL_CALL) &&
                 most_taken[call] <= calls[call].allowed + MEMSET_TAKES);
    }
    free(stack);
    printf("stack_test: %u checks, %u failed\n", ran, failed);
    return failed == 0 ? 0 : 1;
}
