/*
 * dulimoven_seal from the C side: sum words worked out by hand, of two words,
 * of the samples, of words that no library has and of full images; lengths
 * below, at and above both bounds; that the last word does not count, whatever
 * it was; and that every other word, and each word beside the lent ones, is as
 * it was. Random words, sealed, are never answered 2 by the check, and sealed
 * again they stay. C11 and C++17. Prints a line for each answer that differs,
 * and for the first word that does, then a count; the exit status is 0 where
 * nothing differs.
 *
 * Tried: a plain function stood in the call's place, with one break at a time,
 * and each of these 28 was reported. Of the word: nothing written, the last
 * word counted too, the word before it or the head left out, the words added up
 * without running sums, b one word late, 1,023 times the kind, the kind left
 * out, a payload of 27 bits, kind 14, the old kind kept, a right payload left
 * alone whatever its kind, 1 added to the old payload. Of the place: the first,
 * the word before the last, the word after it too, all others cleared. Of the
 * length: one word sealed, two refused, 8,192 refused, 8,193 sealed, 8,193
 * sealed in the first 8,192, the length taken for bytes. Of the answer: 1, the
 * word, refusal 2 for 1, a position. Of a refusal: a word written.
 */
#include "borders.h"
#include "harness.h"
#include "pulses.h"
#include "samples.h"
#include "setup.h"
#include "ten.h"

/*
 * Seals the image under test, and compares the answer and every word: where a
 * word is expected it stands in the last place, and all others are as they
 * were, those beside the image too.
 */
static void seal(const char *name, uint64_t expected, const uint32_t *word)
{
    uint64_t answer;
    size_t i;
    keep();
    if (word != NULL)
        copy[GUARD + words - 1] = *word;
    answer = dulimoven_seal(area + GUARD, words);
    ran++;
    if (answer != expected) {
        failed++;
        printf("%s, %u words: expected %" PRIx64 ", answered %" PRIx64 "\n",
               name, (unsigned)words, expected, answer);
    }
    for (i = 0; i < AREA; i++) {
        if (area[i] == copy[i])
            continue;
        failed++;
        printf("%s, word %d of %u: expected %" PRIx32 ", found %" PRIx32 "\n",
               name, (int)i - GUARD, (unsigned)words, copy[i], area[i]);
        return;
    }
}

/* Refusal 1 at 0, and no word is written. */
static void refuses(const char *name)
{
    seal(name, REFUSED(1, 0), NULL);
}

/*
 * The words given get this sum word, whatever stood in its place: nothing, all
 * bits, the word itself, its neighbours, and its payload in another kind.
 */
static void sealed(const char *name, const uint32_t *given, size_t count,
                   uint32_t word)
{
    const uint32_t last[] = {0,        UINT32_MAX, word,
                             word + 1, word - 1,   word ^ WORD(1, 0)};
    size_t i;
    for (i = 0; i < COUNT(last); i++) {
        start();
        put_all(given, count);
        put(last[i]);
        seal(name, 0, &word);
    }
}

#define SEALED(name, word, ...)                        \
    do {                                               \
        static const uint32_t given[] = {__VA_ARGS__}; \
        sealed(name, given, COUNT(given), word);       \
    } while (0)

/*
 * Few words. The head of 1 counts 1 + 1024 = 0x401, and there is one running
 * sum. All bits count 0xfffffff + 15 * 1024 = 0x10003bff: after a head of 1 the
 * running sums are 401, 10004000, 20007bff and 3000b7fe, which add up to 401,
 * 10004401, 3000c000 and 600177fe, and of these 28 bits count. A word of 0
 * counts 0, and leaves the running sum as it is: twice 0x401 is 0x802.
 */
static void few_words(void)
{
    SEALED("a head", 0xf0000401, 0x10000001);
    SEALED("no fact", 0xf0000400, 0x10000000);
    SEALED("0", 0xf0000000, 0);
    SEALED("all bits", 0xf0003bff, 0xffffffff);
    SEALED("a head and 0", 0xf0000802, 0x10000001, 0);
    SEALED("0 and a head", 0xf0000401, 0, 0x10000001);
    SEALED("one of all bits", 0xf0004401, 0x10000001, 0xffffffff);
    SEALED("two of all bits", 0xf000c000, 0x10000001, 0xffffffff, 0xffffffff);
    SEALED("three of all bits", 0xf00177fe, 0x10000001, 0xffffffff, 0xffffffff,
           0xffffffff);
}

/*
 * The samples, with the sum words that samples.h, ten.h and borders.h work out.
 * That of setup: taken 36 times for the head, 35 times for the next word and so
 * on to once for the last, the payloads after the head's add up to 485, and the
 * kinds to 3298: 36 * 0x200803 + 485 + 1024 * 3298 = 0x4b4aa51. Where step 2
 * clears fact 3 in place of 0 the running sum is 3 more from word 8 on, for 28
 * words: 84 more, which is 0x54. L with 40000003 at 7 has 2 more for 12 words.
 */
static void samples(void)
{
    static const uint32_t setup[] = {SETUP};
    static const uint32_t refused[] = {REFUSED_SETUP};
    sealed("L", library_l, L_SUM, 0xf1d65e90);
    sealed("no sequence", no_sequence, 1, no_sequence[1]);
    sealed("no fact", no_fact, 1, no_fact[1]);
    sealed("setup", setup, COUNT(setup), 0xf4b4aa51);
    sealed("refused", refused, COUNT(refused), 0xf4b4aaa5);
    sealed("ten sequences", ten, TEN_SUM, 0xfe2be25b);
    sealed("borders", borders, BORDERS_SUM, 0xf4aa1b5d);
    hold("borders, sealed, is accepted",
         dulimoven_check(area + GUARD, words) == ACCEPTED(256, 2, BORDERS));

    build(library_l, L_SUM);
    *word_at(7) = 0x40000003;
    hold("L with another word gets 2",
         dulimoven_check(area + GUARD, words) == REFUSED(2, L_SUM));
    hold("it is sealed", dulimoven_seal(area + GUARD, words) == 0);
    hold("by hand", *word_at(L_SUM) == 0xf1d65ea8);
    hold("and judged as any other",
         dulimoven_check(area + GUARD, words) == REFUSED(5, 7));
}

/*
 * L whose entries at 14 and 15 changed places: the running sum after 14 is
 * 1,023 less, so that the payload is 0x1d65e90 - 0x3ff. Sealed, it is a library
 * of its own.
 */
static void exchanged(void)
{
    static const uint32_t word = 0xf1d65a91;
    build(library_l, L_SUM);
    *word_at(14) = library_l[15];
    *word_at(15) = library_l[14];
    hold("entries that changed places get 2",
         dulimoven_check(area + GUARD, words) == REFUSED(2, L_SUM));
    seal("entries that changed places", 0, &word);
    hold("sealed, they are accepted",
         dulimoven_check(area + GUARD, words) == ACCEPTED(3, 3, 3));
}

/*
 * Images of so many words of all bits. Each counts 0x3bff, as far as 28 bits
 * go. Before the last of 8,192 there are 8,191, which are taken 8191 * 8192 / 2
 * = 33550336 times: 515299610624, of which 28 bits are 171970560 = 0xa401000.
 * Of 8,191 words one less is taken each time, 8,191 in all: 125805569 less, and
 * 46164991 is 0x2c06bff. 8,193 words are too many, and one or none too few.
 */
static void lengths(void)
{
    static const uint32_t full = 0xfa401000;
    static const uint32_t one_less = 0xf2c06bff;
    size_t length;
    start();
    fill(UINT32_MAX, FULL - 1);
    seal("8,191 words", 0, &one_less);
    start();
    fill(UINT32_MAX, FULL);
    seal("8,192 words", 0, &full);
    start();
    fill(UINT32_MAX, FULL + 1);
    refuses("8,193 words");
    for (length = 0; length < LEAST_WORDS; length++) {
        start();
        fill(UINT32_MAX, length);
        refuses("too few words");
    }
    hold("no words at all", dulimoven_seal(NULL, 0) == REFUSED(1, 0));
    /* none of these is a length of an image, and no word is looked at */
    start();
    fill(UINT32_MAX, FULL);
    keep();
    hold("2^32 + 2 words",
         dulimoven_seal(area + GUARD, (size_t)UINT64_C(0x100000002)) ==
             REFUSED(1, 0));
    hold("as many words as there are numbers",
         dulimoven_seal(area + GUARD, SIZE_MAX) == REFUSED(1, 0));
    kept("far too many words");
}

/*
 * What the check answers to a sealed image: what it answers to the words with
 * their right sum word, which is never 2. Sealed again, the image stays; and
 * with the right sum word it stays from the first.
 */
static void judged(const char *name)
{
    uint32_t right = sum_word_after(area + GUARD, words - 1);
    uint64_t answer;
    seal(name, 0, &right);
    answer = dulimoven_check(area + GUARD, words);
    hold(name, dulimoven_refusal_of(answer) != 2);
    seal(name, 0, &right);
}

/* A random number, the same ones each time. */
static uint64_t random_bits(void)
{
    static uint64_t state = UINT64_C(0x2545f4914f6cdd1d);
    state ^= state << 13;
    state ^= state >> 7;
    state ^= state << 17;
    return state;
}

/* Random words, and words that a library may have, 2 to 8,192 of them. */
static void random_words(void)
{
    unsigned n, accepted = 0;
    for (n = 0; n < 3000; n++) {
        size_t length = n % 100 == 0 ? FULL - random_bits() % 4
                                     : LEAST_WORDS + random_bits() % 60;
        start();
        if (n % 2 == 0)
            put(HEAD(1 + n % 4, 0, n % 3));
        while (words < length)
            put(n % 4 < 2 ? (uint32_t)random_bits()
                          : WORD(random_bits() % 16, random_bits() % 4));
        judged("random words");
    }
    /* an empty library and its neighbours, each with a random last word */
    for (n = 0; n < 1000; n++) {
        start();
        put(HEAD(n, 0, 0));
        put((uint32_t)random_bits());
        judged("a head and a random word");
        accepted += dulimoven_check(area + GUARD, words) == ACCEPTED(n, 0, 0);
    }
    /* F is the low nine bits: 1 to 256 are accepted, and 512 to 999 are read
       with A = 1, which gets 7 where F is right */
    hold("heads of 1 to 256 facts are accepted", accepted == 256);
}

/* Images with a right sum word stay as they are, refused ones too. */
static void stays(void)
{
    static const uint32_t skip[] = {SKIP};
    static const uint32_t refused[] = {REFUSED_SETUP};
    size_t i;
    build(library_l, L_SUM);
    seal("L stays", 0, library_l + L_SUM);
    build(skip, COUNT(skip));
    judged("skip stays");
    build(refused, COUNT(refused));
    judged("refused stays");
    BUILD(TEN_WORDS);
    seal("ten sequences stay", 0, ten + TEN_SUM);
    build_borders();
    seal("borders stay", 0, borders + BORDERS_SUM);
    for (i = 0; i < COUNT(pulses); i++) {
        build(pulses[i].words, pulses[i].count);
        judged(pulses[i].why);
    }
}

int main(void)
{
    few_words();
    samples();
    exchanged();
    lengths();
    stays();
    random_words();
    printf("seal_test: %u checks, %u failed\n", ran, failed);
    return failed == 0 ? 0 : 1;
}
