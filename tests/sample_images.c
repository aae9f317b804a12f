/*
 * sample_images FOLDER: writes the sample images to FOLDER, each word as four
 * bytes with the lowest first: those of examples/, which are held to be the
 * same, and those that only the test of the example program uses. C11 and
 * C++17. A change of the format is made in the words' names, and what this
 * program then writes replaces the files of examples/.
 */
#include "borders.h"
#include "harness.h"
#include "samples.h"
#include "setup.h"
#include "ten.h"

static const char *folder;

/* Writes the image under test to a file. */
static void write_image(const char *name)
{
    char path[4096];
    FILE *file;
    size_t i;
    int shift;
    snprintf(path, sizeof path, "%s/%s.image", folder, name);
    file = fopen(path, "wb");
    hold(path, file != NULL);
    if (file == NULL)
        return;
    for (i = 0; i < words; i++)
        for (shift = 0; shift < 32; shift += 8)
            fputc((int)(*word_at(i) >> shift & 0xff), file);
    hold(path, fclose(file) == 0);
}

/* setup, refused and skip: setup.h. */
static void write_setup(void)
{
    BUILD(SETUP);
    write_image("setup");
    BUILD(REFUSED_SETUP);
    write_image("refused");
    BUILD(SKIP);
    write_image("skip");
}

/*
 * poll and pulse. Sequence 0 polls until a device is ready, 1 does so and
 * unlocks, or waits for ever, 2 polls for ever, 3 can raise a line and poll,
 * call itself twice, or do nothing. In pulse, the step that raises the line
 * clears its fact too.
 */
#define POLL DO(0)
#define SEE_READY DO(1)
#define UNLOCK DO(2)
#define RAISE DO(3)
#define POLL_WORDS(...)                                              \
    HEAD(3, 4, 4),                                                   \
        STEP(0), NEEDS(1),                                           \
        STEP(1), NEEDS(1), SETS(0),                                  \
        STEP(2), CLEARS(1), CLEARS(2),                               \
        STEP(3), __VA_ARGS__,                                        \
        SEQUENCE(0), TAKES(POLL, CALL(0)), TAKES(SEE_READY),         \
        SEQUENCE(1), TAKES(CALL(0), UNLOCK), TAKES(CALL(2)),         \
        SEQUENCE(2), TAKES(POLL, CALL(2)),                           \
        SEQUENCE(3), TAKES(RAISE, CALL(0)), TAKES(CALL(3), CALL(3)), \
        ALTERNATIVE

static void write_poll(void)
{
    BUILD(POLL_WORDS(SETS(2)));
    write_image("poll");
    BUILD(POLL_WORDS(SETS(2), CLEARS(2)));
    write_image("pulse");
}

/*
 * calls. Facts: 0 armed, 1 locked, 2 logged. Sequences that are called twice,
 * that never touch a fact, and that must leave another's touch as it is.
 */
#define ARM DO(0)
#define DISARM DO(1)
#define LOCK DO(2)
#define LOG DO(3)
#define WAIT DO(4)

static void write_calls(void)
{
    BUILD(HEAD(3, 5, 14),
          STEP(0), SETS(0),
          STEP(1), CLEARS(0),
          STEP(2), NEEDS(0), SETS(1),
          STEP(3), SETS(2),
          STEP(4),
          SEQUENCE(0), TAKES(ARM), TAKES(WAIT),
          SEQUENCE(1), TAKES(CALL(0), CALL(0)),
          SEQUENCE(2), TAKES(LOG),
          SEQUENCE(3), TAKES(CALL(1), CALL(2), CALL(0)),
          SEQUENCE(4), TAKES(CALL(5), CALL(1)),
          SEQUENCE(5), TAKES(DISARM), TAKES(ARM),
          SEQUENCE(6), TAKES(CALL(0), ARM, LOCK), TAKES(LOCK),
          SEQUENCE(7), TAKES(DISARM),
          SEQUENCE(8), TAKES(CALL(7)), TAKES(LOCK),
          SEQUENCE(9), TAKES(ARM), TAKES(DISARM), ALTERNATIVE,
          SEQUENCE(10), TAKES(LOCK), TAKES(ARM), TAKES(WAIT),
          SEQUENCE(11), TAKES(LOCK), ALTERNATIVE,
          SEQUENCE(12), TAKES(CALL(11)),
          SEQUENCE(13), TAKES(WAIT), TAKES(LOCK), TAKES(ARM));
    write_image("calls");
}

/*
 * checks. Facts: 0 armed, 1 locked, which one step sets. Sequences that check
 * one of them or both where they do not set them, and that call those.
 */
#define ARM_AND_LOCK DO(0)
#define REST DO(1)

static void write_checks(void)
{
    BUILD(HEAD(2, 2, 8),
          STEP(0), SETS(0), SETS(1),
          STEP(1),
          SEQUENCE(0), TAKES(ARM_AND_LOCK), TAKES(CHECK(0)),
          SEQUENCE(1), TAKES(ARM_AND_LOCK), TAKES(CHECK(0), CHECK(1)),
          SEQUENCE(2), TAKES(CHECK(0), CALL(0)),
          SEQUENCE(3), TAKES(CHECK(1), REST),
          SEQUENCE(4), TAKES(CALL(3)), TAKES(REST),
          SEQUENCE(5), TAKES(CALL(6), ARM_AND_LOCK),
          SEQUENCE(6), TAKES(CHECK(0)), TAKES(REST),
          SEQUENCE(7), TAKES(CALL(0), CALL(6)));
    write_image("checks");
}

/*
 * many. Sequences 0 to 15 set both facts, sequence 16 sets fact 0, or by an
 * empty alternative they do not. Sequence 17 calls 0 to 16, sequence 18 calls 0
 * to 14.
 */
static void put_calls(uint32_t sequence, uint32_t last)
{
    uint32_t c;
    put(SEQUENCE(sequence));
    put(ALTERNATIVE);
    for (c = 0; c <= last; c++)
        put(CALL(c));
}

static void write_many(void)
{
    static const uint32_t opening[] = {HEAD(2, 2, 19), STEP(0), SETS(0),
                                       SETS(1), STEP(1), SETS(0)};
    uint32_t i;
    start();
    for (i = 0; i < COUNT(opening); i++)
        put(opening[i]);
    for (i = 0; i <= 16; i++) {
        put(SEQUENCE(i));
        put(ALTERNATIVE);
        put(DO(i < 16 ? 0 : 1));
        put(ALTERNATIVE);
    }
    put_calls(17, 16);
    put_calls(18, 14);
    put_sum();
    write_image("many");
}

/*
 * endless: ten.h. waits: 0 waits for 1 or 2, which have no alternative; 3 and 4
 * wait for each other.
 */
static void write_endless(void)
{
    BUILD(TEN_WORDS);
    write_image("endless");
    BUILD(HEAD(1, 0, 5),
          SEQUENCE(0), TAKES(CALL(1)), TAKES(CALL(2)),
          SEQUENCE(1),
          SEQUENCE(2),
          SEQUENCE(3), TAKES(CALL(4)), TAKES(CALL(4), CALL(3)),
          SEQUENCE(4), TAKES(CALL(3)));
    write_image("waits");
}

/*
 * One step that sets the facts whose bits make up fedcba in hexadecimal: a is
 * bits 1 and 3, b bits 4, 5 and 7, c bits 10 and 11, d bits 12, 14 and 15, e
 * bits 17, 18 and 19, f bits 20 to 23.
 */
static void letters_image(void)
{
    BUILD(HEAD(24, 1, 1), STEP(0),
          SETS(1), SETS(3),
          SETS(4), SETS(5), SETS(7),
          SETS(10), SETS(11),
          SETS(12), SETS(14), SETS(15),
          SETS(17), SETS(18), SETS(19),
          SETS(20), SETS(21), SETS(22), SETS(23),
          SEQUENCE(0), ALTERNATIVE, DO(0));
    write_image("letters");
}

/* Twelve sequences, each with an empty alternative. */
static void twelve_image(void)
{
    uint32_t c;
    start();
    put(HEAD(1, 0, 12));
    for (c = 0; c < 12; c++)
        PUT(SEQUENCE(c), ALTERNATIVE);
    put_sum();
    write_image("twelve");
}

/*
 * As many sequences as the printing program has room for, of one step that
 * needs fact 255, sets 0 to 199 and 254 and clears 253: each column has one of
 * the facts 252 to 255, so that it prints 64 digits.
 */
enum { PRINTED = 160 };

static void full_image(void)
{
    uint32_t c, f;
    start();
    PUT(HEAD(256, 1, PRINTED), STEP(0), NEEDS(255));
    for (f = 0; f < 200; f++)
        put(SETS(f));
    PUT(SETS(254), CLEARS(253));
    for (c = 0; c < PRINTED; c++)
        PUT(SEQUENCE(c), ALTERNATIVE, DO(0));
    put_sum();
    write_image("full");
}

/* Sequences without an alternative: as many as it has room for, one more, and
 * as many as there can be. */
static void blank_image(const char *name, uint32_t sequences)
{
    uint32_t c;
    start();
    put(HEAD(1, 0, sequences));
    for (c = 0; c < sequences; c++)
        put(SEQUENCE(c));
    put_sum();
    write_image(name);
}

static void blank_images(void)
{
    blank_image("blank", PRINTED);
    blank_image("more", PRINTED + 1);
    blank_image("most", MOST_C);
}

/*
 * 200 facts, of which sequence c is a check of fact 64 * c + 5; the last one is
 * of fact 197. So a column has one bit, in its first word, its second and so
 * on, and what follows it is zeros.
 */
static void digits_image(void)
{
    uint32_t c;
    start();
    put(HEAD(200, 0, 4));
    for (c = 0; c < 4; c++)
        PUT(SEQUENCE(c), TAKES(CHECK(64 * c + 5)));
    put_sum();
    write_image("digits");
}

int main(int count, char **arguments)
{
    if (count != 2) {
        printf("usage: sample_images FOLDER\n");
        return 1;
    }
    folder = arguments[1];
    build(library_l, L_SUM);
    write_image("l");
    build_borders();
    write_image("borders");
    write_setup();
    write_poll();
    write_calls();
    write_checks();
    write_many();
    write_endless();
    letters_image();
    twelve_image();
    full_image();
    blank_images();
    digits_image();
    return failed == 0 ? 0 : 1;
}
