/*
 * Texts and images over the modules of tools/: libraries made from a seed, of
 * all kinds and sizes up to 8,192 words, and texts that are damaged.
 *
 * Each library is listed, and the listing is read and assembled: that must give
 * the image again, word for word, and the listing of that the same text, in
 * lines of at most 80 columns. Then the test writes a text of its own from the
 * words: other names, notes, labels, claims and comments, facts, steps and
 * sequences in turns, the facts of a step in any order on any number of lines.
 * It numbers all as the words do, so that its image must be the same, and its
 * listing must give it once more.
 *
 * A text that is cut, has bytes changed, or is random bytes or random words of
 * the form, must be read to its end with a message, or be accepted; nothing is
 * said of which. Each text stands in memory of its own length, so that the
 * sanitizers see what is read past its end.
 *
 * C11, as tools/ is. Prints a line for each of the first dozen failures, and
 * last the counts; the exit status is 0 where nothing failed. The output is
 * fixed by the seed.
 */
#define _POSIX_C_SOURCE 200809L
#include "lister.h"
#include "reader.h"
#include "seeded_words.h"
#include "text.h"

#include <stdio.h>
#include <stdlib.h>
#include <string.h>

/* With the sanitizers, which are slow, one in so many is tried. */
#ifdef __SANITIZE_ADDRESS__
enum { SHARE = 4 };
#else
enum { SHARE = 1 };
#endif

static uint64_t state = UINT64_C(0x9e3779b97f4a7c15);
static unsigned libraries, filled, shuffled, damaged, accepted, failed;
static size_t longest;

static uint32_t below(uint32_t bound)
{
    return seeded_below(&state, bound);
}

static void hold(int right, const char *name, const char *what)
{
    enum { MOST_PRINTED = 12 };
    if (right)
        return;
    failed++;
    if (failed <= MOST_PRINTED)
        printf("%s, library %u, text %u: %s\n", name, libraries, damaged, what);
}

/* ---- the library under trial */

static struct image given, made;
static struct library library;

/* A source of these bytes, in memory of their length. */
static struct source source_of(const char *bytes, size_t length)
{
    struct source source = {0};
    source.name = "text";
    source.bytes = (char *)malloc(length + 1);
    if (source.bytes == NULL)
        exit(1);
    memcpy(source.bytes, bytes, length);
    source.bytes[length] = 0;
    source.length = length;
    return source;
}

/* The canonical text of a library. */
static char *listing(const struct library *listed)
{
    char *bytes = NULL;
    size_t length = 0;
    FILE *file = open_memstream(&bytes, &length);
    if (file == NULL)
        exit(1);
    print_text(file, listed);
    fclose(file);
    return bytes;
}

/* The longest line of a text. */
static size_t widest(const char *text)
{
    size_t most = 0, length;
    while (*text != 0) {
        length = strcspn(text, "\n");
        most = length > most ? length : most;
        text += length + (text[length] != 0);
    }
    return most;
}

/*
 * Reads and assembles a text, which must give the image under trial. Answers
 * its listing.
 */
static char *assembled(const char *name, const char *text)
{
    struct source source = source_of(text, strlen(text));
    char *again = NULL;
    int fine = read_text(&source, &library) &&
               write_image(&source, &library, &made);
    hold(fine && source.errors == 0, name, "the text is refused");
    if (fine) {
        hold(made.length == given.length &&
                 memcmp(made.words, given.words,
                        given.length * sizeof given.words[0]) == 0,
             name, "the image is another");
        again = listing(&library);
    }
    library_free(&library);
    source_free(&source);
    return again;
}

static void try_listing(const char *name)
{
    char *text, *again;
    hold(library_of_image(&given, &library), name, "no library of the image");
    text = listing(&library);
    library_free(&library);
    hold(widest(text) <= 80, name, "a line of the listing is too long");
    again = assembled(name, text);
    hold(again != NULL && strcmp(text, again) == 0, name,
         "the listing of the listing is another");
    free(again);
    free(text);
}

/* ---- a text of the test's own */

static struct text own;

/* Space and comments, of which some do without. */
static void put_space(int needed)
{
    static const char *const spaces[] = {
        " ", "\n", "\t", "\r\n", "  ", " // a comment; { } \"\n",
        "/* one, fact f; */", "/**/", "/* of\ntwo lines **/", "// *" "/ /* \n"};
    uint32_t count = needed + below(2);
    for (; count > 0; count--)
        text_put(&own, below(3) > 0
                           ? " "
                           : spaces[below(sizeof spaces / sizeof spaces[0])]);
}

static void put_note(void)
{
    static const char *const notes[] = {
        "\"\"", "\"a note\"", "\"// no comment /* ; { }\"", "\"<&>'\\\"",
        "\"\xc3\xa4 \xe2\x82\xac \xf0\x9f\x99\x82\""};
    put_space(0);
    if (below(3) == 0)
        text_put(&own, notes[below(sizeof notes / sizeof notes[0])]);
    put_space(0);
}

/* A name for what has a number; what is named is told by its letter. */
static void put_name(char letter, uint32_t number)
{
    static const char *const ends[] = {"", "_", "_needs", "x", "__0"};
    text_format(&own, "%s%c%u%s", number % 3 == 0 ? "Fact_" : "", letter,
                number, ends[number % 5]);
}

static const char *verb(uint32_t kind)
{
    return kind == DULIMOVEN_KIND_NEEDS  ? "needs"
           : kind == DULIMOVEN_KIND_SETS ? "sets"
                                         : "clears";
}

static void put_word(const char *word)
{
    put_space(0);
    text_put(&own, word);
    put_space(0);
}

static void put_fact(uint32_t number)
{
    text_put(&own, "fact");
    put_space(1);
    put_name('f', number);
    put_note();
    put_word(";");
}

/* A step whose words are from `at` on: its facts in any order, and those of the
 * same verb behind a comma or on a line of their own. Answers what is after
 * it. */
static size_t put_step(size_t at)
{
    uint32_t uses[3 * DULIMOVEN_MOST_FACTS];
    uint32_t count = 0, i, last = 0;
    text_put(&own, "step");
    put_space(1);
    put_name('s', word_payload(given.words[at]));
    put_note();
    put_word("{");
    for (at++; word_kind(given.words[at]) <= DULIMOVEN_KIND_CLEARS; at++) {
        uint32_t place = below(++count);
        uses[count - 1] = uses[place];
        uses[place] = given.words[at];
    }
    for (i = 0; i < count; i++, last = word_kind(uses[i - 1])) {
        if (word_kind(uses[i]) == last && below(2) > 0) {
            put_word(",");
        } else {
            if (i > 0)
                put_word(";");
            text_put(&own, verb(word_kind(uses[i])));
            put_space(1);
        }
        put_name('f', word_payload(uses[i]));
    }
    put_word(count > 0 ? ";}" : "}");
    return at;
}

static void put_claim(void)
{
    static const char *const claims[] = {
        "always needs", "always sets",  "always clears", "always stands",
        "never needs",  "never\tsets", "never clears"};
    uint32_t facts = dulimoven_facts(word_payload(given.words[0]));
    text_put(&own, claims[below(sizeof claims / sizeof claims[0])]);
    put_space(1);
    put_name('f', below(facts));
    while (below(3) == 0) {
        put_word(",");
        put_name('f', below(facts));
    }
    put_word(";");
}

static void put_entry(uint32_t word)
{
    if (word_kind(word) == DULIMOVEN_KIND_CHECK) {
        text_put(&own, "check");
        put_space(1);
    }
    put_name(word_kind(word) == DULIMOVEN_KIND_CHECK        ? 'f'
             : word_kind(word) == DULIMOVEN_KIND_STEP_ENTRY ? 's'
                                                            : 'q',
             word_payload(word));
    put_word(";");
}

/* A sequence whose words are from `at` on, claims among its alternatives. */
static size_t put_sequence(size_t at)
{
    uint32_t label = 0;
    text_put(&own, "sequence");
    put_space(1);
    put_name('q', word_payload(given.words[at]));
    put_note();
    put_word("{");
    for (at++; word_kind(given.words[at]) == DULIMOVEN_KIND_ALTERNATIVE;
         label++) {
        if (below(4) == 0)
            put_claim();
        text_put(&own, "alternative");
        /* a label may be the name of something else */
        if (below(2) == 0) {
            put_space(1);
            put_name("fsqa"[label % 4], label);
        }
        put_note();
        put_word("{");
        for (at++; at + 1 < given.length &&
                   word_kind(given.words[at]) >= DULIMOVEN_KIND_STEP_ENTRY;
             at++)
            put_entry(given.words[at]);
        put_word("}");
    }
    if (below(4) == 0)
        put_claim();
    put_word("}");
    return at;
}

/* Facts, steps and sequences in turns, each kind in its order. */
static void write_own(void)
{
    uint32_t head = word_payload(given.words[0]), fact = 0;
    size_t step = 1, sequence = 1;
    int library_line = (int)below(2);
    while (sequence + 1 < given.length &&
           word_kind(given.words[sequence]) != DULIMOVEN_KIND_SEQUENCE)
        sequence++;
    text_clear(&own);
    if (below(4) == 0)
        text_put(&own, "\xef\xbb\xbf");
    put_space(0);
    while (library_line || fact < dulimoven_facts(head) ||
           word_kind(given.words[step]) == DULIMOVEN_KIND_STEP ||
           sequence + 1 < given.length) {
        uint32_t turn = below(16);
        if (turn < 8 && fact < dulimoven_facts(head))
            put_fact(fact++);
        else if (turn < 12 &&
                 word_kind(given.words[step]) == DULIMOVEN_KIND_STEP)
            step = put_step(step);
        else if (turn < 15 && sequence + 1 < given.length)
            sequence = put_sequence(sequence);
        else if (turn == 15 && library_line) {
            text_put(&own, "library q0");
            put_note();
            put_word(";");
            library_line = 0;
        }
    }
}

static void try_own(const char *name)
{
    char *text, *again;
    shuffled++;
    write_own();
    text = assembled(name, text_string(&own));
    if (text == NULL)
        return;
    again = assembled(name, text);
    hold(again != NULL && strcmp(text, again) == 0, name,
         "the listing of the own text's listing is another");
    free(again);
    free(text);
}

/* ---- damaged texts */

/* Reads what may be no text: it has a message, or is accepted. */
static void try_bytes(const char *name, const char *bytes, size_t length)
{
    struct source source = source_of(bytes, length);
    int fine;
    damaged++;
    fine = read_text(&source, &library);
    hold(fine == (source.errors == 0), name, "refused without a message");
    if (fine) {
        fine = write_image(&source, &library, &made);
        hold(fine == (source.errors == 0), name,
             "not assembled, and without a message");
    }
    if (fine) {
        char *text = listing(&library);
        accepted++;
        given = made;
        library_free(&library);
        free(assembled(name, text));
        free(text);
    } else {
        library_free(&library);
    }
    source_free(&source);
}

static void try_cuts(const char *text)
{
    size_t length = strlen(text), cut;
    for (cut = 0; cut <= length; cut += SHARE)
        try_bytes("a cut text", text, cut);
}

/* Changes a byte, leaves one out, doubles one or exchanges two. */
static size_t change(char *bytes, size_t length)
{
    static const char likely[] = "{};,\"/*\n\r\t \\\x01\x7f\x80\xc3\xef\xffq0";
    size_t at = below((uint32_t)length), other = below((uint32_t)length);
    char byte = bytes[at];
    switch (below(5)) {
    case 0:
        bytes[at] = (char)(1 + below(255));
        return length;
    case 1:
        bytes[at] = likely[below(sizeof likely - 1)];
        return length;
    case 2:
        memmove(bytes + at, bytes + at + 1, length - at - 1);
        return length - 1;
    case 3:
        memmove(bytes + at + 1, bytes + at, length - at);
        return length + 1;
    default:
        bytes[at] = bytes[other];
        bytes[other] = byte;
        return length;
    }
}

static void try_changes(const char *text, unsigned times)
{
    size_t length = strlen(text), now;
    enum { CHANGES = 4 };
    char *bytes = (char *)malloc(length + CHANGES + 1);
    uint32_t changes;
    if (bytes == NULL)
        exit(1);
    for (; times > 0; times--) {
        memcpy(bytes, text, length + 1);
        now = length;
        for (changes = 1 + below(CHANGES); changes > 0 && now > 0; changes--)
            now = change(bytes, now);
        try_bytes("a changed text", bytes, now);
    }
    free(bytes);
}

static void try_random(unsigned times)
{
    static const char *const pieces[] = {
        "library", "fact",   "step",   "sequence", "alternative", "needs",
        "sets",    "clears", "always", "never",    "stands",      "check",
        "{",       "}",      ";",      ",",        "\"",          "\"n\"",
        "//",      "/*",     "*" "/",  "\n",       "a",           "b",
        "c",       "1",      "\xc3",   "fact a;",  "sequence c {",
        "step b { sets a; }"};
    char bytes[400];
    size_t length, i;
    for (; times > 0; times--) {
        length = below(sizeof bytes);
        for (i = 0; i < length; i++)
            bytes[i] = (char)(times % 2 == 0 ? 1 + below(255) : 32 + below(95));
        try_bytes("random bytes", bytes, length);
        text_clear(&own);
        for (length = below(60); length > 0; length--)
            text_format(&own, "%s%s",
                        pieces[below(sizeof pieces / sizeof pieces[0])],
                        below(4) > 0 ? " " : "");
        try_bytes("random words", text_string(&own), own.length);
    }
}

/* A text that has a bit of all, and one with long names and a long line. */
static const char small_text[] =
    "\xef\xbb\xbflibrary x \"n\xc3\xa4\"; // c\r\n"
    "fact a \"the \xe2\x82\xac\"; fact b;\n"
    "step s \"note\" { needs a, b; sets a; clears b; }\n"
    "step t { }\n"
    "/* c */ sequence q \"note\" {\n"
    "    always sets a; never clears a, b; always stands a;\n"
    "    alternative one \"n\" { s; check a; r; q; }\n"
    "    alternative { }\n"
    "}\n"
    "sequence r { alternative { t; } }\n";

/* ---- the libraries */

/* How many of a kind are tried; the larger ones are fewer. */
static unsigned trials(unsigned kind)
{
    return kind == 7 || (kind >= 11 && kind != 15) ? 16 : 220;
}

static void try_library(unsigned kind, int wide, int fill)
{
    const char *name = seeded_kind(kind);
    libraries++;
    given.length = seeded_words(&state, kind, wide, given.words);
    if (fill) {
        /* one in four has as many words as there can be */
        size_t room = DULIMOVEN_MOST_IMAGE_WORDS - given.length;
        size_t more = below(4) == 0 ? room : below((uint32_t)room + 1);
        filled++;
        given.length =
            seeded_fill(&state, given.words, given.length, given.length + more);
    }
    longest = given.length > longest ? given.length : longest;
    hold(!dulimoven_is_refusal(dulimoven_check(given.words, given.length)),
         name, "the image is refused");
    try_listing(name);
    try_own(name);
}

int main(void)
{
    unsigned kind, i;
    if (freopen("/dev/null", "w", stderr) == NULL)
        return 1;
    for (kind = 0; kind < SEEDED_WORDS_KINDS; kind++)
        for (i = 0; i < trials(kind); i += SHARE)
            try_library(kind, i / SHARE % 2 != 0, i / SHARE % 10 == 9);
    try_cuts(small_text);
    try_changes(small_text, 4000 / SHARE);
    for (kind = 0; kind < SEEDED_WORDS_KINDS; kind++) {
        given.length = seeded_words(&state, kind, 0, given.words);
        write_own();
        if (own.length < 1500)
            try_cuts(text_string(&own));
        try_changes(text_string(&own), (own.length < 3000 ? 200 : 20) / SHARE);
    }
    try_random(2000 / SHARE);
    printf("dlm_texts_test: %u libraries, %u of them filled up to %zu words, "
           "%u texts of the test's own, %u damaged texts, of which %u were "
           "accepted, %u failed\n",
           libraries, filled, longest, shuffled, damaged, accepted, failed);
    text_free(&own);
    return failed == 0 ? 0 : 1;
}
