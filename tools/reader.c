#include "reader.h"

#include "names.h"
#include "token.h"

#include <stdio.h>
#include <stdlib.h>
#include <string.h>

/* The text, the token that is looked at, and the library so far. */
struct reader {
    struct source *source;
    struct library *library;
    struct names *names;
    struct token token;
};

/* ---- tokens */

static void advance(struct reader *reader)
{
    reader->token = token_at(reader->source, token_end(&reader->token));
}

static int at_word(const struct reader *reader, const char *word)
{
    return token_is(reader->source, &reader->token, word);
}

/* Tells what is found in place of what is expected. What is no token was told
 * already. */
static int unexpected(struct reader *reader, const char *expected)
{
    const struct token *token = &reader->token;
    const char *found = reader->source->bytes + token->at;
    int keyword = token_is_keyword(reader->source, token);
    if (token->kind == TOKEN_END)
        source_error(reader->source, token->at,
                     "found the end of the text, expected %s", expected);
    else if (token->kind == TOKEN_NOTE)
        source_error(reader->source, token->at - 1,
                     "found a note, expected %s", expected);
    else if (token->kind != TOKEN_BAD)
        source_error(reader->source, token->at, "found %s'%.*s', expected %s",
                     keyword ? "the keyword " : "", (int)token->length, found,
                     expected);
    return 0;
}

/* Takes a token of this kind. */
static int take(struct reader *reader, enum token_kind kind,
                const char *expected)
{
    if (reader->token.kind != kind)
        return unexpected(reader, expected);
    advance(reader);
    return 1;
}

/* The bytes of a token as a string. The copy of the text has room for its end:
 * a token is followed by a byte that is in no other. */
static const char *string_of(struct reader *reader, const struct token *token)
{
    char *string = reader->library->names + token->at;
    string[token->length] = 0;
    return string;
}

/* Takes a name, and says where it stands. */
static int take_name(struct reader *reader, const char **name, size_t *at,
                     const char *expected)
{
    if (reader->token.kind != TOKEN_WORD ||
        token_is_keyword(reader->source, &reader->token))
        return unexpected(reader, expected);
    *name = string_of(reader, &reader->token);
    *at = reader->token.at;
    advance(reader);
    return 1;
}

/* Takes a note if one is there. */
static void take_note(struct reader *reader, const char **note)
{
    *note = NULL;
    if (reader->token.kind != TOKEN_NOTE)
        return;
    *note = string_of(reader, &reader->token);
    advance(reader);
}

/* Takes what stands behind a note that was there, or was not: the semicolon of
 * a line, the brace of a block. */
static int take_semicolon(struct reader *reader, const char *note)
{
    return take(reader, TOKEN_SEMICOLON,
                note == NULL ? "a note or ';'" : "';'");
}

static int take_brace(struct reader *reader, const char *note)
{
    return take(reader, TOKEN_OPEN, note == NULL ? "a note or '{'" : "'{'");
}

/* ---- bounds */

/* Whether there is room for one more; `what` there are at the most. */
static int has_room(struct reader *reader, size_t count, size_t most, size_t at,
                    const char *what)
{
    if (count < most)
        return 1;
    source_error(reader->source, at,
                 "found one %s too many, expected at most %zu of them", what,
                 most);
    return 0;
}

/* Whether the image has room for one word more. */
static int has_word(struct reader *reader, size_t at)
{
    if (library_words(reader->library) < MOST_BETWEEN)
        return 1;
    source_error(reader->source, at,
                 "found more than an image has room for, expected at most %d "
                 "words: a word for the head, each step, each fact that a step "
                 "names, each sequence, alternative and entry, and the sum",
                 DULIMOVEN_MOST_IMAGE_WORDS);
    return 0;
}

/* ---- names */

/* Takes the name of what is declared, which no other may have, and its note. */
static int declare(struct reader *reader, struct named *named,
                   enum name_kind kind, size_t number)
{
    const struct name *other;
    if (!take_name(reader, &named->name, &named->at, "a name"))
        return 0;
    other = names_add(reader->names, named->name, kind, (uint32_t)number,
                      named->at);
    if (other != NULL)
        source_error(reader->source, named->at,
                     "found '%s', which is %s of line %zu, expected a new name",
                     named->name, name_kind_text(other->kind),
                     source_position(reader->source, other->at).line);
    take_note(reader, &named->note);
    return 1;
}

/* Takes names with commas between them and a semicolon after the last; each is
 * handed on. */
static int take_facts(struct reader *reader,
                      int (*add)(struct reader *, int, const char *, size_t),
                      int what)
{
    const char *name;
    size_t at;
    for (;;) {
        if (!take_name(reader, &name, &at, "the name of a fact") ||
            !add(reader, what, name, at))
            return 0;
        if (reader->token.kind != TOKEN_COMMA)
            break;
        advance(reader);
    }
    return take(reader, TOKEN_SEMICOLON, "',' or ';'");
}

/* ---- declarations */

static int read_library(struct reader *reader)
{
    struct library *library = reader->library;
    size_t at = reader->token.at;
    advance(reader);
    if (library->name != NULL) {
        source_error(reader->source, at,
                     "found a second library line, expected one at the most");
        return 0;
    }
    if (!take_name(reader, &library->name, &at, "the name of the library"))
        return 0;
    take_note(reader, &library->note);
    return take_semicolon(reader, library->note);
}

static int read_fact(struct reader *reader)
{
    struct library *library = reader->library;
    size_t at = reader->token.at, number = library->facts;
    advance(reader);
    if (!has_room(reader, number, DULIMOVEN_MOST_FACTS, at, "fact"))
        return 0;
    library->facts++;
    return declare(reader, &library->fact[number], NAME_FACT, number) &&
           take_semicolon(reader, library->fact[number].note);
}

static int add_use(struct reader *reader, int kind, const char *name, size_t at)
{
    struct use *use = &reader->library->use[reader->library->uses];
    if (!has_word(reader, at))
        return 0;
    use->kind = (uint32_t)kind;
    use->name = name;
    use->at = at;
    reader->library->uses++;
    return 1;
}

/* The lines of a step up to the closing brace. */
static int read_uses(struct reader *reader)
{
    int kind;
    while (reader->token.kind != TOKEN_CLOSE) {
        if (at_word(reader, "needs"))
            kind = DULIMOVEN_KIND_NEEDS;
        else if (at_word(reader, "sets"))
            kind = DULIMOVEN_KIND_SETS;
        else if (at_word(reader, "clears"))
            kind = DULIMOVEN_KIND_CLEARS;
        else
            return unexpected(reader, "'needs', 'sets', 'clears' or '}'");
        advance(reader);
        if (!take_facts(reader, add_use, kind))
            return 0;
    }
    advance(reader);
    return 1;
}

static int read_step(struct reader *reader)
{
    struct library *library = reader->library;
    struct step *step = &library->step[library->steps];
    size_t at = reader->token.at, number = library->steps;
    advance(reader);
    if (!has_room(reader, number, DULIMOVEN_MOST_STEPS, at, "step") ||
        !has_word(reader, at))
        return 0;
    library->steps++;
    step->uses.begin = library->uses;
    if (!declare(reader, &step->named, NAME_STEP, number) ||
        !take_brace(reader, step->named.note) || !read_uses(reader))
        return 0;
    step->uses.end = library->uses;
    return 1;
}

/* Adds a claim of the last sequence. */
static int add_claim(struct reader *reader, int what, const char *name,
                     size_t at)
{
    struct library *library = reader->library;
    struct claim *claim;
    if (library->claims == library->claim_room) {
        size_t room = 2 * library->claim_room + 64;
        claim = (struct claim *)realloc(library->claim, room * sizeof *claim);
        if (claim == NULL) {
            source_error(reader->source, at, "there is no memory for more");
            return 0;
        }
        library->claim = claim;
        library->claim_room = room;
    }
    claim = &library->claim[library->claims++];
    claim->verb = (enum verb)(what % VERBS);
    claim->always = what / VERBS;
    claim->sequence = (uint32_t)(library->sequences - 1);
    claim->name = name;
    claim->at = at;
    return 1;
}

static int read_claim(struct reader *reader, int always)
{
    int verb;
    advance(reader);
    if (at_word(reader, "needs"))
        verb = VERB_NEEDS;
    else if (at_word(reader, "sets"))
        verb = VERB_SETS;
    else if (at_word(reader, "clears"))
        verb = VERB_CLEARS;
    else if (at_word(reader, "stands") && always)
        verb = VERB_STANDS;
    else
        return unexpected(reader, always ? "'needs', 'sets', 'clears' or "
                                           "'stands'"
                                         : "'needs', 'sets' or 'clears'");
    advance(reader);
    return take_facts(reader, add_claim, always * VERBS + verb);
}

static int read_entry(struct reader *reader)
{
    struct library *library = reader->library;
    struct entry *entry = &library->entry[library->entries];
    int check = at_word(reader, "check");
    size_t at = reader->token.at;
    if (check)
        advance(reader);
    if (!has_word(reader, at))
        return 0;
    entry->kind =
        check ? DULIMOVEN_KIND_CHECK : DULIMOVEN_KIND_STEP_ENTRY;
    if (!take_name(reader, &entry->name, &entry->at,
                   check ? "the name of a fact"
                         : "a step, a sequence, 'check' or '}'"))
        return 0;
    library->entries++;
    return take(reader, TOKEN_SEMICOLON, "';'");
}

/* Whether a label is the first of its name in the last sequence. */
static void check_label(struct reader *reader, const struct sequence *sequence,
                        const struct alternative *last)
{
    const struct alternative *other =
        reader->library->alternative + sequence->alternatives.begin;
    for (; other < last && last->label != NULL; other++)
        if (other->label != NULL && strcmp(other->label, last->label) == 0) {
            source_error(reader->source, last->at,
                         "found '%s', which is an alternative of line %zu, "
                         "expected a new name",
                         last->label,
                         source_position(reader->source, other->at).line);
            return;
        }
}

static int read_alternative(struct reader *reader, struct sequence *sequence)
{
    struct library *library = reader->library;
    struct alternative *last = &library->alternative[library->alternatives];
    if (!has_word(reader, reader->token.at))
        return 0;
    last->at = reader->token.at;
    last->label = NULL;
    advance(reader);
    if (reader->token.kind == TOKEN_WORD &&
        !take_name(reader, &last->label, &last->at, "a name, a note or '{'"))
        return 0;
    check_label(reader, sequence, last);
    take_note(reader, &last->note);
    library->alternatives++;
    last->entries.begin = library->entries;
    if (last->label == NULL && last->note == NULL
            ? !take(reader, TOKEN_OPEN, "a name, a note or '{'")
            : !take_brace(reader, last->note))
        return 0;
    while (reader->token.kind != TOKEN_CLOSE)
        if (!read_entry(reader))
            return 0;
    advance(reader);
    last->entries.end = library->entries;
    return 1;
}

static int read_sequence(struct reader *reader)
{
    struct library *library = reader->library;
    struct sequence *sequence = &library->sequence[library->sequences];
    size_t at = reader->token.at, number = library->sequences;
    int fine = 1;
    advance(reader);
    if (!has_room(reader, number, DULIMOVEN_MOST_SEQUENCES, at, "sequence") ||
        !has_word(reader, at))
        return 0;
    library->sequences++;
    sequence->alternatives.begin = library->alternatives;
    sequence->claims.begin = library->claims;
    if (!declare(reader, &sequence->named, NAME_SEQUENCE, number) ||
        !take_brace(reader, sequence->named.note))
        return 0;
    while (fine && reader->token.kind != TOKEN_CLOSE) {
        if (at_word(reader, "alternative"))
            fine = read_alternative(reader, sequence);
        else if (at_word(reader, "always") || at_word(reader, "never"))
            fine = read_claim(reader, at_word(reader, "always"));
        else
            fine = unexpected(reader,
                              "'alternative', 'always', 'never' or '}'");
    }
    if (fine)
        advance(reader);
    sequence->alternatives.end = library->alternatives;
    sequence->claims.end = library->claims;
    return fine;
}

/* All declarations of a text. */
static int read_all(struct reader *reader)
{
    int fine = 1;
    while (fine && reader->token.kind != TOKEN_END) {
        if (at_word(reader, "library"))
            fine = read_library(reader);
        else if (at_word(reader, "fact"))
            fine = read_fact(reader);
        else if (at_word(reader, "step"))
            fine = read_step(reader);
        else if (at_word(reader, "sequence"))
            fine = read_sequence(reader);
        else
            fine = unexpected(reader,
                              "'library', 'fact', 'step' or 'sequence'");
    }
    return fine;
}

/* ---- what names stand for */

/* The number of what a name stands for, which is of one of two kinds. */
static uint32_t resolve(struct reader *reader, const char *name, size_t at,
                        enum name_kind kind, enum name_kind other,
                        enum name_kind *found)
{
    const struct name *named = names_find(reader->names, name);
    const char *expected = kind == other ? "a fact" : "a step or a sequence";
    const char *near;
    if (named != NULL && (named->kind == kind || named->kind == other)) {
        *found = named->kind;
        return named->number;
    }
    if (named != NULL) {
        source_error(reader->source, at, "found %s '%s', expected %s",
                     name_kind_text(named->kind), name, expected);
        return 0;
    }
    near = names_near(reader->names, name, kind, other);
    source_error(reader->source, at, "found the unknown name '%s', expected "
                 "%s%s%s%s",
                 name, expected, near == NULL ? "" : "; is it '",
                 near == NULL ? "" : near, near == NULL ? "" : "'?");
    return 0;
}

static uint32_t resolve_fact(struct reader *reader, const char *name, size_t at)
{
    enum name_kind found;
    return resolve(reader, name, at, NAME_FACT, NAME_FACT, &found);
}

static void resolve_entry(struct reader *reader, struct entry *entry)
{
    enum name_kind found = NAME_STEP;
    if (entry->kind == DULIMOVEN_KIND_CHECK) {
        entry->number = resolve_fact(reader, entry->name, entry->at);
        return;
    }
    entry->number = resolve(reader, entry->name, entry->at, NAME_STEP,
                            NAME_SEQUENCE, &found);
    if (found == NAME_SEQUENCE)
        entry->kind = DULIMOVEN_KIND_SEQUENCE_ENTRY;
}

static void resolve_all(struct reader *reader)
{
    struct library *library = reader->library;
    size_t i;
    for (i = 0; i < library->uses; i++)
        library->use[i].fact = resolve_fact(reader, library->use[i].name,
                                            library->use[i].at);
    for (i = 0; i < library->entries; i++)
        resolve_entry(reader, &library->entry[i]);
    for (i = 0; i < library->claims; i++)
        library->claim[i].fact = resolve_fact(reader, library->claim[i].name,
                                              library->claim[i].at);
}

int read_text(struct source *source, struct library *library)
{
    struct reader reader;
    struct names names;
    memset(library, 0, sizeof *library);
    library->names = (char *)malloc(source->length + 1);
    if (library->names == NULL) {
        fprintf(stderr, "dlm: there is no memory for %s\n", source->name);
        return 0;
    }
    memcpy(library->names, source->bytes, source->length + 1);
    names_clear(&names);
    reader.source = source;
    reader.library = library;
    reader.names = &names;
    reader.token = token_at(source, 0);
    if (read_all(&reader))
        resolve_all(&reader);
    return source->errors == 0;
}
