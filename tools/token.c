#include "token.h"

#include <string.h>

static const char *const keywords[] = {
    "library", "fact",  "step",   "sequence", "alternative", "needs", "sets",
    "clears",  "always", "never", "stands",   "check"};

enum { KEYWORDS = sizeof keywords / sizeof keywords[0] };

static int begins_word(char byte)
{
    return (byte >= 'a' && byte <= 'z') || (byte >= 'A' && byte <= 'Z') ||
           byte == '_';
}

static int in_word(char byte)
{
    return begins_word(byte) || (byte >= '0' && byte <= '9');
}

static int is_space(char byte)
{
    return byte == ' ' || byte == '\t' || byte == '\n' || byte == '\r';
}

/*
 * How many bytes the character at a place has, by UTF-8, or 0 where none is
 * there. The byte after the text is 0, which is in no character.
 */
static size_t character_at(const char *bytes)
{
    unsigned char first = (unsigned char)bytes[0];
    size_t length = first < 0x80   ? 1
                    : first < 0xc2 ? 0
                    : first < 0xe0 ? 2
                    : first < 0xf0 ? 3
                    : first < 0xf5 ? 4
                                   : 0;
    unsigned char second = length > 1 ? (unsigned char)bytes[1] : 0;
    size_t i;
    for (i = 1; i < length; i++)
        if (((unsigned char)bytes[i] & 0xc0) != 0x80)
            return 0;
    /* longer than it need be, one half of a pair, past the last character, and
     * the two that are none */
    if ((first == 0xe0 && second < 0xa0) || (first == 0xed && second > 0x9f) ||
        (first == 0xf0 && second < 0x90) || (first == 0xf4 && second > 0x8f) ||
        (first == 0xef && second == 0xbf && (unsigned char)bytes[2] > 0xbd))
        return 0;
    return length;
}

/* The place after space and comments, or the begin of a comment that does not
 * end. */
static size_t skip(const struct source *source, size_t at)
{
    const char *bytes = source->bytes;
    if (at == 0)
        at = source_begin(source);
    for (;;) {
        if (is_space(bytes[at])) {
            at++;
        } else if (bytes[at] == '/' && bytes[at + 1] == '/') {
            while (at < source->length && bytes[at] != '\n')
                at++;
        } else if (bytes[at] == '/' && bytes[at + 1] == '*') {
            const char *end = strstr(bytes + at + 2, "*/");
            if (end == NULL)
                return at;
            at = (size_t)(end - bytes) + 2;
        } else {
            return at;
        }
    }
}

static struct token make(enum token_kind kind, size_t at, size_t length)
{
    struct token token;
    token.kind = kind;
    token.at = at;
    token.length = length;
    return token;
}

/* A note whose first quote is at a place. */
static struct token note_at(struct source *source, size_t at)
{
    const char *bytes = source->bytes;
    size_t i = at + 1, length;
    while (bytes[i] != '"') {
        if (i == source->length || bytes[i] == '\n' || bytes[i] == '\r') {
            source_error(source, at,
                         "found a quote that does not end, expected a second "
                         "quote on the same line");
            return make(TOKEN_BAD, at, 0);
        }
        length = character_at(bytes + i);
        if (length == 0 || (unsigned char)bytes[i] < 0x20 || bytes[i] == 0x7f) {
            source_error(source, i,
                         "found byte 0x%02x in a note, expected UTF-8 without "
                         "control characters",
                         (unsigned)(unsigned char)bytes[i]);
            return make(TOKEN_BAD, at, 0);
        }
        i += length;
    }
    return make(TOKEN_NOTE, at + 1, i - at - 1);
}

/* What is no token. */
static struct token bad_at(struct source *source, size_t at)
{
    unsigned char byte = (unsigned char)source->bytes[at];
    size_t length = character_at(source->bytes + at);
    if (byte == '/' && source->bytes[at + 1] == '*')
        source_error(source, at,
                     "found a comment that does not end, expected */");
    else if (length > 0 && byte > 0x20 && byte != 0x7f)
        source_error(source, at,
                     "found '%.*s', expected a word, a note or one of { } ; ,",
                     (int)length, source->bytes + at);
    else
        source_error(source, at,
                     "found byte 0x%02x, expected a word, a note or one of { } "
                     "; ,",
                     byte);
    return make(TOKEN_BAD, at, 0);
}

struct token token_at(struct source *source, size_t at)
{
    const char *bytes = source->bytes;
    size_t end;
    at = skip(source, at);
    if (at == source->length)
        return make(TOKEN_END, at, 0);
    if (begins_word(bytes[at])) {
        for (end = at; in_word(bytes[end]);)
            end++;
        return make(TOKEN_WORD, at, end - at);
    }
    switch (bytes[at]) {
    case '"':
        return note_at(source, at);
    case '{':
        return make(TOKEN_OPEN, at, 1);
    case '}':
        return make(TOKEN_CLOSE, at, 1);
    case ';':
        return make(TOKEN_SEMICOLON, at, 1);
    case ',':
        return make(TOKEN_COMMA, at, 1);
    default:
        return bad_at(source, at);
    }
}

size_t token_end(const struct token *token)
{
    return token->at + token->length + (token->kind == TOKEN_NOTE);
}

int token_is(const struct source *source, const struct token *token,
             const char *word)
{
    return token->kind == TOKEN_WORD && token->length == strlen(word) &&
           memcmp(source->bytes + token->at, word, token->length) == 0;
}

int token_is_keyword(const struct source *source, const struct token *token)
{
    int i;
    for (i = 0; i < KEYWORDS; i++)
        if (token_is(source, token, keywords[i]))
            return 1;
    return 0;
}
