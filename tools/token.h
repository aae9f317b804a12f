/*
 * The tokens of a text: words, notes in quotes and four marks. Space between
 * them, comments from // to the end of the line and comments from slash-star to
 * star-slash count for nothing.
 */
#ifndef DLM_TOKEN_H
#define DLM_TOKEN_H

#include "source.h"

enum token_kind {
    TOKEN_END,
    TOKEN_WORD, /* letters, digits and underscores, no digit first */
    TOKEN_NOTE, /* what stands between two quotes on one line */
    TOKEN_OPEN,
    TOKEN_CLOSE,
    TOKEN_SEMICOLON,
    TOKEN_COMMA,
    TOKEN_BAD /* was told */
};

/* A token: its bytes in the text, those of a note without the quotes. */
struct token {
    enum token_kind kind;
    size_t at, length;
};

/* The first token from `at` on. What is none is told, and is TOKEN_BAD. */
struct token token_at(struct source *source, size_t at);

/* Where the text goes on after a token. */
size_t token_end(const struct token *token);

/* Whether a token is this word. */
int token_is(const struct source *source, const struct token *token,
             const char *word);

/* Whether a token is one of the words of the form, which is no name. */
int token_is_keyword(const struct source *source, const struct token *token);

#endif
