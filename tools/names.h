/*
 * The names of a library's facts, steps and sequences: one namespace.
 */
#ifndef DLM_NAMES_H
#define DLM_NAMES_H

#include <stddef.h>
#include <stdint.h>

enum name_kind { NAME_FACT, NAME_STEP, NAME_SEQUENCE };

/* A name, what it stands for, and where it was declared. */
struct name {
    const char *text;
    enum name_kind kind;
    uint32_t number;
    size_t at;
};

/* A table of names: a name stands at the first place from its hash on that was
 * free. It has over twice as many places as there can be names. */
enum { NAME_PLACES = 4096 };
struct names {
    struct name place[NAME_PLACES];
};

void names_clear(struct names *names);

/* Adds a name, or answers the one that is there already. */
const struct name *names_add(struct names *names, const char *text,
                             enum name_kind kind, uint32_t number, size_t at);

/* The name, or NULL. */
const struct name *names_find(const struct names *names, const char *text);

/* A name of one of two kinds that differs by one slip of the hand, a character
 * added, left out, changed or two exchanged, or NULL. */
const char *names_near(const struct names *names, const char *text,
                       enum name_kind kind, enum name_kind other);

/* "a fact", "a step", "a sequence". */
const char *name_kind_text(enum name_kind kind);

#endif
