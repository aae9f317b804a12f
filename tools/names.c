#include "names.h"

#include <string.h>

void names_clear(struct names *names)
{
    memset(names, 0, sizeof *names);
}

/* Where a name stands, or the free place where it would. */
static size_t place_of(const struct names *names, const char *text)
{
    size_t place = 5381, i;
    for (i = 0; text[i] != 0; i++)
        place = 33 * place + (unsigned char)text[i];
    place %= NAME_PLACES;
    while (names->place[place].text != NULL &&
           strcmp(names->place[place].text, text) != 0)
        place = (place + 1) % NAME_PLACES;
    return place;
}

const struct name *names_add(struct names *names, const char *text,
                             enum name_kind kind, uint32_t number, size_t at)
{
    struct name *name = &names->place[place_of(names, text)];
    if (name->text != NULL)
        return name;
    name->text = text;
    name->kind = kind;
    name->number = number;
    name->at = at;
    return NULL;
}

const struct name *names_find(const struct names *names, const char *text)
{
    const struct name *name = &names->place[place_of(names, text)];
    return name->text == NULL ? NULL : name;
}

/* Whether two names differ by one slip. */
static int is_near(const char *one, const char *other)
{
    size_t first = strlen(one), second = strlen(other), same = 0;
    while (one[same] != 0 && one[same] == other[same])
        same++;
    one += same;
    other += same;
    if (first == second + 1)
        return strcmp(one + 1, other) == 0;
    if (first + 1 == second)
        return strcmp(one, other + 1) == 0;
    return first == second && first > 1 &&
           (strcmp(one + 1, other + 1) == 0 ||
            (one[0] == other[1] && one[1] == other[0] &&
             strcmp(one + 2, other + 2) == 0));
}

const char *names_near(const struct names *names, const char *text,
                       enum name_kind kind, enum name_kind other)
{
    const struct name *best = NULL, *name = names->place;
    for (; name < names->place + NAME_PLACES; name++)
        if (name->text != NULL && (name->kind == kind || name->kind == other) &&
            is_near(name->text, text) && (best == NULL || name->at < best->at))
            best = name;
    return best == NULL ? NULL : best->text;
}

const char *name_kind_text(enum name_kind kind)
{
    static const char *const texts[] = {"a fact", "a step", "a sequence"};
    return texts[kind];
}
