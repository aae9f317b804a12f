#include "text.h"

#include <stdarg.h>
#include <stdio.h>
#include <stdlib.h>
#include <string.h>

/* Makes room for more bytes and the 0 after them. */
static void make_room(struct text *text, size_t more)
{
    size_t room = text->room;
    if (text->length + more < room)
        return;
    while (text->length + more >= room)
        room = 2 * room + 256;
    text->bytes = (char *)realloc(text->bytes, room);
    if (text->bytes == NULL) {
        fprintf(stderr, "dlm: there is no memory for a text\n");
        exit(1);
    }
    text->room = room;
}

void text_put(struct text *text, const char *string)
{
    size_t length = strlen(string);
    make_room(text, length);
    memcpy(text->bytes + text->length, string, length + 1);
    text->length += length;
}

void text_format(struct text *text, const char *format, ...)
{
    va_list values;
    int length;
    va_start(values, format);
    length = vsnprintf(NULL, 0, format, values);
    va_end(values);
    make_room(text, (size_t)length);
    va_start(values, format);
    vsnprintf(text->bytes + text->length, (size_t)length + 1, format, values);
    va_end(values);
    text->length += (size_t)length;
}

const char *text_string(const struct text *text)
{
    return text->length == 0 ? "" : text->bytes;
}

void text_clear(struct text *text)
{
    text->length = 0;
}

void text_free(struct text *text)
{
    free(text->bytes);
    text->bytes = NULL;
    text->length = text->room = 0;
}
