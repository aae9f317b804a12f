#include "source.h"

#include <stdarg.h>
#include <stdio.h>
#include <stdlib.h>
#include <string.h>

/* No text needs to be longer; it keeps a device that never ends from filling
 * the memory. */
enum { MOST_BYTES = 1 << 26 };

/* A line of so many characters is shown whole. Of a longer one as many are
 * shown, with the place among them and not more than some before it. */
enum { SHOWN = 100, SHOWN_BEFORE = 72 };

/* Reads all that a file has. Answers 0 where that fails, or is too much. */
static int read_all(struct source *source, FILE *file)
{
    size_t room = 1 << 16, got;
    source->bytes = (char *)malloc(room + 1);
    while (source->bytes != NULL) {
        got = fread(source->bytes + source->length, 1, room - source->length,
                    file);
        source->length += got;
        if (source->length < room)
            break;
        room *= 2;
        if (room > MOST_BYTES)
            return 0;
        {
            char *more = (char *)realloc(source->bytes, room + 1);
            if (more == NULL)
                return 0;
            source->bytes = more;
        }
    }
    if (source->bytes == NULL || ferror(file))
        return 0;
    source->bytes[source->length] = 0;
    return 1;
}

int source_read(struct source *source, const char *name)
{
    int standard = strcmp(name, "-") == 0, done;
    FILE *file = standard ? stdin : fopen(name, "rb");
    memset(source, 0, sizeof *source);
    source->name = standard ? "standard input" : name;
    done = file != NULL && read_all(source, file);
    if (file != NULL && !standard)
        fclose(file);
    if (!done) {
        fprintf(stderr, "dlm: %s cannot be read\n", source->name);
        source_free(source);
    }
    return done;
}

void source_free(struct source *source)
{
    free(source->bytes);
    source->bytes = NULL;
    source->length = 0;
}

int source_is_image(const struct source *source)
{
    return source->length > 0 &&
           memchr(source->bytes, 0, source->length) != NULL;
}

size_t source_begin(const struct source *source)
{
    static const char mark[] = "\xef\xbb\xbf";
    return strncmp(source->bytes, mark, 3) == 0 ? 3 : 0;
}

/* Whether a byte begins a character: no byte 10xxxxxx of UTF-8 does. */
static int begins_character(char byte)
{
    return ((unsigned char)byte & 0xc0) != 0x80;
}

static size_t line_begin(const struct source *source, size_t at)
{
    while (at > 0 && source->bytes[at - 1] != '\n')
        at--;
    return at == 0 ? source_begin(source) : at;
}

/* The end of a line, without a carriage return before it. */
static size_t line_end(const struct source *source, size_t at)
{
    size_t end = at;
    while (end < source->length && source->bytes[end] != '\n')
        end++;
    return end > at && source->bytes[end - 1] == '\r' ? end - 1 : end;
}

/* How many characters begin at a place or after it, and before another. */
static size_t characters(const struct source *source, size_t from, size_t to)
{
    size_t count = 0;
    for (; from < to; from++)
        count += begins_character(source->bytes[from]);
    return count;
}

struct position source_position(const struct source *source, size_t at)
{
    struct position position = {1, 1};
    size_t begin = line_begin(source, at), i;
    for (i = 0; i < begin; i++)
        position.line += source->bytes[i] == '\n';
    position.column += characters(source, begin, at);
    return position;
}

/* A character of a shown line: what is no visible character is a space. */
static void show_byte(char byte)
{
    unsigned char shown = (unsigned char)byte;
    fputc(shown < 0x20 || shown == 0x7f ? ' ' : shown, stderr);
}

void source_show(const struct source *source, size_t at)
{
    size_t begin = line_begin(source, at), end = line_end(source, at);
    size_t column = characters(source, begin, at), shown = 0, i;
    if (characters(source, begin, end) > SHOWN)
        for (; column > SHOWN_BEFORE; column--)
            do
                begin++;
            while (!begins_character(source->bytes[begin]));
    fprintf(stderr, "    ");
    for (i = begin; i < end; i++) {
        shown += begins_character(source->bytes[i]);
        if (shown > SHOWN)
            break;
        show_byte(source->bytes[i]);
    }
    fprintf(stderr, "\n    %*s^\n", (int)column, "");
}

void source_error(struct source *source, size_t at, const char *format, ...)
{
    struct position position;
    va_list values;
    source->errors++;
    if (source->errors == MOST_ERRORS + 1)
        fprintf(stderr, "%s: and more errors\n", source->name);
    if (source->errors > MOST_ERRORS)
        return;
    position = source_position(source, at);
    fprintf(stderr, "%s:%zu:%zu: error: ", source->name, position.line,
            position.column);
    va_start(values, format);
    vfprintf(stderr, format, values);
    va_end(values);
    fprintf(stderr, "\n");
    source_show(source, at);
}
