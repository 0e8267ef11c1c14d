#include "reading.h"

#include <stdio.h>
#include <stdlib.h>
#include <string.h>

_Noreturn void fail(const char *what)
{
    fprintf(stderr, "%s\n", what);
    exit(EXIT_FAILURE);
}

bool is_named(const struct value *name, const char *text)
{
    return strlen(text) == name->length && memcmp(name->text, text, name->length) == 0;
}

static const char *spaced(const char *at)
{
    return at + strspn(at, " \t\r\n");
}

/* Goes over a character that must be there. */
static const char *over(const char *at, char wanted)
{
    at = spaced(at);
    if (*at != wanted)
        fail("the document is not of the form that is read here");
    return at + 1;
}

/* Whether a list goes on, from after one of its elements or from its bracket. */
static bool goes_on(const char **at)
{
    *at = spaced(*at);
    if (**at == ',')
        *at = spaced(*at + 1);
    if (**at != ']')
        return true;
    ++*at;
    return false;
}

static const char *read_value(const char *at, struct value *value)
{
    at = spaced(at);
    if (*at != '"') {
        char *end;
        *value = (struct value){.number = strtoll(at, &end, 10)};
        if (end == at)
            fail("a value is neither a number nor a text");
        return end;
    }
    size_t length = strcspn(at + 1, "\"\\");
    if (at[1 + length] != '"')
        fail("a text has an escape, which is not read here");
    *value = (struct value){.is_text = true, .text = at + 1, .length = length};
    return at + 2 + length;
}

static const char *read_values(const char *at, struct value *values, size_t *count)
{
    at = over(at, '[');
    for (*count = 0; goes_on(&at); ++*count) {
        if (*count == MOST_VALUES)
            fail("a list has too many values");
        at = read_value(at, &values[*count]);
    }
    return at;
}

/* Goes over a value of any form. */
static const char *skip(const char *at)
{
    struct value value;
    at = spaced(at);
    if (*at != '[')
        return read_value(at, &value);
    at++;
    while (goes_on(&at))
        at = skip(at);
    return at;
}

/* The elements of a list of a head word, a version and further ones: the one with that number. */
static const char *element(const char *at, int number)
{
    at = over(at, '[');
    while (number-- > 0)
        at = over(skip(at), ',');
    return at;
}

static char *whole_file(const char *path)
{
    FILE *file = fopen(path, "rb");
    if (!file || fseek(file, 0, SEEK_END) != 0)
        fail("the setup can't be read");
    long size = ftell(file);
    rewind(file);
    char *text = malloc((size_t)size + 1);
    if (!text || fread(text, 1, (size_t)size, file) != (size_t)size)
        fail("the setup can't be read");
    text[size] = 0;
    fclose(file);
    return text;
}

void setup_open(struct setup *setup, const char *path)
{
    setup->text = whole_file(path);
    setup->catalogue = element(element(setup->text, 2), 2);
    setup->rows = element(element(setup->text, 4), 2);
}

void setup_close(struct setup *setup)
{
    free(setup->text);
}

static void read_split(const char *at, struct split *split)
{
    struct value value;
    *split = (struct split){0};
    at = spaced(at);
    if (*at != '[') {
        read_value(at, &value);
        split->parts = value.number;
        return;
    }
    at = read_value(at + 1, &value);
    for (; goes_on(&at); split->bounds++) {
        at = read_value(at, &value);
        split->bound[split->bounds] = value.number;
    }
    split->parts = (int64_t)split->bounds + 1;
}

void setup_split(const struct setup *setup, const char *table, struct split *split)
{
    const char *at = over(setup->catalogue, '[');
    for (; goes_on(&at); at = skip(at)) {
        struct value name;
        const char *behind = read_value(over(at, '['), &name);
        if (is_named(&name, table)) {
            read_split(over(behind, ','), split);
            return;
        }
    }
    fail("the setup lacks a table");
}

void setup_each_row(const struct setup *setup, void (*take)(void *context, const struct row *row), void *context)
{
    const char *at = over(setup->rows, '[');
    while (goes_on(&at)) {
        struct row row;
        struct value key;
        at = over(read_value(over(at, '['), &row.table), ',');
        at = over(read_value(at, &key), ',');
        row.key = key.number;
        at = over(read_values(at, row.values, &row.count), ']');
        take(context, &row);
    }
}

enum line log_line(const char *line, struct call *call)
{
    struct value head;
    const char *at = read_value(over(line, '['), &head);
    if (is_named(&head, "cut"))
        return LINE_CUT;
    at = read_value(over(at, ','), &call->name);
    read_values(over(at, ','), call->values, &call->count);
    return LINE_CALL;
}
