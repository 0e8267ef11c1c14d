/* Reads the parts of setups and logs that the clients of other stores need. Documents are taken to be well formed, and
   their texts to have no escapes; where one has, the program says so and ends. */
#ifndef READING_H
#define READING_H

#include <stdbool.h>
#include <stddef.h>
#include <stdint.h>

enum { MOST_VALUES = 16, MOST_BOUNDS = 1023 };

/* A number, or a text that lies in the document. */
struct value {
    bool is_text;
    int64_t number;
    const char *text;
    size_t length;
};

/* A table's row, or a call of a procedure with its values. */
struct row {
    struct value table;
    int64_t key;
    size_t count;
    struct value values[MOST_VALUES];
};

struct call {
    struct value name;
    size_t count;
    struct value values[MOST_VALUES];
};

enum line { LINE_CALL, LINE_CUT };

/* How the keys of a table are split: over a number of partitions, or at bounds where there are some. */
struct split {
    int64_t parts;
    size_t bounds;
    int64_t bound[MOST_BOUNDS];
};

/* The bytes of a setup, and where its catalogue and its rows begin. */
struct setup {
    char *text;
    const char *catalogue;
    const char *rows;
};

/* Says what is wrong, and ends the program with status 1. */
_Noreturn void fail(const char *what);

bool is_named(const struct value *name, const char *text);

void setup_open(struct setup *setup, const char *path);
void setup_close(struct setup *setup);
void setup_split(const struct setup *setup, const char *table, struct split *split);
void setup_each_row(const struct setup *setup, void (*take)(void *context, const struct row *row), void *context);

/* Reads a line of a log, whose texts lie in it. */
enum line log_line(const char *line, struct call *call);

#endif
