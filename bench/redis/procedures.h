/* The workloads as scripts of Redis. */
#ifndef PROCEDURES_H
#define PROCEDURES_H

#include <stddef.h>

enum { MOST_KEYS = 3, MOST_PROCEDURES = 8 };

/* A key of a script: a table, and which of the call's values is the row's key. */
struct key {
    const char *table;
    size_t place;
};

/* A procedure, and the script that runs it; without one it replies with all fields of its key's hash. The script is
   handed the call's values, and after them the digit that the procedure's name ends with, as `update_3`, where it has
   one. It answers the number of an abort's code, or a list of the values of its reply. */
struct procedure {
    const char *name;
    struct key keys[MOST_KEYS];
    const char *script;
};

struct workload {
    const char *name;
    /* A row is a hash of fields f0, f1 .. where there are more columns than one, and else a number. */
    struct procedure procedures[MOST_PROCEDURES];
};

const struct workload *workload_named(const char *name);

#endif
