/* What a workload is to the client of SQLite, and what workloads share. */
#ifndef WORKLOAD_H
#define WORKLOAD_H

#include "reading.h"

#include <sqlite3.h>

/* How a call ends: it commits, or it aborts with a code. */
enum { COMMITS = 0, NO_ROW = 1, ROW_IS_THERE = 2, NO_PARTITION = 6, TOO_LONG = 7 };

struct workload {
    const char *name;
    const char *schema;
    /* Prepares what there is to prepare for the setup, once the schema is made. */
    void (*prepare)(sqlite3 *db, const struct setup *setup);
    void (*load)(void *context, const struct row *row);
    /* Runs a call: COMMITS, and the reply's values are begun; or the code of an abort. */
    int (*answer)(const struct call *call);
    /* Whether a procedure is one statement, or changes nothing after its first one: that is a transaction by itself. */
    bool (*is_one_statement)(const struct value *name);
};

extern const struct workload pay, hop, scan, smallbank, ycsb, tpcc;

sqlite3_stmt *prepared(sqlite3 *db, const char *text);

/* Binds numbers to the parameters from 1 on. */
#define BIND(statement, ...)                                                                                           \
    bind_all(statement, (const int64_t[]){__VA_ARGS__}, sizeof((const int64_t[]){__VA_ARGS__}) / sizeof(int64_t))
void bind_all(sqlite3_stmt *statement, const int64_t *numbers, size_t count);

/* Binds all values to the parameters from a place on. */
void bind_values(sqlite3_stmt *statement, int from, const struct value *values, size_t count);

/* One step: whether there is a row. After `done` the statement can be bound anew. */
bool step(sqlite3_stmt *statement);
void done(sqlite3_stmt *statement);

/* Runs a statement to its end. `run` tells whether a row was changed. */
bool run(sqlite3_stmt *statement);

/* The first column of the first row, if there is a row. */
bool one_number(sqlite3_stmt *statement, int64_t *number);

#define NUMBER(statement, column) sqlite3_column_int64(statement, column)

#endif
