/* YCSB, as workloads/ycsb/setup.py has it. */
#include "reply.h"
#include "workload.h"

#include <stdio.h>
#include <string.h>

enum { FIELDS = 10, MOST_SCANNED = MOST_REPLIED / 2 };

static sqlite3_stmt *fill, *read_all, *range, *update[FIELDS];
static struct split split;

static void prepare(sqlite3 *db, const struct setup *setup)
{
    setup_split(setup, "record", &split);
    fill = prepared(db, "insert or ignore into record values(?1, ?2, ?3, ?4, ?5, ?6, ?7, ?8, ?9, ?10, ?11)");
    read_all = prepared(db, "select f0, f1, f2, f3, f4, f5, f6, f7, f8, f9 from record where key = ?1");
    range = prepared(db, "select key, f0 from record where key between ?1 and ?2 order by key");
    for (int field = 0; field < FIELDS; field++) {
        char text[64];
        snprintf(text, sizeof text, "update record set f%d = ?2 where key = ?1", field);
        update[field] = prepared(db, text);
    }
}

static void load(void *context, const struct row *row)
{
    (void)context;
    BIND(fill, row->key);
    bind_values(fill, 2, row->values, row->count);
    run(fill);
}

static void reply_column(sqlite3_stmt *statement, int column)
{
    const char *text = (const char *)sqlite3_column_text(statement, column);
    reply_text(text, (size_t)sqlite3_column_bytes(statement, column));
}

static int read(int64_t key)
{
    BIND(read_all, key);
    bool is_there = step(read_all);
    for (int field = 0; is_there && field < FIELDS; field++)
        reply_column(read_all, field);
    done(read_all);
    return is_there ? COMMITS : NO_ROW;
}

static int change(sqlite3_stmt *statement, int64_t key, const struct value *value)
{
    BIND(statement, key);
    bind_values(statement, 2, value, 1);
    return run(statement) ? COMMITS : NO_ROW;
}

static int insert(int64_t key, const struct value *value)
{
    BIND(fill, key);
    for (int field = 0; field < FIELDS; field++)
        bind_values(fill, 2 + field, value, 1);
    return run(fill) ? COMMITS : ROW_IS_THERE;
}

static int scan_part(int64_t part)
{
    if (part < 0 || part >= split.parts)
        return NO_PARTITION;
    size_t place = (size_t)part;
    int64_t low = place == 0 ? 0 : split.bound[place - 1];
    int64_t high = place == split.bounds ? INT64_MAX : split.bound[place] - 1;
    int found = 0;
    BIND(range, low, high);
    while (step(range) && ++found <= MOST_SCANNED) {
        reply_number(NUMBER(range, 0));
        reply_column(range, 1);
    }
    done(range);
    return found <= MOST_SCANNED ? COMMITS : TOO_LONG;
}

/* The update of the field that the last sign of a procedure's name says. */
static sqlite3_stmt *update_of(const struct value *name)
{
    int field = name->text[name->length - 1] - '0';
    if (field < 0 || field >= FIELDS)
        fail("there is no such field");
    return update[field];
}

static int answer(const struct call *call)
{
    int64_t key = call->values[0].number;
    const struct value *name = &call->name, *value = &call->values[1];
    if (is_named(name, "read"))
        return read(key);
    if (is_named(name, "scan"))
        return scan_part(key);
    if (is_named(name, "insert_one"))
        return insert(key, value);
    if (strncmp(name->text, "modify_", 7) == 0 && read(key) == NO_ROW)
        return NO_ROW;
    return change(update_of(name), key, value);
}

static bool is_one_statement(const struct value *name)
{
    return strncmp(name->text, "modify_", 7) != 0;
}

const struct workload ycsb = {
    .name = "ycsb",
    .schema = "create table record(key integer primary key, f0 text, f1 text, f2 text, f3 text, f4 text, f5 text,"
              " f6 text, f7 text, f8 text, f9 text);",
    .prepare = prepare,
    .load = load,
    .answer = answer,
    .is_one_statement = is_one_statement,
};
