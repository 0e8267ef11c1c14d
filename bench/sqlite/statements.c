#include "workload.h"

sqlite3_stmt *prepared(sqlite3 *db, const char *text)
{
    sqlite3_stmt *statement;
    if (sqlite3_prepare_v3(db, text, -1, SQLITE_PREPARE_PERSISTENT, &statement, NULL) != SQLITE_OK)
        fail(sqlite3_errmsg(db));
    return statement;
}

void bind_all(sqlite3_stmt *statement, const int64_t *numbers, size_t count)
{
    for (size_t place = 0; place < count; place++)
        sqlite3_bind_int64(statement, (int)place + 1, numbers[place]);
}

void bind_values(sqlite3_stmt *statement, int from, const struct value *values, size_t count)
{
    for (size_t place = 0; place < count; place++) {
        const struct value *value = &values[place];
        int at = from + (int)place;
        if (value->is_text)
            sqlite3_bind_text(statement, at, value->text, (int)value->length, SQLITE_STATIC);
        else
            sqlite3_bind_int64(statement, at, value->number);
    }
}

bool step(sqlite3_stmt *statement)
{
    int result = sqlite3_step(statement);
    if (result != SQLITE_ROW && result != SQLITE_DONE)
        fail(sqlite3_errmsg(sqlite3_db_handle(statement)));
    return result == SQLITE_ROW;
}

void done(sqlite3_stmt *statement)
{
    sqlite3_reset(statement);
}

bool run(sqlite3_stmt *statement)
{
    while (step(statement)) {
    }
    done(statement);
    return sqlite3_changes(sqlite3_db_handle(statement)) > 0;
}

bool one_number(sqlite3_stmt *statement, int64_t *number)
{
    bool is_there = step(statement);
    if (is_there)
        *number = NUMBER(statement, 0);
    done(statement);
    return is_there;
}
