/* Runs a log by SQLite in memory, each call as a transaction, and writes its reply lines:
   sqlite WORKLOAD SETUP < LOG. */
#include "reply.h"
#include "workload.h"

#include <stdio.h>
#include <stdlib.h>
#include <string.h>

static const struct workload *workload_named(const char *name)
{
    static const struct workload *all[] = {&pay, &hop, &scan, &smallbank, &ycsb, &tpcc};
    for (size_t place = 0; place < sizeof all / sizeof *all; place++)
        if (strcmp(all[place]->name, name) == 0)
            return all[place];
    fail("there is no such workload");
}

static void execute(sqlite3 *db, const char *text)
{
    if (sqlite3_exec(db, text, NULL, NULL, NULL) != SQLITE_OK)
        fail(sqlite3_errmsg(db));
}

static sqlite3 *database(const struct workload *workload, const char *path)
{
    sqlite3 *db;
    struct setup setup;
    if (sqlite3_open_v2(":memory:", &db, SQLITE_OPEN_READWRITE | SQLITE_OPEN_NOMUTEX, NULL) != SQLITE_OK)
        fail("SQLite can't be opened");
    execute(db, "pragma synchronous = off; pragma locking_mode = exclusive; pragma temp_store = memory");
    execute(db, workload->schema);
    setup_open(&setup, path);
    workload->prepare(db, &setup);
    execute(db, "begin");
    setup_each_row(&setup, workload->load, NULL);
    execute(db, "commit; analyze");
    setup_close(&setup);
    return db;
}

/* Runs a call as a transaction. */
static int answered(sqlite3 *db, const struct workload *workload, const struct call *call)
{
    static sqlite3_stmt *begin, *commit, *undo;
    if (!begin) {
        begin = prepared(db, "begin");
        commit = prepared(db, "commit");
        undo = prepared(db, "rollback");
    }
    reply_begin();
    if (workload->is_one_statement(&call->name))
        return workload->answer(call);
    run(begin);
    int code = workload->answer(call);
    run(code == COMMITS ? commit : undo);
    return code;
}

int main(int count, char **words)
{
    if (count != 3)
        fail("usage: sqlite WORKLOAD SETUP < LOG");
    const struct workload *workload = workload_named(words[1]);
    sqlite3 *db = database(workload, words[2]);
    char *line = NULL;
    size_t room = 0;
    while (getline(&line, &room, stdin) > 0) {
        struct call call;
        if (log_line(line, &call) == LINE_CUT) {
            fflush(stdout);
            continue;
        }
        int code = answered(db, workload, &call);
        if (code == COMMITS)
            reply_commit();
        else
            reply_abort(code);
    }
    return fflush(stdout) == 0 ? EXIT_SUCCESS : EXIT_FAILURE;
}
