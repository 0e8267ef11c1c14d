/* The calls of scripts/loads.py: transfers, transfers by a row that names the account, and sums of partitions. */
#include "reply.h"
#include "workload.h"

#define TABLES                                                                                                         \
    "create table account(key integer primary key, part integer, balance integer);"                                    \
    "create table pointer(key integer primary key, target integer);"

enum { PARTITIONS = 64 };

static sqlite3_stmt *fill_account, *fill_pointer, *balance, *put, *target, *raise, *sum;

static void prepare(sqlite3 *db, const struct setup *setup)
{
    struct split split;
    setup_split(setup, "account", &split);
    if (split.parts != PARTITIONS)
        fail("the accounts are in another number of partitions");
    fill_account = prepared(db, "insert into account values(?1, ?1 % 64, ?2)");
    fill_pointer = prepared(db, "insert into pointer values(?1, ?2)");
    balance = prepared(db, "select balance from account where key = ?1");
    put = prepared(db, "update account set balance = ?2 where key = ?1");
    target = prepared(db, "select target from pointer where key = ?1");
    raise = prepared(db, "update account set balance = balance + 1 where key = ?1");
    sum = prepared(db, "select count(*), sum(balance) from account where part = ?1");
}

static void load(void *context, const struct row *row)
{
    (void)context;
    sqlite3_stmt *fill = is_named(&row->table, "account") ? fill_account : fill_pointer;
    BIND(fill, row->key, row->values[0].number);
    run(fill);
}

static bool balance_of(int64_t account, int64_t *held)
{
    BIND(balance, account);
    return one_number(balance, held);
}

static int answer_pay(int64_t from, int64_t to, int64_t amount)
{
    int64_t held, there;
    if (!balance_of(from, &held) || !balance_of(to, &there))
        return NO_ROW;
    if (held < amount)
        return 100;
    BIND(put, from, held - amount);
    run(put);
    BIND(put, to, there + amount);
    run(put);
    reply_number(held - amount);
    return COMMITS;
}

static int answer_hop(int64_t pointer)
{
    int64_t account;
    BIND(target, pointer);
    if (!one_number(target, &account))
        return NO_ROW;
    BIND(raise, account);
    if (!run(raise))
        return NO_ROW;
    reply_number(account);
    return COMMITS;
}

static int answer_sum(int64_t part)
{
    if (part < 0 || part >= PARTITIONS)
        return NO_PARTITION;
    BIND(sum, part);
    step(sum);
    reply_number(NUMBER(sum, 0));
    reply_number(NUMBER(sum, 1));
    done(sum);
    return COMMITS;
}

static int answer(const struct call *call)
{
    const struct value *values = call->values;
    if (is_named(&call->name, "pay"))
        return answer_pay(values[0].number, values[1].number, values[2].number);
    if (is_named(&call->name, "hop"))
        return answer_hop(values[0].number);
    if (is_named(&call->name, "sum"))
        return answer_sum(values[0].number);
    fail("there is no such procedure");
}

static bool is_one_statement(const struct value *name)
{
    return is_named(name, "sum");
}

#define TRANSFERS(its_name, its_schema)                                                                                \
    {                                                                                                                  \
        .name = its_name, .schema = its_schema, .prepare = prepare, .load = load, .answer = answer,                    \
        .is_one_statement = is_one_statement,                                                                          \
    }

const struct workload pay = TRANSFERS("pay", TABLES);
const struct workload hop = TRANSFERS("hop", TABLES);
/* Sums go over an index that has all they need. */
const struct workload scan = TRANSFERS("scan", TABLES "create index account_part on account(part, balance);");
