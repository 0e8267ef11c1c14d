/* SmallBank, as workloads/smallbank/setup.calvin has it. */
#include "reply.h"
#include "workload.h"

enum { NEGATIVE_DEPOSIT = 101, NEGATIVE_SAVINGS = 102, NOT_COVERED = 103 };

static sqlite3_stmt *fill_savings, *fill_checking, *total, *held, *deposit, *draw, *has_savings, *empty_savings,
    *empty_checking, *put_checking;

static void prepare(sqlite3 *db, const struct setup *setup)
{
    (void)setup;
    fill_savings = prepared(db, "insert into savings values(?1, ?2)");
    fill_checking = prepared(db, "insert into checking values(?1, ?2)");
    total =
        prepared(db, "select s.cents, c.cents from savings s, checking c where s.customer = ?1 and c.customer = ?1");
    held = prepared(db, "select cents from checking where customer = ?1");
    deposit = prepared(db, "update checking set cents = cents + ?2 where customer = ?1 returning cents");
    draw =
        prepared(db, "update savings set cents = cents + ?2 where customer = ?1 and cents + ?2 >= 0 returning cents");
    has_savings = prepared(db, "select 1 from savings where customer = ?1");
    empty_savings = prepared(db, "update savings set cents = 0 where customer = ?1");
    empty_checking = prepared(db, "update checking set cents = 0 where customer = ?1");
    put_checking = prepared(db, "update checking set cents = ?2 where customer = ?1");
}

static void load(void *context, const struct row *row)
{
    (void)context;
    sqlite3_stmt *fill = is_named(&row->table, "savings") ? fill_savings : fill_checking;
    BIND(fill, row->key, row->values[0].number);
    run(fill);
}

/* What a customer has in both accounts. */
static bool has(int64_t customer, int64_t *saved, int64_t *checked)
{
    BIND(total, customer);
    bool is_there = step(total);
    if (is_there) {
        *saved = NUMBER(total, 0);
        *checked = NUMBER(total, 1);
    }
    done(total);
    return is_there;
}

/* Adds to a checking account, and replies with what it has then. */
static int add(int64_t customer, int64_t amount)
{
    int64_t left;
    BIND(deposit, customer, amount);
    if (!one_number(deposit, &left))
        return NO_ROW;
    reply_number(left);
    return COMMITS;
}

static int balance(int64_t customer)
{
    int64_t saved, checked;
    if (!has(customer, &saved, &checked))
        return NO_ROW;
    reply_number(saved + checked);
    return COMMITS;
}

static int transact_savings(int64_t customer, int64_t amount)
{
    int64_t left;
    BIND(draw, customer, amount);
    if (one_number(draw, &left)) {
        reply_number(left);
        return COMMITS;
    }
    BIND(has_savings, customer);
    return one_number(has_savings, &left) ? NEGATIVE_SAVINGS : NO_ROW;
}

static int amalgamate(int64_t from, int64_t to)
{
    int64_t saved, checked;
    if (!has(from, &saved, &checked))
        return NO_ROW;
    BIND(empty_savings, from);
    run(empty_savings);
    BIND(empty_checking, from);
    run(empty_checking);
    return add(to, saved + checked);
}

static int write_check(int64_t customer, int64_t amount)
{
    int64_t saved, checked;
    if (!has(customer, &saved, &checked))
        return NO_ROW;
    int64_t left = checked - amount - (saved + checked < amount ? 1 : 0);
    BIND(put_checking, customer, left);
    run(put_checking);
    reply_number(left);
    return COMMITS;
}

static int send_payment(int64_t from, int64_t to, int64_t amount)
{
    int64_t checked;
    BIND(held, from);
    if (!one_number(held, &checked))
        return NO_ROW;
    if (checked < amount)
        return NOT_COVERED;
    BIND(put_checking, from, checked - amount);
    run(put_checking);
    BIND(deposit, to, amount);
    if (!run(deposit))
        return NO_ROW;
    reply_number(checked - amount);
    return COMMITS;
}

static int answer(const struct call *call)
{
    int64_t first = call->values[0].number, second = call->values[1].number;
    if (is_named(&call->name, "balance"))
        return balance(first);
    if (is_named(&call->name, "deposit_checking"))
        return second < 0 ? NEGATIVE_DEPOSIT : add(first, second);
    if (is_named(&call->name, "transact_savings"))
        return transact_savings(first, second);
    if (is_named(&call->name, "amalgamate"))
        return amalgamate(first, second);
    if (is_named(&call->name, "write_check"))
        return write_check(first, second);
    if (is_named(&call->name, "send_payment"))
        return send_payment(first, second, call->values[2].number);
    fail("there is no such procedure");
}

static bool is_one_statement(const struct value *name)
{
    return is_named(name, "balance") || is_named(name, "deposit_checking") || is_named(name, "transact_savings");
}

const struct workload smallbank = {
    .name = "smallbank",
    .schema = "create table savings(customer integer primary key, cents integer);"
              "create table checking(customer integer primary key, cents integer);",
    .prepare = prepare,
    .load = load,
    .answer = answer,
    .is_one_statement = is_one_statement,
};
