/* TPC-C, as workloads/tpcc/setup.py has it: orders and their lines by district, number and line. */
#include "reply.h"
#include "workload.h"

#include <string.h>

enum { DISTRICTS = 10, NO_ITEM = 100, WHOLE = 10000, LAST_ORDERS = 20 };

static const char schema[] =
    "create table warehouse(key integer primary key, tax integer, ytd integer);"
    "create table district(key integer primary key, tax integer, ytd integer, next_order integer,"
    " next_history integer, oldest integer);"
    "create table customer(key integer primary key, credit text, discount integer, balance integer, ytd integer,"
    " payments integer, deliveries integer, last_order integer);"
    "create table history(district integer, number integer, customer integer, amount integer,"
    " primary key (district, number)) without rowid;"
    "create table orders(district integer, number integer, customer integer, lines integer, carrier integer,"
    " primary key (district, number)) without rowid;"
    "create table new_order(district integer, number integer, customer integer,"
    " primary key (district, number)) without rowid;"
    "create table order_line(district integer, number integer, line integer, item integer, supply integer,"
    " quantity integer, amount integer, delivered integer, primary key (district, number, line)) without rowid;"
    "create table item(key integer primary key, price integer, name text);"
    "create table stock(key integer primary key, quantity integer, ytd integer, orders integer, remote integer);";

/* The tables that have rows at the start, and their statements. */
static struct filling {
    const char *table, *text;
    sqlite3_stmt *statement;
} fillings[] = {
    {"warehouse", "insert into warehouse values(?, ?, ?)", NULL},
    {"district", "insert into district values(?, ?, ?, ?, ?, ?)", NULL},
    {"customer", "insert into customer values(?, ?, ?, ?, ?, ?, ?, ?)", NULL},
    {"item", "insert into item values(?, ?, ?)", NULL},
    {"stock", "insert into stock values(?, ?, ?, ?, ?)", NULL},
};

enum { FILLINGS = sizeof fillings / sizeof *fillings };

static sqlite3_stmt *tax_of, *take_number, *set_last, *add_order, *add_new, *price_of, *sell, *add_line;
static sqlite3_stmt *pay_warehouse, *pay_district, *pay_customer, *add_history;
static sqlite3_stmt *last_of, *order_of, *lines_of, *oldest_of, *short_items;
static sqlite3_stmt *take_new, *next_of, *deliver, *sum_lines, *deliver_lines, *credit;
static int64_t warehouses, districts;

static void prepare_order(sqlite3 *db)
{
    tax_of = prepared(db, "select tax from warehouse where key = ?1");
    take_number =
        prepared(db, "update district set next_order = next_order + 1 where key = ?1 returning next_order - 1, tax");
    set_last = prepared(db, "update customer set last_order = ?2 where key = ?1 returning discount");
    add_order = prepared(db, "insert into orders values(?1, ?2, ?3, ?4, 0)");
    add_new = prepared(db, "insert into new_order values(?1, ?2, ?3)");
    price_of = prepared(db, "select price from item where key = ?1");
    sell = prepared(db, "update stock set quantity = quantity - ?2 + iif(quantity < ?2 + 10, 91, 0), ytd = ytd + ?2,"
                        " orders = orders + 1, remote = remote + ?3 where key = ?1");
    add_line = prepared(db, "insert into order_line values(?1, ?2, ?3, ?4, ?5, ?6, ?7, 0)");
}

static void prepare_others(sqlite3 *db)
{
    pay_warehouse = prepared(db, "update warehouse set ytd = ytd + ?2 where key = ?1");
    pay_district = prepared(db, "update district set ytd = ytd + ?2, next_history = next_history + 1 where key = ?1"
                                " returning next_history - 1");
    pay_customer = prepared(
        db, "update customer set balance = balance - ?2, ytd = ytd + ?2, payments = payments + 1 where key = ?1"
            " returning balance");
    add_history = prepared(db, "insert into history values(?1, ?2, ?3, ?4)");
    last_of = prepared(db, "select balance, last_order from customer where key = ?1");
    order_of = prepared(db, "select carrier from orders where district = ?1 and number = ?2");
    lines_of =
        prepared(db, "select item, quantity, amount from order_line where district = ?1 and number = ?2 order by line");
    oldest_of = prepared(db, "select oldest, next_order from district where key = ?1");
    take_new = prepared(db, "delete from new_order where district = ?1 and number = ?2");
    next_of = prepared(db, "update district set oldest = oldest + 1 where key = ?1");
    deliver = prepared(db, "update orders set carrier = ?3 where district = ?1 and number = ?2 returning customer");
    sum_lines = prepared(db, "select sum(amount) from order_line where district = ?1 and number = ?2");
    deliver_lines = prepared(db, "update order_line set delivered = 1 where district = ?1 and number = ?2");
    credit = prepared(db, "update customer set balance = balance + ?2, deliveries = deliveries + 1 where key = ?1");
    short_items =
        prepared(db, "select count(distinct l.item) from order_line l cross join stock s on s.key = l.item * ?5 + ?6"
                     " where l.district = ?1 and l.number between ?2 and ?3 and s.quantity < ?4");
}

static void prepare(sqlite3 *db, const struct setup *setup)
{
    struct split split;
    setup_split(setup, "stock", &split);
    warehouses = split.parts;
    districts = DISTRICTS * warehouses;
    for (size_t place = 0; place < FILLINGS; place++)
        fillings[place].statement = prepared(db, fillings[place].text);
    prepare_order(db);
    prepare_others(db);
}

static void load(void *context, const struct row *row)
{
    (void)context;
    for (size_t place = 0; place < FILLINGS; place++) {
        sqlite3_stmt *fill = fillings[place].statement;
        if (!is_named(&row->table, fillings[place].table))
            continue;
        BIND(fill, row->key);
        bind_values(fill, 2, row->values, row->count);
        run(fill);
        return;
    }
    fail("a table that begins without rows has some");
}

/* The first two columns of the first row, if there is a row. */
static bool two_numbers(sqlite3_stmt *statement, int64_t *first, int64_t *second)
{
    bool is_there = step(statement);
    if (is_there) {
        *first = NUMBER(statement, 0);
        *second = NUMBER(statement, 1);
    }
    done(statement);
    return is_there;
}

/* Sells what a line of an order says, and adds its amount to the total. */
static int sell_line(int64_t district, int64_t order, int64_t number, int64_t line, int64_t *total)
{
    int64_t stock = line / 16, quantity = line % 16, price;
    int64_t item = stock / warehouses, supply = stock % warehouses;
    BIND(price_of, item);
    if (!one_number(price_of, &price))
        return NO_ITEM;
    BIND(sell, stock, quantity, supply != district / DISTRICTS);
    if (!run(sell))
        return NO_ROW;
    BIND(add_line, district, order, number, item, supply, quantity, quantity * price);
    run(add_line);
    *total += quantity * price;
    return COMMITS;
}

static int new_order(const struct call *call)
{
    int64_t who = call->values[0].number, district = who % districts, total = 0;
    int64_t lines = (int64_t)call->count - 1, home_tax, order, tax, discount;
    BIND(tax_of, district / DISTRICTS);
    BIND(take_number, district);
    if (!one_number(tax_of, &home_tax) || !two_numbers(take_number, &order, &tax))
        return NO_ROW;
    BIND(set_last, who, order);
    if (!one_number(set_last, &discount))
        return NO_ROW;
    BIND(add_order, district, order, who, lines);
    run(add_order);
    BIND(add_new, district, order, who);
    run(add_new);
    for (int64_t number = 1; number <= lines; number++) {
        int code = sell_line(district, order, number, call->values[number].number, &total);
        if (code != COMMITS)
            return code;
    }
    reply_number(order);
    reply_number(total * (WHOLE - discount) / WHOLE * (WHOLE + home_tax + tax) / WHOLE);
    return COMMITS;
}

static int payment(int64_t who, int64_t district, int64_t amount)
{
    int64_t number, balance;
    BIND(pay_warehouse, district / DISTRICTS, amount);
    BIND(pay_district, district, amount);
    BIND(pay_customer, who, amount);
    if (!run(pay_warehouse) || !one_number(pay_district, &number) || !one_number(pay_customer, &balance))
        return NO_ROW;
    BIND(add_history, district, number, who, amount);
    run(add_history);
    reply_number(balance);
    return COMMITS;
}

static int order_status(int64_t who)
{
    int64_t district = who % districts, balance, order, carrier;
    BIND(last_of, who);
    if (!two_numbers(last_of, &balance, &order))
        return NO_ROW;
    reply_number(balance);
    reply_number(order);
    if (order == 0)
        return COMMITS;
    BIND(order_of, district, order);
    if (!one_number(order_of, &carrier))
        return NO_ROW;
    reply_number(carrier);
    BIND(lines_of, district, order);
    while (step(lines_of))
        for (int column = 0; column < 3; column++)
            reply_number(NUMBER(lines_of, column));
    done(lines_of);
    return COMMITS;
}

/* Delivers the oldest order of a district, if there is one, and replies with its number. */
static int deliver_oldest(int64_t district, int64_t carrier)
{
    int64_t order, next, who, total;
    BIND(oldest_of, district);
    if (!two_numbers(oldest_of, &order, &next))
        return NO_ROW;
    if (order >= next) {
        reply_number(0);
        return COMMITS;
    }
    BIND(take_new, district, order);
    BIND(next_of, district);
    BIND(deliver, district, order, carrier);
    if (!run(take_new) || !run(next_of) || !one_number(deliver, &who))
        return NO_ROW;
    BIND(sum_lines, district, order);
    one_number(sum_lines, &total);
    BIND(deliver_lines, district, order);
    run(deliver_lines);
    BIND(credit, who, total);
    if (!run(credit))
        return NO_ROW;
    reply_number(order);
    return COMMITS;
}

static int delivery(int64_t warehouse, int64_t carrier)
{
    int code = COMMITS;
    for (int64_t of = 0; of < DISTRICTS && code == COMMITS; of++)
        code = deliver_oldest(warehouse * DISTRICTS + of, carrier);
    return code;
}

static int stock_level(int64_t district, int64_t least)
{
    int64_t oldest, next, low;
    BIND(oldest_of, district);
    if (!two_numbers(oldest_of, &oldest, &next))
        return NO_ROW;
    BIND(short_items, district, next - LAST_ORDERS, next - 1, least, warehouses, district / DISTRICTS);
    one_number(short_items, &low);
    reply_number(low);
    return COMMITS;
}

static int answer(const struct call *call)
{
    const struct value *values = call->values;
    if (strncmp(call->name.text, "new_order_", 10) == 0)
        return new_order(call);
    if (is_named(&call->name, "payment"))
        return payment(values[0].number, values[1].number, values[2].number);
    if (is_named(&call->name, "order_status"))
        return order_status(values[0].number);
    if (is_named(&call->name, "delivery"))
        return delivery(values[0].number, values[1].number);
    if (is_named(&call->name, "stock_level"))
        return stock_level(values[0].number, values[1].number);
    fail("there is no such procedure");
}

static bool is_one_statement(const struct value *name)
{
    (void)name;
    return false;
}

const struct workload tpcc = {
    .name = "tpcc",
    .schema = schema,
    .prepare = prepare,
    .load = load,
    .answer = answer,
    .is_one_statement = is_one_statement,
};
