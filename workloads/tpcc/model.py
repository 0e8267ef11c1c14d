#!/usr/bin/env -S python3 -B
"""A model of TPC-C: `model.py FOLDER` prints the report of FOLDER/log on FOLDER/setup.json."""
import sys
from pathlib import Path

sys.path.insert(0, str(Path(__file__).resolve().parent.parent))

from loads import model  # noqa: E402
from report import Abort  # noqa: E402

# The columns of the tables, by their names.
COLUMNS = {
    "warehouse": "tax ytd",
    "district": "tax ytd next_order next_history oldest",
    "customer": "credit discount balance ytd payments deliveries last_order",
    "orders": "customer lines carrier",
    "order_line": "item supply quantity amount delivered",
    "item": "price name",
    "stock": "quantity ytd orders remote",
}
PLACES = {table: {name: place for place, name in enumerate(names.split())} for table, names in COLUMNS.items()}


class Store:
    """Rows by the names of their columns."""

    def __init__(self, rows):
        self.rows = rows
        self.warehouses, self.districts = len(rows.tables["warehouse"]), len(rows.tables["district"])

    def get(self, table, key, name):
        return self.rows.get(table, key, PLACES[table][name])

    def put(self, table, key, name, value):
        self.rows.put(table, key, PLACES[table][name], value)

    def add(self, table, key, name, number):
        before = self.get(table, key, name)
        self.put(table, key, name, before + number)
        return before

    def of(self, number, district):
        """The key of what has a number in a district."""
        return number * self.districts + district

    def line(self, order, number, district):
        return self.of(order * 16 + number, district)


def new_order(store, who, *lines):
    district = who % store.districts
    home = district // 10
    order = store.add("district", district, "next_order", 1)
    store.put("customer", who, "last_order", order)
    store.rows.insert("orders", store.of(order, district), [who, len(lines), 0])
    store.rows.insert("new_order", store.of(order, district), [who])
    total = 0
    for number, line in enumerate(lines, 1):
        stock, quantity = divmod(line, 16)
        item, supply = divmod(stock, store.warehouses)
        if not store.rows.has("item", item):
            raise Abort(100)
        amount = quantity * store.get("item", item, "price")
        there = store.get("stock", stock, "quantity")
        store.put("stock", stock, "quantity", there - quantity + (91 if there < quantity + 10 else 0))
        store.add("stock", stock, "ytd", quantity)
        store.add("stock", stock, "orders", 1)
        store.add("stock", stock, "remote", 0 if supply == home else 1)
        store.rows.insert("order_line", store.line(order, number, district), [item, supply, quantity, amount, 0])
        total += amount
    less = total * (10_000 - store.get("customer", who, "discount")) // 10_000
    taxes = store.get("warehouse", home, "tax") + store.get("district", district, "tax")
    return [order, less * (10_000 + taxes) // 10_000]


def payment(store, who, district, amount):
    store.add("warehouse", district // 10, "ytd", amount)
    store.add("district", district, "ytd", amount)
    balance = store.add("customer", who, "balance", -amount)
    store.add("customer", who, "ytd", amount)
    store.add("customer", who, "payments", 1)
    number = store.add("district", district, "next_history", 1)
    store.rows.insert("history", store.of(number, district), [who, amount])
    return [balance - amount]


def order_status(store, who):
    district, order = who % store.districts, store.get("customer", who, "last_order")
    found = [store.get("customer", who, "balance"), order]
    if order:
        found.append(store.get("orders", store.of(order, district), "carrier"))
        for number in range(1, store.get("orders", store.of(order, district), "lines") + 1):
            key = store.line(order, number, district)
            found += [store.get("order_line", key, name) for name in ("item", "quantity", "amount")]
    return found


def delivered(store, district, carrier):
    order = store.get("district", district, "oldest")
    if order >= store.get("district", district, "next_order"):
        return 0
    key = store.of(order, district)
    store.rows.delete("new_order", key)
    store.add("district", district, "oldest", 1)
    store.put("orders", key, "carrier", carrier)
    who, total = store.get("orders", key, "customer"), 0
    for number in range(1, store.get("orders", key, "lines") + 1):
        line = store.line(order, number, district)
        total += store.get("order_line", line, "amount")
        store.put("order_line", line, "delivered", 1)
    store.add("customer", who, "balance", total)
    store.add("customer", who, "deliveries", 1)
    return order


def delivery(store, warehouse, carrier):
    return [delivered(store, warehouse * 10 + of, carrier) for of in range(10)]


def stock_level(store, district, least):
    last, short = store.get("district", district, "next_order"), set()
    for order in range(max(1, last - 20), last):
        for number in range(1, store.get("orders", store.of(order, district), "lines") + 1):
            item = store.get("order_line", store.line(order, number, district), "item")
            if store.get("stock", item * store.warehouses + district // 10, "quantity") < least:
                short.add(item)
    return [len(short)]


CALLS = {"payment": payment, "order_status": order_status, "delivery": delivery, "stock_level": stock_level}


def answer(rows, name, *values):
    return CALLS.get(name, new_order)(Store(rows), *values)


if __name__ == "__main__":
    model(answer)
