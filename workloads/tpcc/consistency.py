#!/usr/bin/env -S python3 -B
"""TPC-C's consistency conditions 1 to 4 over the row text on standard input: `calvin rows SETUP < LOG | consistency.py`.

1. What a warehouse has taken is what its districts have taken.
2. The last order of a district is the one before its next, and so is its last new order, where there is one.
3. The new orders of a district have each number from the first to the last.
4. A district has as many order lines as its orders say.
"""
import sys
from collections import Counter, defaultdict


def read(lines):
    tables = defaultdict(dict)
    for line in lines:
        table, key, *values = line.split() or sys.exit("standard input has a line that is no row line")
        tables[table][int(key)] = values
    return tables


def by_district(rows, districts, number=lambda it: it):
    found = defaultdict(list)
    for key, values in rows.items():
        found[key % districts].append((number(key // districts), values))
    return found


def broken(tables):
    """What is broken: a condition, and the warehouse or the district that breaks it."""
    count, taken = len(tables["district"]), Counter()
    orders, fresh = by_district(tables["orders"], count), by_district(tables["new_order"], count)
    lines = by_district(tables["order_line"], count)
    for district, values in tables["district"].items():
        taken[district // 10] += int(values[1])
        numbers, left = [it for it, _ in orders[district]], [it for it, _ in fresh[district]]
        if max(numbers, default=0) != int(values[2]) - 1 or left and max(left) != int(values[2]) - 1:
            yield 2, district
        if left and max(left) - min(left) + 1 != len(left):
            yield 3, district
        if sum(int(it[1]) for _, it in orders[district]) != len(lines[district]):
            yield 4, district
    for warehouse, values in tables["warehouse"].items():
        if int(values[1]) != taken[warehouse]:
            yield 1, warehouse


def main():
    tables = read(sys.stdin)
    if not tables["district"]:
        print("standard input has no row of a district: is it what `calvin rows` prints?")
        return 1
    found = sorted(broken(tables))
    for condition, place in found:
        print(f"condition {condition} is broken at {place}")
    print(f"{len(tables['orders'])} orders, {len(tables['district'])} districts: " + ("BROKEN" if found else "consistent"))
    return 1 if found else 0


if __name__ == "__main__":
    sys.exit(main())
