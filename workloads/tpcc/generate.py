#!/usr/bin/env -S python3 -B
"""TPC-C's rows and calls: `generate.py FOLDER [--warehouses N] [--customers N] [--items N] [--mix all|orders] ..`.

The mix is the benchmark's: of 100 calls 45 orders, 43 payments, and 4 each of the other three; with `--mix orders`
orders and payments alone. One order in a hundred has an item that there is not, and aborts; one line in a hundred comes
from another warehouse, and fifteen payments in a hundred are of a customer of another district.
"""
import random
import sys
from pathlib import Path

sys.path.insert(0, str(Path(__file__).resolve().parent))
sys.path.insert(0, str(Path(__file__).resolve().parent.parent))

from loads import reader, setup_with, write  # noqa: E402
from setup import notation  # noqa: E402

MIX = {
    "all": {"order": 45, "payment": 43, "order_status": 4, "delivery": 4, "stock_level": 4},
    "orders": {"order": 51, "payment": 49},
}


def skewed(chance, mask, low, high):
    """A number from low to high, of which some come more often: TPC-C's NURand, with its constant at 0."""
    return (chance.randint(0, mask) | chance.randint(low, high)) % (high - low + 1) + low


class Terminal:
    """Draws the values of calls."""

    def __init__(self, words, chance):
        self.words, self.chance, self.districts = words, chance, 10 * words.warehouses

    def customer(self, district):
        return skewed(self.chance, 1_023, 1, self.words.customers) * self.districts + district

    def line(self, home, is_wrong):
        chance, words = self.chance, self.words
        item = words.items + 1 if is_wrong else skewed(chance, 8_191, 1, words.items)
        supply = chance.randrange(words.warehouses) if chance.random() < 0.01 else home
        return (item * words.warehouses + supply) * 16 + chance.randint(1, 10)

    def order(self):
        district, count = self.chance.randrange(self.districts), self.chance.randint(5, 15)
        is_wrong = self.chance.random() < 0.01
        lines = [self.line(district // 10, is_wrong and it == count - 1) for it in range(count)]
        return f"new_order_{count}", [self.customer(district), *lines]

    def payment(self):
        district = self.chance.randrange(self.districts)
        home = self.chance.randrange(self.districts) if self.chance.random() < 0.15 else district
        return "payment", [self.customer(home), district, self.chance.randint(1_00, 5_000_00)]

    def order_status(self):
        return "order_status", [self.customer(self.chance.randrange(self.districts))]

    def delivery(self):
        return "delivery", [self.chance.randrange(self.words.warehouses), self.chance.randint(1, 10)]

    def stock_level(self):
        return "stock_level", [self.chance.randrange(self.districts), self.chance.randint(10, 20)]


def rows_of(words, chance):
    districts = 10 * words.warehouses
    for key in range(words.warehouses):
        yield ["warehouse", key, [chance.randint(0, 2_000), 0]]
    for key in range(districts):
        yield ["district", key, [chance.randint(0, 2_000), 0, 1, 1, 1]]
    for number in range(1, words.customers + 1):
        for district in range(districts):
            credit = "BC" if chance.random() < 0.1 else "GC"
            yield ["customer", number * districts + district, [credit, chance.randint(0, 5_000), 0, 0, 0, 0, 0]]
    for key in range(1, words.items + 1):
        yield ["item", key, [chance.randint(1_00, 100_00), f"item {key}"]]
        for warehouse in range(words.warehouses):
            yield ["stock", key * words.warehouses + warehouse, [chance.randint(10, 100), 0, 0, 0]]


def main():
    words = reader(__doc__, warehouses=2, customers=300, items=1_000, mix="all").parse_args()
    chance = random.Random(words.seed)
    terminal, mix = Terminal(words, chance), MIX[words.mix]
    rows = list(rows_of(words, chance))
    calls = [getattr(terminal, chance.choices(list(mix), mix.values())[0])() for _ in range(words.calls)]
    write(words.folder, setup_with(notation(words.warehouses), rows), calls, words.batch)


if __name__ == "__main__":
    main()
