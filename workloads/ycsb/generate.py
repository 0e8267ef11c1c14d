#!/usr/bin/env -S python3 -B
"""YCSB's records and operations: `generate.py FOLDER [--workload a|b|c|e|f] [--keys zipf|uniform] [--records N] ..`.

The core workloads of Cooper and others, "Benchmarking Cloud Serving Systems with YCSB" (SoCC 2010), with the skew of
0.99: a is half reads and half updates, b has 95 reads in 100, c has reads alone, e has 95 short scans and 5 inserts,
and f half reads and half reads that modify. A scan goes through a partition of 25 keys.
"""
import random
import sys
from pathlib import Path

sys.path.insert(0, str(Path(__file__).resolve().parent))
sys.path.insert(0, str(Path(__file__).resolve().parent.parent))

from loads import Uniform, Zipf, reader, setup_with, write  # noqa: E402
from setup import FIELDS, SCANNED, notation  # noqa: E402

MIX = {
    "a": {"read": 50, "update": 50},
    "b": {"read": 95, "update": 5},
    "c": {"read": 100},
    "e": {"scan": 95, "insert_one": 5},
    "f": {"read": 50, "modify": 50},
}
SIGNS = "abcdefghijklmnopqrstuvwxyz0123456789"
LENGTH = 50


def text(chance):
    return "".join(chance.choices(SIGNS, k=LENGTH))


def operations(words, chance, keys):
    mix, records = MIX[words.workload], words.records
    for _ in range(words.calls):
        name, key = chance.choices(list(mix), mix.values())[0], keys.draw()
        if name == "read":
            yield name, [key]
        elif name == "scan":
            yield name, [min(key // SCANNED, 1_023)]
        elif name == "insert_one":
            yield name, [records, text(chance)]
            records += 1
        else:
            yield f"{name}_{chance.choice(FIELDS)}", [key, text(chance)]


def main():
    words = reader(__doc__, workload="a", keys="zipf", records=10_000).parse_args()
    chance = random.Random(words.seed)
    keys = Zipf(words.records, 0.99, chance) if words.keys == "zipf" else Uniform(words.records, chance)
    rows = [["record", key, [text(chance) for _ in FIELDS]] for key in range(words.records)]
    write(words.folder, setup_with(notation(words.records), rows), operations(words, chance, keys), words.batch)


if __name__ == "__main__":
    main()
