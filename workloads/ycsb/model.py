#!/usr/bin/env -S python3 -B
"""A model of YCSB: `model.py FOLDER` prints the report of FOLDER/log on FOLDER/setup.json."""
import sys
from pathlib import Path

sys.path.insert(0, str(Path(__file__).resolve().parent.parent))

from loads import model  # noqa: E402
from report import Abort  # noqa: E402

SCANNED = 25
LAST = 1_022  # the last bound's place, where there are as many partitions as there may be
MOST_REPLIED = 64


def fields(rows, key):
    return [rows.get("record", key, it) for it in range(10)]


def scanned(rows, part):
    """The keys of a partition and their first fields, or the abort of a reply that is too long."""
    keys = [key for key in rows.tables["record"] if part_of(rows, key) == part]
    found = [value for key in sorted(keys) for value in (key, rows.get("record", key, 0))]
    if len(found) > MOST_REPLIED:
        raise Abort(7)
    return found


def part_of(rows, key):
    """Which partition a key is in: the last one has all keys after the last bound."""
    return min(key // SCANNED, rows.parts - 1)


def answer(rows, name, key, *more):
    if not hasattr(rows, "parts"):
        rows.parts = min(-(-len(rows.tables["record"]) // SCANNED), LAST + 2)
    if name == "read":
        return fields(rows, key)
    if name == "scan":
        if not 0 <= key < rows.parts:
            raise Abort(6)
        return scanned(rows, key)
    if name == "insert_one":
        rows.insert("record", key, [more[0]] * 10)
        return []
    kind, column = name.split("_")
    before = fields(rows, key) if kind == "modify" else []
    rows.put("record", key, int(column), more[0])
    return before


if __name__ == "__main__":
    model(answer)
