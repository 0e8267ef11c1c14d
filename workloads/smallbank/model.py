#!/usr/bin/env -S python3 -B
"""A model of SmallBank: `model.py FOLDER` prints the report of FOLDER/log on FOLDER/setup.json."""
import sys
from pathlib import Path

sys.path.insert(0, str(Path(__file__).resolve().parent.parent))

from loads import model  # noqa: E402
from report import Abort  # noqa: E402


def moved(rows, table, customer, amount):
    rows.add(table, customer, 0, amount)
    return [rows.get(table, customer, 0)]


def answer(rows, name, customer, *more):
    if name == "balance":
        return [rows.get("savings", customer, 0) + rows.get("checking", customer, 0)]
    if name == "deposit_checking":
        if more[0] < 0:
            raise Abort(101)
        return moved(rows, "checking", customer, more[0])
    if name == "transact_savings":
        if rows.get("savings", customer, 0) + more[0] < 0:
            raise Abort(102)
        return moved(rows, "savings", customer, more[0])
    if name == "amalgamate":
        total = rows.get("savings", customer, 0) + rows.get("checking", customer, 0)
        rows.put("savings", customer, 0, 0)
        rows.put("checking", customer, 0, 0)
        return moved(rows, "checking", more[0], total)
    if name == "write_check":
        covered = rows.get("savings", customer, 0) + rows.get("checking", customer, 0) >= more[0]
        return moved(rows, "checking", customer, -more[0] - (0 if covered else 1))
    if rows.get("checking", customer, 0) < more[1]:
        raise Abort(103)
    left = moved(rows, "checking", customer, -more[1])
    moved(rows, "checking", more[0], more[1])
    return left


if __name__ == "__main__":
    model(answer)
