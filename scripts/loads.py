#!/usr/bin/env python3
"""Writes a load, a setup and a log, into a folder:

    scripts/loads.py NAME FOLDER [CALLS]

pay    transfers between two of 10,000 accounts          hot    the same between two of 10
spin   900 turns of a loop a call, each in its account   hop    a row names the account that a call changes; its footprint is found
scan   transfers, and each tenth call sums a partition   big    transfers over 200,000 accounts
many   transfers over 10,000 accounts, two in a batch    tiny   the same over 20 accounts

Without CALLS there are 20,000 calls, 400 of `many` and 4,000 of `tiny`; the others have 4,000 calls in a batch. FOLDER/setup.json
and FOLDER/log are the same each time.
"""
import json
import os
import random
import sys

ACCOUNTS = {"hot": 10, "tiny": 20, "big": 200_000}
CALLS = {"many": 400, "tiny": 4_000}
TWO_A_BATCH = {"many", "tiny"}

PAY = ["pay", [["from", "int"], ["to", "int"], ["sum", "int"]],
       ["declared", ["row", "w", "account", "from"], ["row", "w", "account", "to"]],
       [["get", "left", "account", "from", "balance"], ["get", "there", "account", "to", "balance"],
        ["if", ["<", "left", "sum"], [["abort", 100]], []],
        ["put", "account", "from", "balance", ["-", "left", "sum"]],
        ["put", "account", "to", "balance", ["+", "there", "sum"]],
        ["reply", ["-", "left", "sum"]]]]
SPIN = ["spin", [["key", "int"], ["turns", "int"]], ["declared", ["row", "w", "account", "key"]],
        [["let", "total", 0],
         ["for", "turn", 1, "turns", [["let", "total", ["+", "total", ["%", ["*", "turn", 7], 13]]]]],
         ["put", "account", "key", "balance", "total"], ["reply", "total"]]]
HOP = ["hop", [["key", "int"]], ["recon"],
       [["get", "named", "pointer", "key", "to"], ["get", "there", "account", "named", "balance"],
        ["put", "account", "named", "balance", ["+", "there", 1]], ["reply", "named"]]]
SUM = ["sum", [["part", "int"]], ["declared", ["part", "r", "account", "part"]],
       [["reply", ["count", "account", "part"], ["sum", "account", "part", "balance"]]]]


def setup(accounts, draw):
    """64 partitions of accounts with 1,000 each, and a row for each of the first 10,000 that names another."""
    rows = [["account", key, [1_000]] for key in range(accounts)]
    rows += [["pointer", key, [draw.randrange(accounts)]] for key in range(min(accounts, 10_000))]
    tables = [["account", 64, [["balance", "int"]]], ["pointer", 4, [["to", "int"]]]]
    return ["setup", 1, ["catalogue", 1, tables], ["procs", 1, [PAY, SPIN, HOP, SUM]], ["rows", 1, rows]]


def call(name, accounts, place, draw):
    if name == "spin":
        return ["spin", [draw.randrange(accounts), 900]]
    if name == "hop":
        return ["hop", [draw.randrange(min(accounts, 10_000))]]
    if name == "scan" and place % 10 == 0:
        return ["sum", [draw.randrange(64)]]
    return ["pay", [draw.randrange(accounts), draw.randrange(accounts), draw.randint(1, 3)]]


def main():
    if len(sys.argv) not in (3, 4):
        sys.exit(__doc__)
    name, folder = sys.argv[1:3]
    calls = int(sys.argv[3]) if len(sys.argv) == 4 else CALLS.get(name, 20_000)
    accounts = ACCOUNTS.get(name, 10_000)
    batch = 2 if name in TWO_A_BATCH else 4_000
    draw = random.Random(name)
    os.makedirs(folder, exist_ok=True)
    with open(os.path.join(folder, "setup.json"), "w") as file:
        json.dump(setup(accounts, draw), file)
    with open(os.path.join(folder, "log"), "w") as file:
        for place in range(calls):
            file.write(json.dumps(["call"] + call(name, accounts, place, draw), separators=(",", ":")) + "\n")
            if place % batch == batch - 1:
                file.write('["cut"]\n')


if __name__ == "__main__":
    main()
