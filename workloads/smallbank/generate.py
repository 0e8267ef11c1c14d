#!/usr/bin/env -S python3 -B
"""SmallBank's rows and calls: `generate.py FOLDER [--customers N] [--hot N] [--share F] ..`.

A share F of the customers that calls name is drawn from the first N of them, the hot set, as in Alomari and others,
"The Cost of Serializability on Platforms That Use Snapshot Isolation" (ICDE 2008); the mix is H-Store's.
"""
import random
import sys
from pathlib import Path

sys.path.insert(0, str(Path(__file__).resolve().parent.parent))

from loads import reader, setup_with, write  # noqa: E402

MIX = {"balance": 15, "deposit_checking": 15, "transact_savings": 15, "amalgamate": 15, "write_check": 25, "send_payment": 15}
OF_TWO = ("amalgamate", "send_payment")
MOST = {"deposit_checking": (1, 500), "transact_savings": (-2_000, 2_000), "write_check": (1, 2_000), "send_payment": (1, 500)}


def call(chance, words):
    name = chance.choices(list(MIX), MIX.values())[0]
    few = words.hot if chance.random() < words.share else words.customers
    values = chance.sample(range(few), 2) if name in OF_TWO else [chance.randrange(few)]
    if name in MOST:
        values.append(chance.randint(*MOST[name]))
    return name, values


def main():
    words = reader(__doc__, customers=10_000, hot=100, share=0.9).parse_args()
    chance = random.Random(words.seed)
    rows = [[table, key, [chance.randint(10_00, 500_00)]] for table in ("savings", "checking") for key in range(words.customers)]
    calls = [call(chance, words) for _ in range(words.calls)]
    notation = Path(__file__).with_name("setup.calvin").read_text()
    write(words.folder, setup_with(notation, rows), calls, words.batch)


if __name__ == "__main__":
    main()
