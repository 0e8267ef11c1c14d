"""What the generators of the workloads share: their words, keys by chance, and the files that they write.

Each is called as `generate.py FOLDER [--seed N] [--calls N] [--batch N] ..`, and writes FOLDER/setup.json and
FOLDER/log, which are the same each time for the same words.
"""
import argparse
import bisect
import itertools
import json
import random
import sys
from pathlib import Path

HERE = Path(__file__).resolve().parent
sys.path.insert(0, str(HERE.parent / "tools/notation"))

from grammar import parsed  # noqa: E402
from spots import plain  # noqa: E402
from tree import setup_of  # noqa: E402


class Zipf:
    """Numbers below a count, of which the one of rank r comes with a chance in proportion to 1 / r ** skew (Gray and
    others, 1994). Ranks are spread over the numbers by a fixed shuffle, so that neighbours differ in heat."""

    def __init__(self, count, skew, chance):
        weights = [1 / rank**skew for rank in range(1, count + 1)]
        self.sums, self.chance = list(itertools.accumulate(weights)), chance
        self.numbers = list(range(count))
        random.Random(2026).shuffle(self.numbers)

    def draw(self):
        place = bisect.bisect(self.sums, self.chance.random() * self.sums[-1])
        return self.numbers[min(place, len(self.numbers) - 1)]


class Uniform:
    def __init__(self, count, chance):
        self.count, self.chance = count, chance

    def draw(self):
        return self.chance.randrange(self.count)


def reader(about, **sizes):
    """The words that a generator takes: a folder, a seed, how many calls there are and in a batch, and its sizes."""
    words = argparse.ArgumentParser(description=about)
    words.add_argument("folder", type=Path)
    for name, size in {"seed": 1, "calls": 20_000, "batch": 4_000, **sizes}.items():
        words.add_argument(f"--{name}", type=type(size), default=size, help=f"(default: {size})")
    return words


def setup_with(notation, rows):
    """The setup in a text of the notation, with these rows: lists of a table, a key and values."""
    setup = plain(setup_of(parsed(notation)))
    setup[4] = ["rows", 1, rows]
    return setup


def write(folder, setup, calls, batch):
    """Writes a setup and the log of these calls, each a procedure's name and its values, `batch` in a batch."""
    folder.mkdir(parents=True, exist_ok=True)
    (folder / "setup.json").write_text(json.dumps(setup, separators=(",", ":")) + "\n")
    with (folder / "log").open("w") as log:
        for place, (name, values) in enumerate(calls):
            if place and place % batch == 0:
                log.write('["cut"]\n')
            log.write(json.dumps(["call", name, values], separators=(",", ":")) + "\n")


def model(answer):
    """A model's command: reads FOLDER/setup.json's rows and FOLDER/log, and prints the report."""
    from report import Rows, report_of

    folder = Path(sys.argv[1])
    setup = json.loads((folder / "setup.json").read_text())
    rows = Rows(table[0] for table in setup[2][2])
    for table, key, values in setup[4][2]:
        rows.tables[table][key] = values
    with (folder / "log").open() as log:
        sys.stdout.write(report_of(rows, answer, log))
