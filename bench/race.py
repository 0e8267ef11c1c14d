#!/usr/bin/env -S python3 -B
"""Races a program of the executor on workers against itself alone, in turns in one run:

    bench/build.sh
    bench/race.py FOLDER ..  [--program NAME=PATH ..] [--ways 1,2,4,16] [--rounds N]
    bench/race.py --batches N [--program NAME=PATH ..] [--ways 16]

A FOLDER has a load: setup.json, and log. For each load and each number of workers there is the time that passed over
that of `--alone`, and likewise the time of the processors, each the best of the rounds by itself; below 1 the workers
pay. Every second round goes backwards. A program that is named after the first one is set beside it: what it takes
where the first one takes 1. All reports of a load must be the same; the script ends with status 1 where one isn't.

With --batches there are two loads more, of N batches of two and of six transfers between a hundred accounts; in each
tenth batch the first call is long. Of six calls some are mostly run beside the long one, so it is handed over, and
threads wait and are woken all the time; of two, few long calls are handed over. A run that takes longer than --limit
seconds ends the race with status 1: it hangs.
"""
import argparse
import json
import subprocess
import sys
import tempfile
from pathlib import Path

HERE = Path(__file__).resolve().parent
TOP = HERE.parent
sys.path[:0] = [str(HERE), str(TOP / "scripts")]

import loads  # noqa: E402
from comparing import machine, tables  # noqa: E402
from comparing.running import Failed, run, written  # noqa: E402

ALONE = "alone"
ACCOUNTS, TENTH = 100, 10
SIZES = {2: "twos", 6: "sixes"}


def named_path(word):
    name, equals, path = word.partition("=")
    if not (name and equals and path):
        raise argparse.ArgumentTypeError(f"{word} is not NAME=PATH")
    return name, str(Path(path).resolve())


def ways(word):
    numbers = word.split(",")
    if not all(number.isdecimal() and 1 <= int(number) <= 16 for number in numbers):
        raise argparse.ArgumentTypeError(f"{word} has something else than numbers from 1 to 16")
    return [ALONE, *numbers]


def positive(word):
    if not word.isdecimal() or int(word) < 1:
        raise argparse.ArgumentTypeError(f"{word} is no number above 0")
    return int(word)


def reader():
    words = argparse.ArgumentParser(description=__doc__, formatter_class=argparse.RawDescriptionHelpFormatter)
    add = words.add_argument
    add("loads", nargs="*", type=Path, metavar="FOLDER", help="a load: setup.json and log")
    add("--program", type=named_path, action="append", default=[], metavar="NAME=PATH",
        help="a built program of the executor (default: calvin=crates/cli/out/cli)")
    add("--ways", type=ways, default=[ALONE, "1", "2", "4", "16"], metavar="N,..", help="numbers of workers")
    add("--rounds", type=positive, default=5, metavar="N", help="(default: 5)")
    add("--batches", type=positive, metavar="N", help="also N batches of two calls, and of six")
    add("--limit", type=positive, default=600, metavar="SECONDS", help="how long a run may take (default: 600)")
    add("--taken", type=Path, default=HERE / "out/taken", metavar="PATH", help="what measures (of bench/build.sh)")
    return words


def call_at(place, size, draw):
    """The call at a place of a log of batches of `size` calls: in each tenth batch the first one is long."""
    return loads.call("spin" if place % (size * TENTH) == 0 else "pay", ACCOUNTS, place, draw)


def make_batches(folder, count, size):
    """Writes a load of `count` batches of `size` calls."""
    draw = loads.random.Random("batches")
    folder.mkdir()
    (folder / "setup.json").write_text(json.dumps(loads.setup(ACCOUNTS, draw)))
    with open(folder / "log", "w") as log:
        for place in range(size * count):
            log.write(json.dumps(["call", *call_at(place, size, draw)], separators=(",", ":")) + "\n")
            if place % size == size - 1:
                log.write('["cut"]\n')
    return folder


class Race:
    """Programs that are run in several ways, and the best that each took on each load."""

    def __init__(self, words, folder):
        self.programs, self.ways, self.words, self.out = words.program, words.ways, words, folder / "out"
        self.best, self.reports, self.differing = {}, {}, set()

    def measure(self, load, name, path, way):
        command = [path, "run", *((f"--{way}",) if way == ALONE else ("--workers", way)), str(load / "setup.json")]
        try:
            took = run(self.words.taken, ["timeout", str(self.words.limit), *command], load / "log", self.out)
        except Failed as failed:
            raise Failed(f"{load.name}, {name} {way}: {failed}") from failed
        key = load.name, name, way
        self.best[key] = took.best(self.best.get(key, took))
        report = written(self.out.read_bytes()).whole
        if self.reports.setdefault(load.name, report) != report:
            self.differing.add(f"{load.name}: the report of {name} {way} is another one")

    def round(self, folders, is_backwards):
        runs = [(load, *program, way) for load in folders for program in self.programs for way in self.ways]
        for one in reversed(runs) if is_backwards else runs:
            self.measure(*one)

    def ratios(self, folders, measure):
        """A table of what each program takes on workers, where it takes 1 alone, and of its seconds alone."""
        head = ["load"]
        for name, _ in self.programs:
            head += [f"{name} alone, s", *(f"{name} {way}" for way in self.ways if way != ALONE)]
        rows = []
        for load in folders:
            row = [load.name]
            for name, _ in self.programs:
                alone, *others = (getattr(self.best[load.name, name, way], measure) for way in self.ways)
                row += [tables.number(alone), *(f"{other / alone:.2f}" for other in others)]
            rows.append(row)
        return tables.table(head, rows)

    def beside(self, folders):
        """A table of what each further program takes, where the first one takes 1 in the same way."""
        (first, _), *others = self.programs
        measures = ", wall", ", processor"
        head = ["load", *(f"{name} {way}{of}" for name, _ in others for way in self.ways for of in measures)]
        rows = []
        for load in folders:
            row = [load.name]
            for name, _ in others:
                for way in self.ways:
                    one, two = (self.best[load.name, it, way] for it in (first, name))
                    row += [f"{two.wall / one.wall:.2f}", f"{two.processor / one.processor:.2f}"]
            rows.append(row)
        return tables.table(head, rows)


def text_of(race, folders):
    parts = [f"Measured on {race.words.machine}; the best of {race.words.rounds}."]
    parts += ["Time that passed, over that of `--alone`:", race.ratios(folders, "wall")]
    parts += ["Time of the processors, likewise:", race.ratios(folders, "processor")]
    if len(race.programs) > 1:
        parts += [f"Where {race.programs[0][0]} takes 1 in the same way:", race.beside(folders)]
    return "\n\n".join(part.strip() for part in parts) + "\n"


def main():
    words = reader().parse_args()
    words.machine = machine.description()
    words.program = words.program or [("calvin", str(TOP / "crates/cli/out/cli"))]
    absent = [str(path) for path in (words.taken, *(path for _, path in words.program)) if not Path(path).exists()]
    if absent or not (words.loads or words.batches):
        print(f"there is no {', '.join(absent)}" if absent else "there is no load: name a folder, or --batches")
        return 1
    with tempfile.TemporaryDirectory() as room:
        sizes = SIZES.items() if words.batches else ()
        folders = [*words.loads, *(make_batches(Path(room) / name, words.batches, size) for size, name in sizes)]
        race = Race(words, Path(room))
        try:
            for turn in range(words.rounds):
                race.round(folders, turn % 2 == 1)
        except (Failed, subprocess.SubprocessError) as failed:
            print(failed)
            return 1
    print(text_of(race, folders))
    print("\n".join(sorted(race.differing)) or "all reports agree")
    return 1 if race.differing else 0


if __name__ == "__main__":
    sys.exit(main())
