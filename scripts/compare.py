#!/usr/bin/env -S python3 -B
"""Compares the executor with a plain program, with SQLite and with Redis on the same logs, in turns in one run:

    bench/build.sh
    scripts/compare.py [--program NAME=PATH ..] [--loads pay,tpcc] [--rounds N] [--into docs/performance.md]

It prints a table of what each load took by each system, the best of all rounds: seconds of the processors, seconds that
passed, the most memory, and microseconds of the processors a call, which are those of the log less those of an empty
log on the same setup. Then it prints how long a call waits for its reply line, by how many are in a batch. What isn't
there is left out and named. All replies must be the same, and those of the models in workloads/, and the reports of
all programs that write them; it ends with status 1 where one isn't.

With several --program, each of another build, they are measured side by side. --peer takes any program that is run as
`PATH SETUP < LOG` and writes the report, in the place of the plain one of bench/build.sh. bench/README.md says what
favours whom.
"""
import argparse
import json
import sys
import tempfile
from pathlib import Path

TOP = Path(__file__).resolve().parent.parent
sys.path.insert(0, str(TOP / "bench"))

from comparing import latency, machine, plot, tables  # noqa: E402
from comparing.figures import Figures, of_waits  # noqa: E402
from comparing.loads import LOADS, NAMED  # noqa: E402
from comparing.running import Failed, run, written  # noqa: E402
from comparing.systems import found  # noqa: E402

CLIENTS = TOP / "bench/out"
BUILT = TOP / "crates/cli/out/cli"
MOST_IN_A_BATCH, MOST_WORKERS = 4_096, 16
TITLE = "Microseconds of the processors a call"


def named_path(word):
    name, equals, path = word.partition("=")
    if not (name and equals and path):
        raise argparse.ArgumentTypeError(f"{word} is not NAME=PATH")
    return name, str(Path(path).resolve())


def named_loads(word):
    unknown = [name for name in names(word) if name not in NAMED]
    if unknown:
        raise argparse.ArgumentTypeError(f"there is no load {', '.join(unknown)}; there are {', '.join(NAMED)}")
    return [NAMED[name] for name in names(word)]


def named_load(word):
    return named_loads(word)[0]


def names(word):
    return word.split(",") if word else []


def number(word, most):
    """A number from 1 to the most that there may be."""
    if not word.isdecimal() or not 1 <= int(word) <= most:
        raise argparse.ArgumentTypeError(f"{word} is no number from 1 to {most:,}")
    return int(word)


def rounds(word):
    return number(word, 1_000)


def sizes(word):
    return [number(size, MOST_IN_A_BATCH) for size in names(word)]


def ways(word):
    return [way if way == "alone" else str(number(way, MOST_WORKERS)) for way in names(word)]


def reader():
    words = argparse.ArgumentParser(description=__doc__, formatter_class=argparse.RawDescriptionHelpFormatter)
    several = {"type": named_path, "action": "append", "default": [], "metavar": "NAME=PATH"}
    add = words.add_argument
    add("--program", **several, help="a built program of the executor (default: calvin=crates/cli/out/cli)")
    add("--peer", **several, help="a program that writes reports (default: plain=bench/out/plain)")
    add("--clients", type=Path, default=CLIENTS, metavar="FOLDER", help="where bench/build.sh has put its programs")
    add("--loads", type=named_loads, default=list(LOADS), metavar="NAME,..", help="(default: all)")
    add("--ways", type=ways, default=["alone", "1", "2", "4"], metavar="WAY,..", help="alone, or numbers of workers")
    add("--rounds", type=rounds, default=5, metavar="N", help="(default: 5)")
    add("--scale", type=float, default=1.0, metavar="F", help="so many times the calls of each load")
    add("--batches", type=sizes, default=[1, 16, 256, 4096], metavar="N,..", help="whose latency is measured, or ''")
    add("--waiting", type=named_load, default=NAMED["smallbank"], metavar="LOAD", help="of which load it is")
    add("--json", type=Path, metavar="FILE", help="writes all that was taken")
    add("--svg", type=Path, metavar="FILE", help="writes the plot")
    add("--into", type=Path, metavar="PAGE", help="writes the figures between a page's two marks, the plot beside it")
    return words


class Comparison:
    """Systems that are run on loads in a folder, and what came of it."""

    def __init__(self, systems, taken, folder):
        self.systems, self.taken, self.folder, self.figures = systems, taken, folder, Figures()
        self.replies, self.reports, self.differing = {}, {}, set()

    def make(self, load, scale):
        """Makes a load, and notes what its model writes."""
        at = self.folder / load.name
        self.figures.calls[load.name] = load.make(at, scale)
        (at / "empty").touch()
        report = load.model(at)
        if report is not None:
            self.check(load.name, "the model", 1, True, written(report))

    def check(self, load, name, version, reports, of):
        """Compares what was written with what was written first."""
        if self.replies.setdefault(load, of.replies) != of.replies:
            self.differing.add(f"{load}: {name} replies otherwise")
        if reports and self.reports.setdefault((load, version), of.whole) != of.whole:
            self.differing.add(f"{load}: the report of {name} is another one")

    def measure(self, load, system):
        at = self.folder / load.name
        command = system.command(load, at)
        if not command:
            return
        empty, whole = (run(self.taken, command, at / log, at / "out") for log in ("empty", "log"))
        self.figures.add(load.name, system.name, whole, empty)
        self.check(load.name, system.name, system.version, system.reports, written((at / "out").read_bytes()))

    def round(self, loads, is_backwards):
        """Runs each load by each system, in this order or in the other one."""
        for load in loads:
            for system in reversed(self.systems) if is_backwards else self.systems:
                self.measure(load, system)

    def waits(self, load, batches, scale):
        """How long calls of a load wait, by the size of the batch and the system."""
        at = self.folder / "waiting"
        load.make(at, 1, batch=max(batches))
        calls = [line for line in (at / "log").read_bytes().splitlines(keepends=True) if line != latency.CUT]
        waits = {}
        for size in batches:
            count = max(2, round(latency.BATCHES.get(size, 20) * scale))
            for system in self.systems:
                command = system.command(load, at)
                if command:
                    waits.setdefault(size, {})[system.name] = latency.measured(command, calls, size, count)
        return waits


def systems_of_both(programs, systems):
    """Whether both programs have been run."""
    return all(any(name.startswith(program + " ") for name in systems) for program, _ in programs)


def text_of(comparison, waits, missing, words, plotted):
    """The figures as a text: the machine, the plot, the tables and what is missing."""
    systems = [system.name for system in comparison.systems]
    parts = [f"Measured on {words.machine}; the best of {words.rounds}."]
    if plotted:
        parts.append(f"![{TITLE}]({plotted.name})")
    parts.append(comparison.figures.table(systems))
    if len(words.program) == 2 and systems_of_both(words.program, systems):
        (one, _), (other, _) = words.program
        parts.append(f"The time of the processors that {other} takes, where {one} takes 1:")
        parts.append(comparison.figures.ratios(other, one, systems))
    if waits:
        parts.append(f"How long a call of {words.waiting.name} waits for its reply line:")
        parts.append(of_waits(waits, systems))
    return "\n\n".join([part.strip() for part in parts + [" ".join(missing)] if part]) + "\n"


def compared(systems, words, folder):
    comparison = Comparison(systems, words.clients / "taken", folder)
    for load in words.loads:
        comparison.make(load, words.scale)
    for turn in range(words.rounds):
        comparison.round(words.loads, turn % 2 == 1)
    waits = comparison.waits(words.waiting, words.batches, words.scale) if words.batches else {}
    return comparison, waits


def keep(comparison, waits, text, words, plotted):
    """Writes what the words ask for."""
    systems = [system.name for system in comparison.systems]
    if plotted:
        plotted.write_text(plot.bars(TITLE, comparison.figures.of_calls(systems), systems))
    if words.into:
        words.into.write_text(tables.filled(words.into.read_text(), text))
    if words.json:
        latencies = {size: {name: vars(it) for name, it in of.items()} for size, of in waits.items()}
        raw = {"machine": words.machine, "rounds": words.rounds, "loads": comparison.figures.raw()}
        words.json.write_text(json.dumps({**raw, "latency": latencies}, indent=1) + "\n")


def main():
    words = reader().parse_args()
    words.machine = machine.description()
    words.program = words.program or [("calvin", str(BUILT))]
    words.peer = words.peer or [("plain", str(words.clients / "plain"))]
    systems, missing = found(words)
    if not (words.clients / "taken").exists():
        missing.append("What measures is missing: bench/build.sh makes it.")
        systems = []
    if not systems:
        print(" ".join(missing))
        return 1
    plotted = words.svg or (words.into.with_suffix(".svg") if words.into else None)
    with tempfile.TemporaryDirectory() as folder:
        try:
            comparison, waits = compared(systems, words, Path(folder))
        except Failed as failed:
            print(failed)
            return 1
    text = text_of(comparison, waits, missing, words, plotted)
    print(text)
    if comparison.differing:
        print("\n".join(sorted(comparison.differing)))
    else:
        keep(comparison, waits, text, words, plotted)
    ended = "THEIR REPLIES DIFFER, and nothing is written" if comparison.differing else "all replies agree"
    print(f"{len(systems)} systems ran {len(words.loads)} loads, {words.rounds} times each: {ended}")
    return 1 if comparison.differing else 0


if __name__ == "__main__":
    sys.exit(main())
