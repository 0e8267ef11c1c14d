"""The figures of a comparison: what was taken in each round, and the text that is made of them."""
from dataclasses import dataclass, field
from functools import reduce

from comparing.running import Taken
from comparing.tables import number, table

QUANTITIES = ("processor s", "elapsed s", "memory MB", "µs a call")
ABSENT = "–"


@dataclass
class Figures:
    """By load and system: what runs of the whole log took, and what runs of an empty log took on the same setup."""

    calls: dict = field(default_factory=dict)
    whole: dict = field(default_factory=dict)
    empty: dict = field(default_factory=dict)

    def add(self, load, system, whole, empty):
        self.whole.setdefault(load, {}).setdefault(system, []).append(whole)
        self.empty.setdefault(load, {}).setdefault(system, []).append(empty)

    def best(self, load, system):
        return reduce(Taken.best, self.whole[load][system])

    def a_call(self, load, system):
        """Microseconds of the processors that a call takes: those of the log less those of an empty log."""
        empty = reduce(Taken.best, self.empty[load][system])
        spent = self.best(load, system).processor - empty.processor
        return max(0.0, spent) * 1e6 / self.calls[load]

    def has(self, load, system):
        return system in self.whole.get(load, {})

    def quantities(self, load, system):
        if not self.has(load, system):
            return [ABSENT] * len(QUANTITIES)
        best = self.best(load, system)
        return [*map(number, (best.processor, best.wall, best.memory, self.a_call(load, system)))]

    def table(self, systems):
        """For each load a row for each quantity, and a column for each system."""
        rows = []
        for load, calls in self.calls.items():
            columns = [self.quantities(load, system) for system in systems]
            for place, quantity in enumerate(QUANTITIES):
                name = f"{load}, {calls:,} calls" if place == 0 else ""
                rows.append([name, quantity, *(column[place] for column in columns)])
        return table(["load", "", *systems], rows)

    def ratios(self, one, other, systems):
        """What the systems of one program take of the processors beside those of another: a row for each load, and a
        column for each way in which both are run."""
        ways = [name[len(one) :] for name in systems if name.startswith(one + " ")]
        shared = [way for way in ways if other + way in systems]
        rows = []
        for load in self.calls:
            spent = [[self.best(load, name + way).processor for name in (one, other)] for way in shared]
            rows.append([load, *(number(first / second) if second else ABSENT for first, second in spent)])
        return table(["load", *map(str.strip, shared)], rows)

    def of_calls(self, systems):
        """What a plot shows: by load and system, microseconds of the processors a call, where they are above 0."""
        shown = {}
        for load in self.calls:
            of = {system: self.a_call(load, system) for system in systems if self.has(load, system)}
            shown[load] = {system: spent for system, spent in of.items() if spent > 0}
        return {load: of for load, of in shown.items() if of}

    def raw(self):
        """All that was taken, for a file of JSON."""
        return {
            load: {
                "calls": calls,
                "whole": {name: [vars(it) for it in runs] for name, runs in self.whole[load].items()},
                "empty": {name: [vars(it) for it in runs] for name, runs in self.empty[load].items()},
            }
            for load, calls in self.calls.items()
        }


def of_waits(waits, systems):
    """The table of latencies: by size of the batch and system, the middle wait and that of 99 in 100."""
    rows = []
    for size, of in waits.items():
        cells = [of.get(system) for system in systems]
        for place, share in enumerate(("middle", "99 in 100")):
            name = f"{size:,} a batch" if place == 0 else ""
            shown = [number((it.middle, it.most)[place] * 1e6) if it else ABSENT for it in cells]
            rows.append([name, share, *shown])
    return table(["calls", "µs", *systems], rows)
