"""Runs a system on a load, and tells what it took and what it wrote."""
import hashlib
import subprocess
from dataclasses import dataclass


class Failed(Exception):
    """A run that did not end well."""


@dataclass(frozen=True)
class Taken:
    """What a run took: seconds of the processors, seconds that passed, and the most memory in MB. What a process
    has started and waited for counts as its own; of memory, the greatest of one process."""

    processor: float
    wall: float
    memory: float

    @classmethod
    def of(cls, line):
        """What `taken` has written: memory is in KB there."""
        processor, wall, memory = map(float, line.split())
        return cls(processor, wall, memory / 1024)

    def best(self, other):
        pairs = ((self.processor, other.processor), (self.wall, other.wall), (self.memory, other.memory))
        return Taken(*(min(pair) for pair in pairs))


def run(taken, command, log, out):
    """Runs a command on a log by the program `taken`, and what it writes goes to a file."""
    note = out.with_name("taken")
    with open(log, "rb") as source, open(out, "wb") as sink:
        status = subprocess.run([taken, note, *command], stdin=source, stdout=sink).returncode
    if status != 0:
        raise Failed(f"{' '.join(command)} ended with status {status}")
    return Taken.of(note.read_text())


def is_reply(line):
    return not line.startswith((b"batch ", b"end "))


def digest(lines):
    return hashlib.sha256(b"".join(lines)).hexdigest()


@dataclass(frozen=True)
class Written:
    """Digests of what a run wrote: of all of it, and of the reply lines."""

    whole: str
    replies: str


def written(report):
    """What there is in the bytes of a report, or of reply lines alone."""
    lines = report.splitlines(keepends=True)
    return Written(digest(lines), digest(filter(is_reply, lines)))
