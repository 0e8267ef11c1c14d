"""What the scripts share that run a built program and compare what comes out."""
import json
import os
import re
import subprocess
from dataclasses import dataclass
from pathlib import Path

TOP = Path(__file__).resolve().parent.parent
BUILT = TOP / "crates/cli/out/cli"
SECONDS = 60


@dataclass(frozen=True)
class Left:
    """What a run leaves: its exit status, or None where it didn't end, its outputs, and how many threads it started."""

    status: int
    out: bytes
    err: bytes
    threads: int


@dataclass(frozen=True)
class Program:
    """A program, and the library that `scripts/watch_program.c` is, which is loaded in front of the system's."""

    path: Path
    library: Path

    @staticmethod
    def watched(path, folder):
        """The program at a path. The library is compiled into a folder."""
        library = Path(folder) / "watch_program.so"
        source = TOP / "scripts/watch_program.c"
        subprocess.run(["cc", "-O1", "-Wall", "-Werror", "-shared", "-fPIC", "-o", library, source], check=True)
        return Program(Path(path).resolve(), library)

    def run(self, words, folder, log=b"", most=None):
        """What a run in a folder leaves. Each of its reads and writes moves `most` bytes at most."""
        started = os.memfd_create("started")
        try:
            given = {"LD_PRELOAD": str(self.library), "STARTED": str(started), **({"MOST": str(most)} if most else {})}
            how = {"cwd": folder, "input": log, "env": {**os.environ, **given}, "pass_fds": [started]}
            run = subprocess.run([self.path, *words], **how, capture_output=True, timeout=SECONDS, check=False)
            return Left(run.returncode, run.stdout, run.stderr, os.fstat(started).st_size)
        except subprocess.TimeoutExpired:
            return Left(None, b"", b"", os.fstat(started).st_size)
        finally:
            os.close(started)


def has_work_for_two(report):
    """Whether at least two calls of a batch commit, as its reply lines say."""
    batches = re.split(rb"^batch .*\n", report, flags=re.MULTILINE)
    return any(len(re.findall(rb"^\d+(?: of \d+)? commit", batch, re.MULTILINE)) >= 2 for batch in batches)


def texts_in(value):
    """All texts in a value of JSON."""
    if isinstance(value, str):
        yield value
    elif isinstance(value, list):
        for part in value:
            yield from texts_in(part)


def count_steps(block):
    """About how many steps a block takes, without those of its expressions; 10,000 where a loop's turns are unknown."""
    return sum(map(count_statement, block))


def count_statement(statement):
    """The same of a statement."""
    match statement:
        case ["if", _, first, second]:
            return 1 + max(count_steps(first), count_steps(second))
        case ["for", _, int(low), int(high), block]:
            return 1 + max(high - low + 1, 0) * (1 + count_steps(block))
        case ["for" | "each", *_]:
            return 10_000
        case _:
            return 1


def with_loops(setup):
    """A setup without a fault, no call of which is brief: before each body of few steps is a loop of one turn.

    How many turns the loop has isn't known before, since it goes to a sum. So the scheduler's thread doesn't run such a
    call in place, at least not the first 65: it gets a plan, locks, a loan and a lane, and a worker may run it. The
    setup means the same but for two steps a call. A call may take 10,000, and one of few steps is far from that.
    """
    document = json.loads(setup)
    for procedure in document[3][2]:
        if count_steps(procedure[3]) <= 1_000:
            taken = set(texts_in(procedure))
            name = next(name for name in map("turn{}".format, range(len(taken) + 1)) if name not in taken)
            procedure[3].insert(0, ["for", name, 0, ["+", 0, 0], []])
    return json.dumps(document).encode()
