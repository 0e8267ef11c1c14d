#!/usr/bin/env -S python3 -B
"""Runs the stored cases in cases/ on a program that is built, and compares what comes out with what is stored:

    scripts/cases.py [PROGRAM]            PROGRAM is crates/cli/out/cli where none is named
    scripts/cases.py --sessions REPLAY    feeds the logs to a program over the static library, `REPLAY SETUP PIECE`

cases/README.md says what a case is. A case that names no words of its own is run with `--workers 2`, with the least
and with the greatest of all settings, with `--alone`, and with `--workers 2` where each read and write moves one byte.
Each run of a log is made a second time, on the same setup with a loop of one turn before each body that has none: a
call that is brief, and run in place by the scheduler's thread, is handed over to workers then, if it is one of the
first 65 or handing over pays. The same must come out.
The first run of each case is also made on the setup without its rows, with `--rows` and a file that has them.
Runs with `--alone` must start no thread, and those whose calls are handed over some, where two calls of a batch commit.
On a log that stays open after its first batch `locks` must end: it takes no more of it.

With --sessions each log that is run in these ways is fed in pieces of 1, 7 and 4096 bytes.

It ends with how many cases agree, and with status 1 where one doesn't or none was run.
"""
import json
import os
import re
import subprocess
import sys
import tempfile
from concurrent.futures import ProcessPoolExecutor
from dataclasses import dataclass
from functools import partial
from pathlib import Path

from program import BUILT, SECONDS, TOP, Program, has_work_for_two, with_loops

CASES = TOP / "cases"
# The words that a log is run with, and how many bytes a read or a write moves at most.
SETTINGS = (
    ("run --workers 2 --lanes 8 setup.json", None),
    ("run --workers 16 --lanes 1 --coarsen 0 --arena 1 setup.json", None),
    ("run --workers 16 --lanes 64 --coarsen 65535 --arena 1048576 setup.json", None),
    ("run --alone setup.json", None),
    ("run --workers 2 setup.json", 1),
)
PIECES = (1, 7, 4096)
ROWS = "rows-in-a-file.json"
# The commands whose outputs a case stores in files that begin with their names, and the words that each is run with.
COMMANDS = {
    "document": (
        "rows --document setup.json",
        "rows --document --alone setup.json",
        "rows --document --workers 16 --lanes 1 --coarsen 0 --arena 1 setup.json",
    ),
    "filter": ("filter setup.json",),
    "follow": (
        "run --follow setup.json",
        "run --follow --alone setup.json",
        "run --follow --workers 16 --lanes 1 --coarsen 0 --arena 1 setup.json",
    ),
    "rows": (
        "rows setup.json",
        "rows --alone setup.json",
        "rows --workers 16 --lanes 1 --coarsen 0 --arena 1 setup.json",
    ),
}
# A case of `locks` whose log goes on after its first batch, and the line that ends a batch.
GOES_ON, CUT = CASES / "plans/nothing-read-behind-the-first-batch", b'["cut"]\n'
FAULT_OF_SETUP = re.compile(rb"fault (?:[1-9]|1[1-9]|4[1-7])(?: at .*)?\n")


@dataclass(frozen=True)
class Run:
    """The words of a run and the bytes of its log, and what it must leave on its outputs and as its status."""

    words: list
    log: bytes
    out: bytes
    err: bytes = b""
    status: int = 0
    most: int = None
    ends_so: bool = False
    setup: bytes = None
    rows: bytes = None

    @property
    def runs_a_log(self):
        """Whether its log is run on the setup of its case."""
        takes = self.status != 2 and not FAULT_OF_SETUP.fullmatch(self.err)
        return takes and self.words[:1] in (["run"], ["rows"], ["replicas"]) and "setup.json" in self.words

    @property
    def starts_threads(self):
        """Whether it must, where no call is brief: two calls of a batch commit, and there are workers."""
        return "--alone" not in self.words and has_work_for_two(self.out)

    def is_left(self, left):
        """Whether this is what it must leave."""
        is_told = left.err.endswith(self.err) if self.ends_so else left.err == self.err
        return is_told and (left.status, left.out) == (self.status, self.out)

    def __str__(self):
        return " ".join(self.words) + (f", {self.most} bytes a read or write" if self.most else "")


@dataclass(frozen=True)
class Case:
    """The folder of a case."""

    folder: Path

    def bytes_of(self, file, missing=b""):
        """What a file has, or is taken to have where it isn't there."""
        path = self.folder / file
        return path.read_bytes() if path.exists() else missing

    def lines_of(self, file):
        """The lines of a text."""
        return self.bytes_of(file).decode().splitlines()

    def has(self, file):
        """Whether there is such a file."""
        return (self.folder / file).exists()

    def run(self, words, **other):
        """A run with these words, which leaves what is stored."""
        out, err, status = self.bytes_of("stdout"), self.bytes_of("stderr"), int(self.bytes_of("status", b"0"))
        return Run(words, self.bytes_of("log"), out, err, status, **other)

    def runs(self):
        """All its runs."""
        for file in ("args", "progress"):
            if self.has(file):
                return [self.run(self.lines_of(file), most=most, ends_so=file == "progress") for most in (None, 1)]
        if self.has("setups"):
            return list(self.runs_of_setups())
        if self.has("logs"):
            return list(self.runs_of_logs())
        if self.names_commands:
            return list(self.runs_of_commands())
        runs = [self.run(line.split(), most=most) for line, most in SETTINGS]
        runs += [self.run(line.split()) for line in self.lines_of("runs")]
        return runs + list(self.runs_of_plans())

    def runs_of_plans(self):
        """Those of `locks`, of which each is stored in a file named by its settings."""
        for path in sorted(self.folder.glob("locks-*")):
            _, coarsen, arena = path.name.split("-")
            words = ["locks", "--coarsen", coarsen, "--arena", arena, "setup.json"]
            yield Run(words, self.bytes_of("log"), path.read_bytes())

    def runs_of_setups(self):
        """Those of `check` on the setups of a table."""
        front, _, back = self.bytes_of("frame").partition(b"@")
        for row in self.bytes_of("setups").splitlines():
            answer, _, text = row.partition(b"\t")
            yield said(["check", "setup.json"], b"", answer, front + text + back)

    def runs_of_logs(self):
        """Those of the logs of a table, of a line each."""
        for row in self.bytes_of("logs").splitlines():
            answer, _, log = row.partition(b"\t")
            yield said(["run", "setup.json"], log, answer, self.bytes_of("setup.json"))

    def runs_of_commands(self):
        """Those of commands whose outputs are each stored in files that begin with the command's name."""
        for name, ways in COMMANDS.items():
            if self.has(f"{name}.status"):
                out, err = self.bytes_of(f"{name}.stdout"), self.bytes_of(f"{name}.stderr")
                for words, most in [(way, None) for way in ways] + [(ways[0], 1)]:
                    yield Run(words.split(), self.bytes_of("log"), out, err, int(self.bytes_of(f"{name}.status")), most)

    @property
    def names_commands(self):
        """Whether it stores the outputs of commands by their names."""
        return any(self.has(f"{name}.status") for name in COMMANDS)

    @property
    def is_a_log(self):
        """Whether it has no words of its own."""
        return not self.names_commands and not any(map(self.has, ("args", "progress", "setups", "logs")))

    def __str__(self):
        return "/".join(self.folder.parts[-2:])


def said(words, log, answer, setup):
    """A run that says a line: on standard output where it begins with `ok `, else on the other one, with status 1."""
    out, err = (answer + b"\n", b"") if answer.startswith(b"ok ") else (b"", answer + b"\n")
    return Run(words, log, out, err, 0 if out else 1, setup=setup)


def left_by(program, case, run, folder):
    """What a run of a case leaves, which is made in a folder of its own where its setup isn't the case's."""
    if run.setup is None:
        return program.run(run.words, case.folder, run.log, run.most)
    for path in case.folder.iterdir():
        if path.name != "setup.json" and not (folder / path.name).exists():
            (folder / path.name).symlink_to(path)
    (folder / "setup.json").write_bytes(run.setup)
    if run.rows is not None:
        (folder / ROWS).write_bytes(run.rows)
    return program.run(run.words, folder, run.log, run.most)


def handed_over(case, run):
    """The same run on the second setup of its case."""
    return Run(**{**vars(run), "setup": with_loops(case.bytes_of("setup.json"))})


def with_moved_rows(case, run):
    """The same run, if its setup has rows, on the setup without them and with a file that has them."""
    takes = run.words[:1] in (["check"], ["locks"], ["replicas"], ["rows"], ["run"])
    takes = takes and "setup.json" in run.words and "--rows" not in run.words
    try:
        document = json.loads(case.bytes_of("setup.json")) if takes and run.setup is None and run.status != 2 else None
    except ValueError:
        return []
    if not isinstance(document, list) or len(document) < 5:
        return []
    rows, document[4] = document[4], None
    texts = {"setup": json.dumps(document).encode(), "rows": json.dumps(rows).encode()}
    return [Run(**{**vars(run), "words": [*run.words, "--rows", ROWS], **texts})]


def is_at_work(run, left, is_handed):
    """Whether a run has started no thread where it needs none, and some where its calls are handed over to workers."""
    if "--alone" in run.words or run.words[:1] in (["check"], ["filter"], ["locks"]):
        return left.threads == 0
    return left.threads > 0 or not (is_handed and run.starts_threads)


def wrong_in(program, case, run, folder, is_handed=False):
    """What is wrong with a run of a case."""
    left = left_by(program, case, run, folder)
    way = f"{case}: {run}" + (", handed over" if is_handed else "")
    if not run.is_left(left):
        yield f"{way}: it doesn't end" if left.status is None else f"{way}: it leaves something else"
    if not is_at_work(run, left, is_handed):
        yield f"{way}: it starts {left.threads} threads"


def tried(program, folder):
    """How many runs of a case were made as they are stored, and how many handed over, and what was wrong with them."""
    case = Case(folder)
    runs = case.runs()
    again = [handed_over(case, run) for run in runs if run.runs_a_log]
    with tempfile.TemporaryDirectory() as room:
        wrong = [what for run in runs for what in wrong_in(program, case, run, Path(room))]
        wrong += [what for run in again for what in wrong_in(program, case, run, Path(room), is_handed=True)]
        moved = [way for run in runs[:1] for way in with_moved_rows(case, run)]
        wrong += [what for run in moved for what in wrong_in(program, case, run, Path(room))]
    return len(runs) + len(moved), len(again), wrong


def fed(program, folder):
    """How many runs a case has in which its log is fed in pieces, and what was wrong with them."""
    case, wrong = Case(folder), []
    runs = [case.run(["setup.json", str(piece)]) for piece in PIECES] if case.is_a_log else []
    for run in runs:
        if not run.is_left(program.run(run.words, case.folder, run.log)):
            wrong.append(f"{case}: in pieces of {run.words[1]} bytes")
    return len(runs), 0, wrong


def waits_for_more(program):
    """What is wrong where `locks` is given a first batch, and its log stays open: it must end with what is stored."""
    case = Case(GOES_ON)
    first, cut, _ = case.bytes_of("log").partition(CUT)
    how = {"cwd": case.folder, "stdin": subprocess.PIPE, "stdout": subprocess.PIPE}
    with subprocess.Popen([program.path, *case.lines_of("args")], **how) as run:
        run.stdin.write(first + cut)
        run.stdin.flush()
        try:
            run.wait(SECONDS)
        except subprocess.TimeoutExpired:
            run.kill()
            return [f"{case}: it waits for what comes after the first batch"]
        return [] if run.stdout.read() == case.bytes_of("stdout") else [f"{case}, left open: it leaves something else"]


def main(*words):
    is_sessions = words[:1] == ("--sessions",)
    path = words[1] if is_sessions else (words or (BUILT,))[0]
    folders = sorted(path for path in CASES.glob("*/*") if path.is_dir())
    with tempfile.TemporaryDirectory() as room, ProcessPoolExecutor(os.cpu_count()) as pool:
        program = Program.watched(path, room)
        found = list(pool.map(partial(fed if is_sessions else tried, program), folders, chunksize=4))
    if not is_sessions:
        found.append((1, 0, waits_for_more(program)))
    for _, _, wrong in found:
        for what in wrong:
            print(what)
    agree = sum(runs > 0 and not wrong for runs, _, wrong in found)
    differ = sum(bool(wrong) for _, _, wrong in found)
    runs, again = sum(runs for runs, _, _ in found), sum(again for _, again, _ in found)
    kinds = f"{runs} runs in pieces" if is_sessions else f"{runs} runs as stored, {again} handed over"
    print(f"{agree} cases agree, {differ} don't: {kinds}")
    return 1 if differ or not agree else 0


if __name__ == "__main__":
    sys.exit(main(*sys.argv[1:]))
