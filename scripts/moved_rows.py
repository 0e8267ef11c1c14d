#!/usr/bin/env -S python3 -B
"""Tries on the stored logs without a fault what the rows that `rows` prints are good for:

    scripts/moved_rows.py [PROGRAM]            PROGRAM is crates/cli/out/cli where none is named

For each of them the SHA-256 of `rows` must be the R of the report's end line, if the setup has no digests by partition.
At each cut after which nothing is carried, `rows --document --follow` of the log up to it gives a file of rows: from
these, by `--rows`, the rest of the log must give the same replies and digests of rows as in a run of the whole log.

It ends with how many logs and cuts agree, and with status 1 where one doesn't or none was tried.
"""
import hashlib
import json
import os
import re
import sys
import tempfile
from concurrent.futures import ProcessPoolExecutor
from functools import partial
from pathlib import Path

from program import BUILT, TOP, Program

CASES = TOP / "cases"
LINE = re.compile(rb"(\d+)( of \d+)? (.*)|batch (\d+) rows (\S+) replies .*|end (\d+) rows (\S+) .*")
FEED_ENDED = 6


def facts_of(report, batches=0, count=0):
    """What a report says of replies and rows, after that many batches and transactions: numbers go on from there."""
    for line in report.splitlines():
        number, first, said, batch, rows, end, last = LINE.fullmatch(line).groups()
        if number is not None:
            attempt = int(first.split()[1]) + count if first else None
            yield int(number) + count, attempt, said
        elif batch is not None:
            yield "batch", int(batch) + batches, rows
        else:
            yield "end", int(end) + count, last


def cuts_in(log):
    """Where the log has been taken up to each of its cuts."""
    place = 0
    for line in log.splitlines(keepends=True):
        place += len(line)
        if line.endswith(b"\n") and line.split() and json.loads(line) == ["cut"]:
            yield place


def rest_differs(program, folder, log, place, whole):
    """Whether the rest of a log differs from the whole one's, run from the rows at a cut; None where requests are carried."""
    at_cut = program.run(["rows", "--document", "--follow", folder / "setup.json"], Path("."), log[:place])
    report = program.run(["run", "--follow", folder / "setup.json"], Path("."), log[:place])
    if b"carried" in at_cut.err:
        return None
    if (at_cut.status, report.status) != (FEED_ENDED, FEED_ENDED) or not whole.startswith(report.out):
        return True
    before = list(facts_of(report.out))
    batches, count = sum(fact[0] == "batch" for fact in before), sum(fact[0] not in ("batch", "end") for fact in before)
    with tempfile.NamedTemporaryFile() as rows:
        rows.write(at_cut.out)
        rows.flush()
        rest = program.run(["run", "--rows", rows.name, folder / "setup.json"], Path("."), log[place:])
    return rest.status != 0 or before + list(facts_of(rest.out, batches, count)) != list(facts_of(whole))


def tried(program, folder):
    """How many cuts of a log were tried, and what was wrong; None for a case that is no log without a fault."""
    files = {path.name for path in folder.iterdir()}
    if "setup.json" not in files or files & {"args", "progress", "setups", "logs", "stderr"}:
        return None
    log = (folder / "log").read_bytes() if "log" in files else b""
    run = program.run(["run", folder / "setup.json"], Path("."), log)
    if run.status != 0:
        return None
    whole = (folder / "stdout").read_bytes() if "stdout" in files else run.out
    document = json.loads((folder / "setup.json").read_bytes())
    wrong = []
    if document[6:] != ["partitions"]:
        rows = program.run(["rows", folder / "setup.json"], Path("."), log)
        if hashlib.sha256(rows.out).hexdigest().encode() != list(facts_of(whole))[-1][2]:
            wrong.append(f"{folder.parent.name}/{folder.name}: the digest of its rows is another")
    cuts = {place: rest_differs(program, folder, log, place, whole) for place in cuts_in(log)}
    wrong += [f"{folder.parent.name}/{folder.name}: from byte {place} on" for place, differs in cuts.items() if differs]
    return sum(differs is not None for differs in cuts.values()), wrong


def main(path=BUILT):
    folders = sorted(path for path in CASES.glob("*/*") if path.is_dir())
    with tempfile.TemporaryDirectory() as room, ProcessPoolExecutor(os.cpu_count()) as pool:
        program = Program.watched(path, room)
        found = [one for one in pool.map(partial(tried, program), folders, chunksize=4) if one is not None]
    for _, wrong in found:
        for what in wrong:
            print(what)
    differ = sum(bool(wrong) for _, wrong in found)
    print(f"{len(found) - differ} logs agree, {differ} don't: {sum(cuts for cuts, _ in found)} cuts")
    return 1 if differ or not found else 0


if __name__ == "__main__":
    sys.exit(main(*sys.argv[1:]))
