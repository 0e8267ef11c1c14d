#!/usr/bin/env -S python3 -B
"""Makes setups and logs by changing, cutting and joining those below at random, and runs them on a built program:

    scripts/hostile_documents.py [COUNT [SEED [PROGRAM]]]     runs COUNT pairs in three ways each, or 1,000
    scripts/hostile_documents.py tell COUNT SEED [PROGRAM]    prints of COUNT setups their bytes in hexadecimal, a
                                                              space, and what `check` says, for second_reader.py

Each pair is run on two workers, on three with the least of all other settings where each read and write moves one
byte, and with `--alone`. All three must leave the same bytes; status, fault and report must fit each other and the
lines of the log; and none may take a second of the processors. Every second setup without a fault has a loop of one
turn before each body that has none, so that at least the first 65 of its calls are handed over to workers. Such a
setup must start threads where two calls of a batch commit; runs with `--alone` start none.

It ends with how many pairs come out right, and with status 1 where one doesn't, or no worker was started for a call.
"""
import json
import os
import re
import resource
import sys
import tempfile
from concurrent.futures import ProcessPoolExecutor
from functools import partial
from pathlib import Path

from program import BUILT, TOP, Program, has_work_for_two, with_loops

EXAMPLES = ("counter", "graph", "inventory", "order-book", "quarters", "retries", "tried-again")
DOCUMENTS = (
    ("examples/bank.json", "examples/two-batches.log"),
    *((f"examples/{name}.json", f"examples/{name}.log") for name in EXAMPLES),
    *((f"cases/language/{name}/setup.json", f"cases/language/{name}/log") for name in ("011", "022", "035")),
)
# What a leaf may be changed into.
LEAVES = (
    b"0", b"-1", b"1", b"24", b"64", b"65536", b"9223372036854775807", b"9223372036854775808", b"-9223372036854775808",
    b"1.0", b"1e999", b"-0", b"null", b"true", b"{}", b"[]", b"[[]]", b'""', b'"x"', b'"\\ud800"', b'"int"', b'"text"',
    b'"recon"', b'"cut"',
)  # fmt: skip
# The bytes that a byte may be changed into.
BYTES = b'[]{},:"\\-+.019 \n\t\r\x00\xffaeltu_'
# The bytes between which the parts of a document are.
LEAF, LINE = b"[],\n", b"\n"
# The ways that a pair is run in, and how many bytes a read or a write moves at most.
WAYS = (
    ("run --workers 2 --lanes 8 setup.json", None),
    ("run --workers 3 --lanes 1 --coarsen 0 --arena 1 setup.json", 1),
    ("run --alone setup.json", None),
)

# What comes of reading a text that is no setup.
NO_SETUP = (ValueError, LookupError, TypeError)
FAULT_OF_SETUP = re.compile(rb"fault (?:(?:[1-5]|7|4[1-6])|1[1-8] at (?:/\d{1,5})*)\n")
FAULT_OF_LINE = re.compile(rb"fault 3[1-5] line (\d+)\n")
DIGESTS = re.compile(rb"rows [0-9a-f]{64} replies [0-9a-f]{64}")
OUTCOME = re.compile(rb"commit((?: -?\d+| x(?:[0-9a-f]{2}){0,64})*)|stale|abort (\d+)")


class Chance:
    """Numbers at random, which a seed determines."""

    def __init__(self, seed):
        self.state = seed

    def below(self, bound):
        """A number below a bound; 0 where that is 0."""
        self.state = (self.state * 6364136223846793005 + 1442695040888963407) % 2**64
        return (self.state >> 33) % bound if bound else 0


def around(document, place, ends):
    """A document in three: what comes before the part at a place, that part, and what comes after it."""
    begin, end = place, place
    while begin > 0 and document[begin - 1] not in ends:
        begin -= 1
    while end < len(document) and document[end] not in ends:
        end += 1
    return document[:begin], document[begin:end], document[end:]


def any_part(chance, document, ends):
    """A part of a document."""
    return around(document, chance.below(len(document)), ends)[1]


def changed_in_bytes(chance, document, place):
    """A document with a byte more, with another byte, without some, or with some twice."""
    front, rest = document[:place], document[place:]
    span = rest[: chance.below(40)]
    byte = BYTES[chance.below(len(BYTES)) :][:1]
    return front + (byte + rest, byte + rest[1:], rest[len(span) :], span + rest)[chance.below(4)]


def changed_in_leaf(chance, document, place, other):
    """A document whose leaf at a place is another."""
    before, _, after = around(document, place, LEAF)
    kind = chance.below(3)
    if kind == 0:
        return before + LEAVES[chance.below(len(LEAVES))] + after
    return before + any_part(chance, document if kind == 1 else other, LEAF) + after


def changed_in_line(chance, document, place, other):
    """A document whose line at a place is another, or has another one in front of it."""
    before, line, after = around(document, place, LINE)
    new = any_part(chance, other if chance.below(4) == 0 else document, LINE)
    return before + (new, new + b"\n" + line, b'["cut"]\n' + line)[chance.below(3)] + after


def changed(chance, document, other):
    """A document that is changed once, perhaps by a part of another one."""
    place, kind = chance.below(len(document)), chance.below(10)
    if kind == 0:
        return changed_in_bytes(chance, document, place)
    if kind == 1:
        return document[:place] + other[chance.below(len(other)) :]
    change = changed_in_leaf if kind <= 7 else changed_in_line
    return change(chance, document, place, other)


def drawn(chance, documents, chosen):
    """One of some documents, changed up to three times, or as it is."""
    document, other = documents[chosen], documents[chance.below(len(documents))]
    for _ in range(chance.below(4)):
        document = changed(chance, document, other)
    return document


def pairs(count, seed):
    """A number of setups, each with a log, and whether its calls are to be handed over."""
    setups, logs = ([(TOP / path).read_bytes() for path in paths] for paths in zip(*DOCUMENTS))
    chance = Chance(seed)
    for _ in range(count):
        chosen = chance.below(len(setups))
        yield drawn(chance, setups, chosen), drawn(chance, logs, chosen), chance.below(2) == 1


def batches_in(lines):
    """How many calls each batch has that ends in some lines without a fault, and how many come after these."""
    batches = [0]
    for line in lines:
        if line[line.find(b'"') :].startswith(b'"cut"'):
            batches.append(0)
        else:
            batches[-1] += 1
    return batches[:-1], batches[-1]


def is_outcome(text):
    """Whether a text is an outcome of a call."""
    found = OUTCOME.fullmatch(text)
    if not found:
        return False
    values = [int(value) for value in (found[1] or b"").split() if not value.startswith(b"x")]
    code = int(found[2]) if found[2] else 100
    return all(-(2**63) <= value < 2**63 for value in values) and (1 <= code <= 9 or 100 <= code <= 65535)


def outcome_in(line, number, first):
    """The outcome in a reply line of a transaction, which may try an earlier one again; `None` where it is none."""
    front = b"%d " % number if first is None else b"%d of %d " % (number, first)
    return line[len(front) :] if line.startswith(front) and is_outcome(line[len(front) :]) else None


def has_digests(line, front):
    """Whether a line is this and two digests."""
    return line.startswith(front) and DIGESTS.fullmatch(line[len(front) :])


def has_shape(report, batches, retries, is_whole):
    """Whether a report has the lines of some batches, where a stale call is tried again `retries` times at most."""
    lines, number, batch, carried = iter(report.split(b"\n")), 0, 0, []
    batches = list(batches)
    while batches or (is_whole and carried):
        attempts, carried = carried + [(None, retries)] * (batches.pop(0) if batches else 0), []
        batch += 1
        for first, more in attempts:
            outcome = outcome_in(next(lines, b""), number, first)
            if outcome is None:
                return False
            if outcome == b"stale" and more:
                carried.append((number if first is None else first, more - 1))
            number += 1
        if not has_digests(next(lines, b""), b"batch %d " % batch):
            return False
    is_ended = not is_whole or has_digests(next(lines, b""), b"end %d " % number)
    return bool(is_ended) and list(lines) == [b""]


def retries_in(setup):
    """How often a setup has a stale call tried again; `None` where it is none."""
    try:
        document = json.loads(setup)
        return document[5] if document[1] == 2 else 0
    except NO_SETUP:
        return None


def fits(left, setup, log):
    """Whether status, fault and report fit each other and the log."""
    lines = log.split(b"\n")
    lines = lines if lines[-1] else lines[:-1]
    if left.status == 1 and FAULT_OF_SETUP.fullmatch(left.err):
        return not left.out
    at = FAULT_OF_LINE.fullmatch(left.err)
    is_whole = left.status == 0 and not left.err
    if not is_whole and not (left.status == 1 and at and 1 <= int(at[1]) <= len(lines)):
        return False
    batches, begun = batches_in(lines if is_whole else lines[: int(at[1]) - 1])
    batches += [begun] if is_whole and begun else []
    retries = retries_in(setup)
    return retries is not None and has_shape(left.out, batches, retries, is_whole)


def seconds_taken():
    """How many seconds of the processors this process's runs have taken."""
    taken = resource.getrusage(resource.RUSAGE_CHILDREN)
    return taken.ru_utime + taken.ru_stime


def left_by(program, room, log):
    """What each way leaves of a pair whose setup lies in a folder, and in which it takes a second."""
    left, slow = [], []
    for line, most in WAYS:
        began = seconds_taken()
        left.append(program.run(line.split(), room, log, most))
        if left[-1].status is None or seconds_taken() - began >= 1:
            slow.append(f"{line} takes a second")
    return left, slow


def has_right_threads(left, is_handed):
    """Whether the way with `--alone` started no thread, and the others some, where they have calls to hand over."""
    on_two, on_three, alone = (one.threads for one in left)
    return alone == 0 and (on_two > 0 and on_three > 0 or not (is_handed and has_work_for_two(left[0].out)))


def tried(program, pair):
    """What is wrong with a pair, whether its calls were handed over, and how many threads they started."""
    setup, log, is_handed = pair
    with tempfile.TemporaryDirectory() as room:
        file = Path(room) / "setup.json"
        file.write_bytes(setup)
        is_handed = is_handed and program.run(["check", "setup.json"], room).status == 0
        try:
            setup = with_loops(setup) if is_handed else setup
        except NO_SETUP:
            return ["`check` takes what is no setup"], False, 0
        file.write_bytes(setup)
        left, wrong = left_by(program, room, log)
    if len({(one.status, one.out, one.err) for one in left}) > 1:
        wrong.append("the ways differ")
    if not fits(left[0], setup, log):
        wrong.append("its parts don't fit")
    if not has_right_threads(left, is_handed):
        wrong.append(f"its ways start {', '.join(str(one.threads) for one in left)} threads")
    return wrong, is_handed, left[0].threads + left[1].threads if is_handed else 0


def run_all(count, seed, path):
    """Runs a number of pairs, says what came of them, and gives the status."""
    with tempfile.TemporaryDirectory() as room, ProcessPoolExecutor(os.cpu_count()) as pool:
        found = list(pool.map(partial(tried, Program.watched(path, room)), pairs(count, seed), chunksize=8))
    for number, (wrong, _, _) in enumerate(found):
        for what in wrong:
            print(f"pair {number}: {what}")
    bad = sum(bool(wrong) for wrong, _, _ in found)
    handed, threads = sum(handed for _, handed, _ in found), sum(threads for _, _, threads in found)
    print(f"{count - bad} pairs come out right, {bad} don't: {handed} with calls handed over, on {threads} threads")
    return 1 if bad or not threads else 0


def tell_all(count, seed, path):
    """Prints of a number of setups what `check` says."""
    with tempfile.TemporaryDirectory() as room:
        program = Program.watched(path, room)
        for setup, _, _ in pairs(count, seed):
            (Path(room) / "setup.json").write_bytes(setup)
            left = program.run(["check", "setup.json"], room)
            print(setup.hex(), (left.out + left.err).decode(), end="")
    return 0


def main(*words):
    does, words = (tell_all, words[1:]) if words[:1] == ("tell",) else (run_all, words)
    count, seed, path = (*words, *("1000", "1", BUILT)[len(words) :])
    return does(int(count), int(seed), path)


if __name__ == "__main__":
    sys.exit(main(*sys.argv[1:]))
