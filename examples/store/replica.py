"""A replica: what the setup makes of the entries of the log, in their order. It has no thread, no socket and no clock, so each
replica that takes the same entries gives the same replies and has the same rows.

An entry is lines, each a call; or it is a cut: an entry `cut/N` ends batch N, and is passed over where that batch has ended. So
several servers may put a cut, and one of them is it.
"""
from typing import NamedTuple

from calvin import LineFault, Session

# A batch ends before an entry with which it would have more calls.
MOST_CALLS = 4096
CUT = "cut/"
CUT_LINE = '["cut"]'


class Answer(NamedTuple):
    """What came of a line: the entry that it is of, its place there, and its reply or its fault."""

    name: str
    place: int
    outcome: object


class Replica:
    """A session at a place in the log. `batch` is the number of batches that were executed, over all replicas since the log began,
    and `revision` that of the last entry in them."""

    def __init__(self, setup, snapshot=None):
        rows, self.revision, self.batch = None, 0, 0
        if snapshot is not None:
            head, rows = snapshot.split(b"\n", 1)
            self.revision, self.batch = map(int, head.split())
        self.session = Session.open(setup, rows)
        self.session.keep_replies()
        self.taken = self.revision
        self.waiting = {}

    def test(self, line):
        """What keeps a line from being a call of the log: None, or its LineFault.Kind. A batch that is full keeps none."""
        kind = self.session.test(line.encode())
        return None if kind == LineFault.Kind.BATCH_FULL else kind

    def take(self, entry):
        """Takes the next entry, and gives the answers that it leads to, in the order of the log."""
        answers = []
        if entry.name.startswith(CUT):
            if self.waiting and entry.name == f"{CUT}{self.batch + 1}":
                self.taken = entry.revision
                answers = self.cut()
            else:
                self.passed(entry)
            return answers
        if self.waiting and len(self.waiting) + len(entry.lines) > MOST_CALLS:
            answers = self.cut()
        for place, line in enumerate(entry.lines):
            try:
                self.waiting[self.session.call(line.encode())] = entry.name, place
            except LineFault as fault:
                answers.append(Answer(entry.name, place, fault.kind))
        self.passed(entry)
        return answers

    def passed(self, entry):
        self.taken = entry.revision
        if not self.waiting:
            self.revision = entry.revision

    def cut(self):
        """Executes the batch, and gives the answers to its calls."""
        self.session.cut()
        self.session.report()
        answers = [Answer(*self.waiting[reply.number], reply) for reply in self.session.replies()]
        self.waiting = {}
        self.batch += 1
        self.revision = self.taken
        return answers

    def snapshot(self):
        """The rows after the last batch, with the place in the log from which they go on."""
        return f"{self.revision} {self.batch}\n".encode() + self.session.rows_document()
