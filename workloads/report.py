"""Reports that a model writes: what the executor must print for a log, by docs/language.md alone.

A model keeps its rows in a `Rows`, a table of keys and lists of values, and answers each call with the values of its
reply, or by raising `Abort`. It knows nothing of the executor, of procedures or of their language.
"""
import hashlib
import json


class Abort(Exception):
    """How a call ends that changes nothing: its code."""

    def __init__(self, code):
        super().__init__(code)
        self.code = code


def word(value):
    """A value as it is printed."""
    return str(value) if isinstance(value, int) else "x" + value.encode().hex()


def digest(text):
    return hashlib.sha256(text.encode()).hexdigest()


class Rows:
    """The rows of tables: for each table, by key, the values. What a call writes can be taken back."""

    def __init__(self, names):
        self.tables = {name: {} for name in names}
        self.before = []

    def get(self, table, key, column):
        try:
            return self.tables[table][key][column]
        except KeyError:
            raise Abort(1) from None

    def has(self, table, key):
        return key in self.tables[table]

    def put(self, table, key, column, value):
        values = self.tables[table].get(key)
        if values is None:
            raise Abort(1)
        self.before.append((table, key, list(values)))
        values[column] = value

    def add(self, table, key, column, number):
        self.put(table, key, column, self.get(table, key, column) + number)

    def insert(self, table, key, values):
        if key in self.tables[table]:
            raise Abort(2)
        self.before.append((table, key, None))
        self.tables[table][key] = list(values)

    def delete(self, table, key):
        if key not in self.tables[table]:
            raise Abort(1)
        self.before.append((table, key, self.tables[table].pop(key)))

    def settle(self, commits):
        """Ends a call: its changes stay, or are taken back."""
        while self.before and not commits:
            table, key, values = self.before.pop()
            self.tables[table].pop(key, None)
            if values is not None:
                self.tables[table][key] = values
        self.before.clear()

    def text(self):
        """The row text, whose digest is in the lines of batches and of the end."""
        lines = []
        for name, rows in self.tables.items():
            lines += [" ".join([name, str(key), *map(word, rows[key])]) + "\n" for key in sorted(rows)]
        return "".join(lines)


def reply_of(rows, answer, number, name, values):
    try:
        words = ["commit", *map(word, answer(rows, name, *values))]
        rows.settle(True)
    except Abort as abort:
        words = ["abort", str(abort.code)]
        rows.settle(False)
    return " ".join([str(number), *words]) + "\n"


def batches_of(log):
    """The calls of each batch of a log."""
    batch = []
    for line in log:
        what, *call = json.loads(line)
        if what == "cut":
            yield batch
            batch = []
        else:
            batch.append((call[0], call[1]))
    if batch:
        yield batch


def report_of(rows, answer, log):
    """The report of a log, whose calls `answer(rows, name, values ..)` answers with the values of a reply."""
    whole, number, out = [], 0, []
    for ordinal, batch in enumerate(batches_of(log), 1):
        replies = []
        for name, values in batch:
            replies.append(reply_of(rows, answer, number, name, values))
            number += 1
        whole += replies
        out += replies
        out.append(f"batch {ordinal} rows {digest(rows.text())} replies {digest(''.join(replies))}\n")
    out.append(f"end {number} rows {digest(rows.text())} replies {digest(''.join(whole))}\n")
    return "".join(out)
