"""The executor's library for C, as `include/calvin.h` declares it, from Python.

    from calvin import Session

    with Session.open(setup) as session:
        session.keep_replies()
        first = session.call(b'["call","pay",[1,2,30]]')
        session.cut()
        for reply in session.replies():
            print(reply.number, reply.outcome.name, reply.values)
        for key, values in session.rows("acct"):
            print(key, values)

A value is an int or a str. The shared object is `libcalvin.so`, which scripts/library.sh makes: the one that the environment's CALVIN_LIBRARY names, or else
the one that is installed with this file, or else the one that the system's loader finds.

A session is a run of one log on one setup. It starts no thread and never waits. Only the thread that opened it uses it;
several threads may have sessions of their own. Setups, rows documents and lines are bytes, or texts, which are taken in UTF-8.
"""

import ctypes
import enum
import os
from ctypes.util import find_library
from pathlib import Path
from typing import NamedTuple

__all__ = [
    "ARENA",
    "COARSEN",
    "CalvinError",
    "LineFault",
    "LogFault",
    "Misused",
    "NoMemory",
    "NoTable",
    "Outcome",
    "Reply",
    "Session",
    "SetupFault",
]

COARSEN = 64
"""The rows that a call locks one by one, where none is said: 0 to 65535. It changes no report."""

ARENA = 65536
"""The lock requests that there is room for, where none is said: 1 to 1048576. It changes no report."""

_PIECE = 65536
_NONE = 4
_NO_TABLE = 5
_MOST_REPLIED = 64
_MOST_COLUMNS = 16
_PAST_KEYS = 1 << 63


class Outcome(enum.IntEnum):
    """How an attempt of a call ended."""

    COMMIT = 0
    ABORT = 1
    STALE = 2


class Reply(NamedTuple):
    """What came of an attempt of a call: its transaction's number, that of the call's first attempt, how it ended, the code of
    an abort and else 0, and the values that a commit replied."""

    number: int
    first: int
    outcome: Outcome
    code: int
    values: tuple


class CalvinError(Exception):
    """Something was not done."""


class SetupFault(CalvinError):
    """The setup breaks a rule. The text is the line of its first fault, as `fault 11 at /2/0`."""


class LineFault(CalvinError):
    """A line is no call that the setup takes. Nothing has changed."""

    class Kind(enum.IntEnum):
        """The number of a line's fault, as docs/faults.md has it."""

        NOT_JSON = 31
        NOT_CALL = 32
        NO_PROCEDURE = 33
        ARGUMENTS = 34
        BATCH_FULL = 35

    def __init__(self, kind):
        self.kind = LineFault.Kind(kind)
        super().__init__(f"fault {int(kind)}")


class LogFault(CalvinError):
    """The log has this fault (31 to 35) at this line, or allocation failed there (37). Nothing more is taken of it."""

    def __init__(self, number, line):
        self.number = number
        self.line = line
        super().__init__(f"fault {number} line {line}")


class Misused(CalvinError):
    """A setting is outside its range, the log has ended, a line is begun, or the session is closed."""


class NoMemory(CalvinError):
    """An allocation failed."""


class NoTable(CalvinError):
    """The setup has no table of that name."""


class _Handle(ctypes.Structure):
    _fields_ = [("at", ctypes.c_void_p)]


class _Value(ctypes.Structure):
    _fields_ = [
        ("number", ctypes.c_int64),
        ("kind", ctypes.c_uint32),
        ("length", ctypes.c_uint32),
        ("text", ctypes.c_uint8 * 64),
    ]

    def value(self):
        return bytes(self.text[: self.length]).decode() if self.kind else self.number


class _Reply(ctypes.Structure):
    _fields_ = [
        ("number", ctypes.c_uint64),
        ("first", ctypes.c_uint64),
        ("outcome", ctypes.c_uint32),
        ("code", ctypes.c_uint32),
        ("length", ctypes.c_size_t),
    ]


def _library():
    """The shared object, with the types of its functions."""
    installed = Path(__file__).resolve().parents[3] / "lib" / "libcalvin.so"
    path = os.environ.get("CALVIN_LIBRARY") or (str(installed) if installed.exists() else find_library("calvin"))
    if not path:
        raise OSError("libcalvin.so was not found: CALVIN_LIBRARY names it")
    library = ctypes.CDLL(path)
    number, size, text = ctypes.POINTER(ctypes.c_uint64), ctypes.c_size_t, ctypes.c_char_p
    session, status, count, at = ctypes.POINTER(_Handle), ctypes.c_int32, ctypes.POINTER(ctypes.c_size_t), ctypes.POINTER(ctypes.c_void_p)
    values = [ctypes.POINTER(_Value), size]
    for name, result, words in (
        ("open", status, [text, size, size, size, at, text, size, count]),
        ("open_rows", status, [text, size, text, size, size, size, at, text, size, count]),
        ("feed", status, [session, text, size]),
        ("call", status, [session, text, size, number]),
        ("test", status, [session, text, size]),
        ("cut", status, [session]),
        ("end", status, [session]),
        ("drain", size, [session, text, size]),
        ("fault", status, [session, number]),
        ("keep_replies", None, [session]),
        ("next_reply", status, [session, ctypes.POINTER(_Reply), *values]),
        ("row", status, [session, text, size, ctypes.c_uint64, count, *values]),
        ("next_row", status, [session, text, size, ctypes.c_uint64, number, count, *values]),
        ("rows_document", status, [session, count]),
        ("drain_rows", size, [session, text, size]),
        ("carried", status, [session, count]),
        ("digest", status, [session, text, size]),
        ("close", None, [_Handle]),
    ):
        function = getattr(library, f"calvin_c_{name}")
        function.restype, function.argtypes = result, words
    return library


_calvin = _library()


def _bytes(text):
    """The bytes of a text, or bytes as they are."""
    return text.encode() if isinstance(text, str) else text


class Session:
    """A run of a log on a setup. `with` closes it."""

    def __init__(self, handle):
        self._handle = handle
        self._values = (_Value * _MOST_REPLIED)()

    @classmethod
    def open(cls, setup, rows=None, coarsen=COARSEN, arena=ARENA):
        """A session on the setup that a JSON text says; if `rows` is a rows document, its rows are in place of the setup's.
        SetupFault, Misused, NoMemory."""
        at, message, written = ctypes.c_void_p(), ctypes.create_string_buffer(256), ctypes.c_size_t()
        if coarsen < 0 or arena < 0:
            raise Misused("a setting is outside its range")
        settings = coarsen, arena, at, message, len(message), written
        setup, rows = _bytes(setup), _bytes(rows)
        if rows is None:
            status = _calvin.calvin_c_open(setup, len(setup), *settings)
        else:
            status = _calvin.calvin_c_open_rows(setup, len(setup), rows, len(rows), *settings)
        if status == 1:
            raise SetupFault(message.raw[: written.value].decode("ascii"))
        if status == 2:
            raise Misused("a setting is outside its range")
        if status == 3:
            raise NoMemory("allocation failed")
        return cls(_Handle(at.value))

    def __enter__(self):
        return self

    def __exit__(self, *_):
        self.close()

    def close(self):
        """Closes the session. Once is enough; a second time changes nothing."""
        handle, self._handle = self._handle, None
        if handle is not None:
            _calvin.calvin_c_close(handle)

    def __del__(self):
        self.close()

    def _live(self):
        if self._handle is None:
            raise Misused("the session is closed")
        return self._handle

    def _raise(self, status):
        """Raises what a status of a call says, if it isn't 0."""
        if status == 0:
            return
        if status >= LineFault.Kind.NOT_JSON:
            raise LineFault(status)
        line = ctypes.c_uint64()
        number = _calvin.calvin_c_fault(self._live(), line)
        if status != 2 and number:
            raise LogFault(number, line.value)
        raise NoMemory("allocation failed") if status == 3 else Misused("the log has ended, or a line is begun")

    def feed(self, log):
        """Takes the next bytes of the log, and executes each batch whose cut is among them. LogFault, Misused."""
        log = _bytes(log)
        self._raise(_calvin.calvin_c_feed(self._live(), log, len(log)))

    def call(self, line):
        """Takes a line, without its newline, as the next call, and gives the number of its transaction: that of its first
        attempt. LineFault where it is no call that the setup takes: nothing has changed then. LogFault, Misused, NoMemory."""
        line, number = _bytes(line), ctypes.c_uint64()
        self._raise(_calvin.calvin_c_call(self._live(), line, len(line), number))
        return number.value

    def test(self, line):
        """What keeps a line from being the next call: None, or its LineFault.Kind. It takes nothing. Misused, NoMemory."""
        line = _bytes(line)
        status = _calvin.calvin_c_test(self._live(), line, len(line))
        if status >= LineFault.Kind.NOT_JSON:
            return LineFault.Kind(status)
        self._raise(status)
        return None

    def cut(self):
        """Ends the batch: its calls are executed, and their report waits. LogFault, Misused."""
        self._raise(_calvin.calvin_c_cut(self._live()))

    def end(self):
        """Ends the log: calls after the last cut are executed, and the end line waits. LogFault, Misused."""
        self._raise(_calvin.calvin_c_end(self._live()))

    def report(self):
        """The bytes of the report that wait. Those that are given wait no longer."""
        piece, pieces = ctypes.create_string_buffer(_PIECE), []
        while taken := _calvin.calvin_c_drain(self._live(), piece, _PIECE):
            pieces.append(piece.raw[:taken])
        return b"".join(pieces)

    def keep_replies(self):
        """From the next batch on, replies wait to be taken one by one. Before this is called none is kept."""
        _calvin.calvin_c_keep_replies(self._live())

    def next_reply(self):
        """The next reply in the order of the log, each once; None where none waits."""
        head = _Reply()
        if _calvin.calvin_c_next_reply(self._live(), head, self._values, _MOST_REPLIED) == _NONE:
            return None
        return Reply(head.number, head.first, Outcome(head.outcome), head.code, self._taken(head.length))

    def replies(self):
        """Takes all replies that wait, one by one."""
        return iter(self.next_reply, None)

    def row(self, table, key):
        """The values of the row that a table has under a key, after the batches that have ended; None where there is none.
        NoTable, LogFault."""
        name, length = table.encode(), ctypes.c_size_t()
        key = key if 0 <= key < _PAST_KEYS else _PAST_KEYS
        status = _calvin.calvin_c_row(self._live(), name, len(name), key, length, self._values, _MOST_COLUMNS)
        return None if self._is_none(status, table) else self._taken(length.value)

    def next_row(self, table, after=None):
        """The key and the values of the table's row with the least key above `after`; of the row with the least key at all, where
        `after` is None. None where there is none. NoTable, LogFault."""
        least = 0 if after is None else min(max(after + 1, 0), _PAST_KEYS)
        name, key, length = table.encode(), ctypes.c_uint64(), ctypes.c_size_t()
        words = name, len(name), least, key, length, self._values, _MOST_COLUMNS
        status = _calvin.calvin_c_next_row(self._live(), *words)
        return None if self._is_none(status, table) else (key.value, self._taken(length.value))

    def rows(self, table):
        """The rows of a table by ascending keys, each as its key and its values. NoTable, LogFault."""
        row = self.next_row(table)
        while row is not None:
            yield row
            row = self.next_row(table, row[0])

    def rows_document(self):
        """All rows as a rows document, in bytes, as `open` takes it. LogFault, NoMemory."""
        length = ctypes.c_size_t()
        self._raise(_calvin.calvin_c_rows_document(self._live(), length))
        document = ctypes.create_string_buffer(length.value + 1)
        taken = _calvin.calvin_c_drain_rows(self._live(), document, length)
        return document.raw[:taken]

    def carried(self):
        """How many calls the batches that have ended carry to the next one, where they are tried again: under retries 1 and 2
        those that went stale, without retries none. Where it is 0 a session that is opened over the rows of this one goes on as
        this one. LogFault."""
        count = ctypes.c_size_t()
        self._raise(_calvin.calvin_c_carried(self._live(), count))
        return count.value

    def digest(self):
        """The digest of all rows, as the report would have it after the batches that have ended: 64 digits. LogFault,
        NoMemory."""
        digits = ctypes.create_string_buffer(64)
        self._raise(_calvin.calvin_c_digest(self._live(), digits, 64))
        return digits.raw.decode("ascii")

    def _taken(self, length):
        return tuple(value.value() for value in self._values[:length])

    def _is_none(self, status, table):
        if status == _NO_TABLE:
            raise NoTable(f"the setup has no table {table}")
        if status != _NONE:
            self._raise(status)
        return status == _NONE
