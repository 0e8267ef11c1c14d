#!/usr/bin/env python3
"""Tests of the binding for Python, over the shared object that CALVIN_LIBRARY names, or that is found without it:

    bindings/python/tests.py

Each setup in examples/ that has a log and a report is run in pieces and by single calls. It ends with how many tests passed, and
with status 1 where one failed.
"""
import hashlib
import json
import sys
import unittest
from pathlib import Path

HERE = Path(__file__).resolve().parent
TOP = HERE.parent.parent
sys.path.insert(0, str(HERE))

import calvin  # noqa: E402
from calvin import LineFault, LogFault, Misused, NoTable, Outcome, Reply, Session, SetupFault  # noqa: E402

EXAMPLES = TOP / "examples"
CUT = b'["cut"]'


def example(name, ending):
    return (EXAMPLES / f"{name}.{ending}").read_bytes()


def reports():
    return sorted(path.stem for path in EXAMPLES.glob("*.report"))


class WholeLogTest(unittest.TestCase):
    def test_reports_are_the_stored_ones(self):
        for name in reports():
            for size in (1, 7, 1 << 20):
                with self.subTest(name, size=size), Session.open(example(name, "json")) as session:
                    log, report = example(name, "log"), b""
                    for start in range(0, len(log), size):
                        session.feed(log[start : start + size])
                        report += session.report()
                    session.end()
                    self.assertEqual(report + session.report(), example(name, "report"))


class CallsTest(unittest.TestCase):
    def setUp(self):
        self.session = Session.open(example("bank", "json"))
        self.addCleanup(self.session.close)

    def test_single_calls_are_a_log(self):
        with Session.open(example("bank", "json")) as whole:
            whole.feed(example("two-pays", "log") if (EXAMPLES / "two-pays.log").exists() else b"")
            lines = example("two-pays", "log").splitlines()
            numbers = [self.session.call(line) for line in lines if line != CUT]
            self.assertEqual(numbers, list(range(len(numbers))))
            self.session.cut()
            if CUT not in lines:
                whole.feed(CUT + b"\n")
            self.assertEqual(self.session.report(), whole.report())

    def test_lines_and_setups_may_be_texts(self):
        bank = example("bank", "json").decode()
        with Session.open(bank) as session:
            self.assertIsNone(session.test('["call","pay",[1,2,30]]'))
            self.assertEqual(session.call('["call","pay",[1,2,30]]'), 0)
            session.feed('["cut"]\n')
            other = Session.open(bank, session.rows_document().decode())
            self.assertEqual(list(other.rows("acct")), list(session.rows("acct")))
            other.close()

    def test_lines_that_are_no_calls(self):
        wanted = {
            b"[": LineFault.Kind.NOT_JSON,
            CUT: LineFault.Kind.NOT_CALL,
            b'["call",1]': LineFault.Kind.NOT_CALL,
            b'["call",\n"pay",[1,2,3]]': LineFault.Kind.NOT_CALL,
            b'["call","none",[]]': LineFault.Kind.NO_PROCEDURE,
            b'["call","pay",[]]': LineFault.Kind.ARGUMENTS,
        }
        for line, kind in wanted.items():
            with self.subTest(line):
                self.assertEqual(self.session.test(line), kind)
                with self.assertRaises(LineFault) as raised:
                    self.session.call(line)
                self.assertEqual(raised.exception.kind, kind)
        self.session.end()
        self.assertTrue(self.session.report().startswith(b"end 0 "))

    def test_a_batch_has_4096_calls(self):
        line = example("two-pays", "log").splitlines()[0]
        for number in range(4096):
            self.assertEqual(self.session.call(line), number)
        self.assertEqual(self.session.test(line), LineFault.Kind.BATCH_FULL)
        self.session.cut()
        self.assertIsNone(self.session.test(line))
        self.assertEqual(self.session.call(line), 4096)

    def test_a_begun_line(self):
        self.session.feed(b'["cu')
        for refused in (self.session.cut, lambda: self.session.call(b"1"), lambda: self.session.test(b"1")):
            self.assertRaises(Misused, refused)
        self.session.feed(b't"]\n')
        self.session.cut()


def reply_line(reply):
    """A reply as its line in the report."""
    number = reply.number if reply.first == reply.number else f"{reply.number} of {reply.first}"
    words = [f"x{value.encode().hex()}" if isinstance(value, str) else str(value) for value in reply.values]
    if reply.outcome == Outcome.ABORT:
        words = [str(reply.code)]
    return " ".join([f"{number} {reply.outcome.name.lower()}", *words])


class RepliesTest(unittest.TestCase):
    def test_replies_are_the_lines_of_the_report(self):
        for name in reports():
            with self.subTest(name), Session.open(example(name, "json")) as session:
                session.keep_replies()
                session.feed(example(name, "log"))
                session.end()
                lines = [line for line in example(name, "report").decode().splitlines() if line[0].isdigit()]
                self.assertEqual([reply_line(reply) for reply in session.replies()], lines)
                self.assertIsNone(session.next_reply())

    def test_a_reply_is_taken_once_and_after_its_cut(self):
        with Session.open(example("bank", "json")) as session:
            session.keep_replies()
            session.call(b'["call","pay",[1,2,30]]')
            session.call(b'["call","pay",[1,2,500]]')
            self.assertIsNone(session.next_reply())
            session.cut()
            self.assertEqual(session.next_reply(), Reply(0, 0, Outcome.COMMIT, 0, (70,)))
            self.assertEqual(list(session.replies()), [Reply(1, 1, Outcome.ABORT, 100, ())])
            self.assertTrue(session.report().startswith(b"0 commit 70\n1 abort 100\nbatch 1 "))

    def test_none_is_kept_where_none_is_asked_for(self):
        with Session.open(example("bank", "json")) as session:
            session.feed(example("two-batches", "log"))
            self.assertIsNone(session.next_reply())
            session.keep_replies()
            self.assertIsNone(session.next_reply())


def row_text(session, setup):
    """The row text of a session's rows, by the rows of each table."""
    lines = []
    for name, *_ in json.loads(setup)[2][2]:
        for key, values in session.rows(name):
            words = [f"x{value.encode().hex()}" if isinstance(value, str) else str(value) for value in values]
            lines.append(" ".join([name, str(key), *words]) + "\n")
    return "".join(lines).encode()


class RowsTest(unittest.TestCase):
    def test_rows_have_the_digest_of_the_report(self):
        for name in reports():
            setup = example(name, "json")
            with self.subTest(name), Session.open(setup) as session:
                session.feed(example(name, "log"))
                session.end()
                wanted = example(name, "report").decode().split()[-3]
                self.assertEqual(session.digest(), wanted)
                if len(json.loads(setup)) < 7:
                    self.assertEqual(hashlib.sha256(row_text(session, setup)).hexdigest(), wanted)

    def test_a_row_by_its_key(self):
        with Session.open(example("bank", "json")) as session:
            session.call(b'["call","pay",[1,2,30]]')
            self.assertEqual(session.row("acct", 1), (100,))
            session.cut()
            self.assertEqual(session.row("acct", 1), (70,))
            self.assertEqual(session.row("acct", 2), (130,))
            for key in (-1, 0, 3, (1 << 63) - 1, 1 << 63, 1 << 64, 1 << 70):
                self.assertIsNone(session.row("acct", key))

    def test_the_next_row(self):
        with Session.open(example("bank", "json")) as session:
            self.assertEqual(session.next_row("acct"), (1, (100,)))
            self.assertEqual(session.next_row("acct", 1), (2, (100,)))
            self.assertIsNone(session.next_row("acct", 2))
            self.assertIsNone(session.next_row("acct", 1 << 70))
            self.assertEqual(session.next_row("acct", -7), (1, (100,)))
            self.assertEqual(list(session.rows("ref")), [(1, (2,))])

    def test_there_is_no_such_table(self):
        with Session.open(example("bank", "json")) as session:
            for wrong in ("accts", "", "\u00e9"):
                self.assertRaises(NoTable, session.row, wrong, 1)
                self.assertRaises(NoTable, session.next_row, wrong)
                self.assertRaises(NoTable, list, session.rows(wrong))

    def test_texts(self):
        setup = example("inventory", "json")
        with Session.open(setup) as session:
            texts = [value for _, values in session.rows("item") for value in values if isinstance(value, str)]
            said = [value for row in json.loads(setup)[4][2] for value in row[2] if isinstance(value, str)]
            self.assertEqual(sorted(texts), sorted(said))


class RowsDocumentTest(unittest.TestCase):
    def test_another_session_starts_from_the_rows(self):
        for name in reports():
            setup, log = example(name, "json"), example(name, "log").splitlines(keepends=True)
            cuts = [place + 1 for place, line in enumerate(log) if line.strip() == CUT]
            if not cuts:
                continue
            with self.subTest(name), Session.open(setup) as first:
                first.feed(b"".join(log[: cuts[0]]))
                self.assertEqual(first.carried(), 0)
                document = first.rows_document()
                with Session.open(setup, document) as second:
                    self.assertEqual(second.digest(), first.digest())
                    self.assertEqual(second.rows_document(), document)
                    for session in (first, second):
                        session.feed(b"".join(log[cuts[0] :]))
                        session.end()
                    self.assertEqual(second.digest(), first.digest())

    def test_calls_that_are_carried_are_counted(self):
        with Session.open(example("tried-again", "json")) as session:
            session.feed(example("tried-again", "log"))
            for wanted in (0, 1, 0):
                self.assertEqual(session.carried(), wanted)
                session.cut()
            self.assertRaises(LogFault, session.feed, b"[]\n")
            self.assertRaises(LogFault, session.carried)

    def test_it_is_the_document_of_the_rows(self):
        with Session.open(example("bank", "json")) as session:
            wanted = b'["rows",1,[\n["acct",1,[100]],\n["acct",2,[100]],\n["ref",1,[2]]\n]]\n'
            self.assertEqual(session.rows_document(), wanted)
            self.assertEqual(session.rows_document(), wanted)

    def test_rows_with_a_fault(self):
        for rows, fault in ((b"[", "fault 41"), (b'["rows",2,[]]', "fault 42"), (b'["rows",1,[["none",1,[1]]]]', "fault 43")):
            with self.subTest(rows), self.assertRaises(SetupFault) as raised:
                Session.open(example("bank", "json"), rows)
            self.assertTrue(str(raised.exception).startswith(fault), str(raised.exception))

    def test_no_rows(self):
        with Session.open(example("bank", "json"), b'["rows",1,[]]') as session:
            self.assertEqual(list(session.rows("acct")), [])
            self.assertEqual(session.digest(), hashlib.sha256(b"").hexdigest())


class FaultsTest(unittest.TestCase):
    def test_a_setup_with_a_fault(self):
        setup = json.loads(example("bank", "json"))
        setup[0] = "setups"
        with self.assertRaises(SetupFault) as raised:
            Session.open(json.dumps(setup).encode())
        self.assertEqual(str(raised.exception), "fault 42")

    def test_settings_outside_their_ranges(self):
        for settings in ({"coarsen": 65_536}, {"arena": 0}, {"arena": 1_048_577}, {"coarsen": -1}):
            with self.subTest(settings):
                self.assertRaises(Misused, Session.open, example("bank", "json"), **settings)

    def test_a_log_with_a_fault(self):
        with Session.open(example("bank", "json")) as session:
            for again in range(2):
                with self.assertRaises(LogFault) as raised:
                    session.feed(b'["cut"]\n[1]\n')
                self.assertEqual((raised.exception.number, raised.exception.line), (32, 2), again)
            self.assertTrue(session.report().startswith(b"batch 1 "))
            self.assertRaises(LogFault, session.cut)
            self.assertRaises(LogFault, session.call, b"1")

    def test_after_the_end(self):
        with Session.open(example("bank", "json")) as session:
            session.end()
            for refused in (session.end, session.cut, lambda: session.call(b"1")):
                self.assertRaises(Misused, refused)

    def test_a_closed_session(self):
        session = Session.open(example("bank", "json"))
        session.close()
        session.close()
        self.assertRaises(Misused, session.report)
        self.assertRaises(Misused, session.keep_replies)
        self.assertRaises(Misused, session.next_reply)
        self.assertRaises(Misused, session.row, "acct", 1)
        self.assertRaises(Misused, session.rows_document)
        self.assertRaises(Misused, session.digest)


if __name__ == "__main__":
    ended = unittest.TextTestRunner(stream=sys.stderr, verbosity=0).run(
        unittest.defaultTestLoader.loadTestsFromModule(sys.modules["__main__"])
    )
    failed = len(ended.failures) + len(ended.errors)
    print(f"the binding for Python: {ended.testsRun} tests, {failed} failed")
    sys.exit(failed > 0 or calvin.ARENA != 65_536)
