#!/usr/bin/env -S python3 -B
"""Tests of the replicated store without etcd, over the shared object that CALVIN_LIBRARY names:

    examples/store/tests.py

It ends with how many tests passed, and with status 1 where one failed.
"""
import argparse
import asyncio
import base64
import contextlib
import io
import json
import sys
import tempfile
import threading
import unittest
from http.server import BaseHTTPRequestHandler, ThreadingHTTPServer
from pathlib import Path

HERE = Path(__file__).resolve().parent
sys.path[:0] = [str(HERE), str(HERE.parent.parent / "bindings" / "python")]

import load  # noqa: E402
from calvin import LineFault, Outcome  # noqa: E402
from log import Compacted, Entry, Log, entries_of  # noqa: E402
from replica import Replica  # noqa: E402
from server import Server, words_of  # noqa: E402

SETUP = (HERE / "store.json").read_bytes()


def deposit(client, serial, amount=5):
    return json.dumps(["call", "deposit", [client, serial, client, amount]])


class ReplicaTest(unittest.TestCase):
    def setUp(self):
        self.replica = Replica(SETUP)

    def took(self, *entries, replica=None):
        answers = [answer for entry in entries for answer in (replica or self.replica).take(Entry(*entry))]
        return [(answer.name, answer.place, *words_of(answer.outcome)) for answer in answers]

    def test_answers_come_at_the_cut(self):
        self.assertEqual(self.took((2, "call/a", [deposit(1, 1), deposit(2, 1, 7)])), [])
        self.assertEqual((self.replica.batch, self.replica.revision), (0, 0))
        wanted = [("call/a", 0, "commit", 1, 0, 5), ("call/a", 1, "commit", 1, 0, 7)]
        self.assertEqual(self.took((3, "cut/1", ['["cut"]'])), wanted)
        self.assertEqual((self.replica.batch, self.replica.revision), (1, 3))

    def test_a_repeated_call_replies_as_it_did(self):
        self.took((1, "call/a", [deposit(1, 1)]), (2, "cut/1", []))
        again = self.took((3, "call/b", [deposit(1, 1)]), (4, "call/c", [deposit(1, 2), deposit(1, 1)]), (5, "cut/2", []))
        self.assertEqual([answer[2:] for answer in again], [("commit", 1, 0, 5), ("commit", 2, 0, 10), ("abort", 100)])
        self.assertEqual(self.replica.session.row("client", 1), (2, 2, 0, 10))
        self.assertEqual(self.replica.session.row("account", 1), (10,))

    def test_what_is_not_done_is_kept_too(self):
        pay = '["call","pay",[%d,%d,1,2,%d]]'
        answers = self.took((1, "call/a", [pay % (1, 1, 1), deposit(1, 2), deposit(2, 1), pay % (1, 3, 6), pay % (1, 3, 6),
                                           pay % (1, 4, -1), pay % (1, 5, 3), '["call","balance",[3,1,9]]']), (2, "cut/1", []))
        wanted = [(1, 1, 0), (2, 0, 5), (1, 0, 5), (3, 2, 5), (3, 2, 5), (4, 3, 0), (5, 0, 2), (1, 1, 0)]
        self.assertEqual([answer[3:] for answer in answers], wanted)

    def test_a_line_with_a_fault_is_every_replicas(self):
        answers = self.took((1, "call/a", ["[", deposit(1, 1), '["call","none",[]]']))
        self.assertEqual(answers, [("call/a", 0, "fault", 31), ("call/a", 2, "fault", 33)])
        self.assertEqual(len(self.took((2, "cut/1", []))), 1)
        self.assertEqual(self.took((3, "call/b", ["", '["cut"]'])), [("call/b", 0, "fault", 31), ("call/b", 1, "fault", 32)])
        self.assertEqual((self.replica.batch, self.replica.revision), (1, 3))

    def test_a_cut_of_another_batch_is_passed_over(self):
        self.took((1, "call/a", [deposit(1, 1)]), (2, "cut/2", []), (3, "cut/0", []))
        self.assertEqual((self.replica.batch, self.replica.revision), (0, 0))
        self.assertEqual(len(self.took((4, "cut/1", []))), 1)
        self.assertEqual(self.took((5, "cut/1", []), (6, "cut/2", [])), [])
        self.assertEqual((self.replica.batch, self.replica.revision), (1, 6))

    def test_a_full_batch_ends_before_the_entry(self):
        for entry in range(16):
            self.assertEqual(self.took((entry + 1, f"call/{entry}", [deposit(entry, n + 1) for n in range(256)])), [])
        self.assertIsNone(self.replica.test(deposit(99, 1)))
        self.assertEqual(len(self.took((17, "call/last", [deposit(99, 1)]))), 4096)
        self.assertEqual((self.replica.batch, self.replica.revision), (1, 16))

    def test_a_replica_starts_from_the_rows_of_another(self):
        self.took((1, "call/a", [deposit(1, 1), deposit(2, 1)]), (2, "cut/1", []), (3, "call/b", [deposit(3, 1)]))
        other = Replica(SETUP, self.replica.snapshot())
        self.assertEqual((other.batch, other.revision), (1, 2))
        rest = [(3, "call/b", [deposit(3, 1)]), (4, "call/c", [deposit(1, 1), deposit(1, 2)]), (5, "cut/2", [])]
        self.assertEqual(self.took(*rest[1:]), self.took(*rest, replica=other))
        self.assertEqual(self.replica.session.digest(), other.session.digest())
        self.assertEqual(self.replica.snapshot(), other.snapshot())

    def test_a_line_before_it_goes_into_the_log(self):
        self.assertIsNone(self.replica.test(deposit(1, 1)))
        self.assertEqual(self.replica.test('["cut"]'), LineFault.Kind.NOT_CALL)
        self.assertEqual(self.replica.test('["call","deposit",[1]]'), LineFault.Kind.ARGUMENTS)
        self.assertEqual(Outcome.COMMIT, 0)


class Member(BaseHTTPRequestHandler):
    """What this store asks of a member of etcd, kept in memory."""

    def log_message(self, *_):
        pass

    def do_POST(self):
        words = json.loads(self.rfile.read(int(self.headers["Content-Length"])))
        if self.server.fails > 0:
            self.server.fails -= 1
            self.send_error(503)
        elif self.path == "/v3/kv/txn":
            self.put(words)
        else:
            self.watch(words["create_request"])

    def put(self, words):
        given = words["success"][0]["requestPut"]
        with self.server.grown:
            new = given["key"] not in self.server.keys
            if new:
                self.server.keys.append(given["key"])
                self.server.events.append({"kv": {**given, "mod_revision": str(len(self.server.events) + 1)}})
                self.server.grown.notify_all()
        answer = json.dumps({"header": {}, "succeeded": new}).encode()
        self.send_response(200)
        self.send_header("Content-Length", str(len(answer)))
        self.end_headers()
        self.wfile.write(answer)

    def watch(self, words):
        self.send_response(200)
        self.end_headers()
        at = int(words["start_revision"]) - 1
        while at < self.server.least:
            self.wfile.write(b'{"result":{"canceled":true,"compact_revision":"%d"}}\n' % self.server.least)
            return
        with contextlib.suppress(OSError):
            self.wfile.write(b'{"result":{"created":true}}\n')
            while not self.server.over:
                with self.server.grown:
                    events = self.server.events[at : at + 2] or self.server.grown.wait(0.05) or []
                if events and events is not True:
                    at += len(events)
                    self.wfile.write(json.dumps({"result": {"events": events}}).encode() + b"\n")
                    if self.server.short:
                        return


class LogTest(unittest.TestCase):
    def setUp(self):
        self.server = ThreadingHTTPServer(("127.0.0.1", 0), Member)
        self.server.keys, self.server.events, self.server.grown = [], [], threading.Condition()
        self.server.fails, self.server.least, self.server.over, self.server.short = 0, 0, False, False
        threading.Thread(target=self.server.serve_forever, daemon=True).start()
        self.addCleanup(self.server.server_close)
        self.addCleanup(self.server.shutdown)
        self.addCleanup(setattr, self.server, "over", True)
        # The first member is one that isn't there.
        self.log = Log(["http://127.0.0.1:1", f"http://127.0.0.1:{self.server.server_port}"], patience=0.3)

    def first(self, count, after=0):
        entries = self.log.entries(after)
        return [next(entries) for _ in range(count)]

    def test_an_entry_is_put_once(self):
        self.server.fails = 2
        for _ in range(2):
            self.log.put_once("call/a", ["one", "two"])
        self.log.put_once("cut/1", ['["cut"]'])
        self.assertEqual(self.first(2), [Entry(1, "call/a", ["one", "two"]), Entry(2, "cut/1", ['["cut"]'])])

    def test_the_log_is_followed_past_failures(self):
        self.server.short = True
        for number in range(7):
            self.log.put_once(f"call/{number}", [str(number)])
        self.assertEqual([entry.lines for entry in self.first(7)], [[str(number)] for number in range(7)])
        self.assertEqual(self.first(1, after=5)[0].lines, ["5"])

    def test_a_log_that_is_compacted(self):
        self.server.least = 3
        self.assertRaises(Compacted, self.first, 1)

    def test_what_a_watch_tells(self):
        key, value = (base64.b64encode(text).decode() for text in (b"log/call/a", b"\xff"))
        kept = {"key": key, "value": value, "mod_revision": "9"}
        answer = {"result": {"events": [{"type": "DELETE", "kv": kept}, {"kv": kept}]}}
        self.assertEqual(list(entries_of(answer)), [Entry(9, "call/a", ["\ufffd"])])
        self.assertRaises(OSError, list, entries_of({"error": {"message": "no leader"}}))
        self.assertRaises(OSError, list, entries_of({"result": {"canceled": True}}))


class MemoryLog:
    """A log in memory, for all servers of a test."""

    def __init__(self):
        self.kept, self.grown = {}, threading.Condition()

    def put_once(self, name, lines):
        with self.grown:
            self.kept.setdefault(name, Entry(len(self.kept) + 1, name, lines))
            self.grown.notify_all()

    def entries(self, after):
        while True:
            with self.grown:
                self.grown.wait_for(lambda: len(self.kept) > after)
                entry = list(self.kept.values())[after]
            yield entry
            after = entry.revision


class ServerTest(unittest.IsolatedAsyncioTestCase):
    async def started(self, *names, rows=None, **settings):
        servers = [Server(name, SETUP, rows, lambda: self.log, **settings) for name in names]
        for server in servers:
            await server.start(0)
            self.addAsyncCleanup(asyncio.to_thread, server.listener.close)
        return [server.listener.sockets[0].getsockname()[1] for server in servers]

    async def asyncSetUp(self):
        self.log = MemoryLog()
        asyncio.get_running_loop().slow_callback_duration = 10

    async def test_calls_are_answered(self):
        (port,) = await self.started("one", milliseconds=1)
        line = load.Line(port)
        for words, answer in (
            ([7, 1, "deposit", [7, 30]], [7, 1, "commit", 1, 0, 30]),
            ([7, 1, "deposit", [7, 30]], [7, 1, "commit", 1, 0, 30]),
            ([7, 2, "deposit", [7]], [7, 2, "fault", 34]),
            ([7, 0, "deposit", [7, 1]], [7, 0, "abort", 100]),
            (["row", "account", 7], [30]),
            (["row", "account", 8], None),
            (["row", "accounts", 8], ["unknown"]),
            ({"a": 1}, ["unknown"]),
        ):
            self.assertEqual(await line.asked(words, lambda _: True), answer)
        line.close()

    async def test_three_servers_have_each_call_once(self):
        ports = await self.started("one", "two", "three", milliseconds=2, calls=20, batches=0)
        said = io.StringIO()
        with contextlib.redirect_stdout(said):
            status = await load.run(argparse.Namespace(clients=20, seconds=1, ports=ports))
        self.assertEqual(status, 0, said.getvalue())
        self.assertIn("acknowledged calls once", said.getvalue())

    async def test_a_server_starts_from_its_rows(self):
        with tempfile.TemporaryDirectory() as folder:
            rows = Path(folder) / "rows"
            (port,) = await self.started("one", rows=rows, milliseconds=1, batches=1)
            line = load.Line(port)
            for serial in range(1, 6):
                await line.asked([1, serial, "deposit", [1, 2]], lambda _: True)
            line.close()
            head = rows.read_bytes().split(b"\n")[0].split()
            (other,) = await self.started("two", rows=rows)
            state = await load.agreed([port, other])
            self.assertEqual(state[:2], [int(head[1]), int(head[0])])


if __name__ == "__main__":
    ended = unittest.TextTestRunner(stream=sys.stderr, verbosity=0).run(
        unittest.defaultTestLoader.loadTestsFromModule(sys.modules["__main__"])
    )
    failed = len(ended.failures) + len(ended.errors)
    print(f"the replicated store: {ended.testsRun} tests, {failed} failed")
    sys.exit(failed > 0)
