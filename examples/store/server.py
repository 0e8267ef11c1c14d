#!/usr/bin/env -S python3 -B
"""A server of the replicated store:

    examples/store/server.py --name NAME --port PORT --etcd URL[,URL ..] [--rows FILE] [--setup FILE]
                             [--milliseconds N] [--calls N] [--batches N]

It takes calls from clients on a port of the loopback, and answers them once they are executed. README.md beside it has the lines.
A batch ends N milliseconds after its first call, or where it has N calls. Every N batches, and where a client asks for it, the
server writes its rows with their revision to FILE; where FILE is there at the start, it begins with these rows.
"""
import argparse
import asyncio
import json
import os
import queue
import secrets
import sys
import threading
from pathlib import Path

HERE = Path(__file__).resolve().parent
sys.path[:0] = [str(HERE), str(HERE.parent.parent / "bindings" / "python")]

from calvin import CalvinError, LineFault, NoTable, Outcome  # noqa: E402
from log import Compacted, Log  # noqa: E402
from replica import CUT, CUT_LINE, Replica  # noqa: E402

# How many lines an entry of the log has at most, and how many calls may wait for their answers.
MOST_LINES = 256
MOST_WAITING = 20_000
# After how many times the wait for a cut the servers cut that have none of the batch's calls.
OTHERS = 10


class Putter(threading.Thread):
    """Puts calls into the log. Those that came while an entry was put are the next one."""

    def __init__(self, log, server):
        super().__init__(daemon=True)
        self.log, self.server = log, server
        self.calls = queue.SimpleQueue()

    def run(self):
        while True:
            calls = [self.calls.get()]
            while len(calls) < MOST_LINES and not self.calls.empty():
                calls.append(self.calls.get())
            name = f"call/{self.server.name}/{secrets.token_hex(8)}"
            self.server.loop.call_soon_threadsafe(self.server.expect, name, [who for _, who in calls])
            self.log.put_once(name, [line for line, _ in calls])


class Cutter(threading.Thread):
    """Puts the cuts."""

    def __init__(self, log):
        super().__init__(daemon=True)
        self.log = log
        self.batches = queue.SimpleQueue()

    def run(self):
        while True:
            self.log.put_once(f"{CUT}{self.batches.get()}", [CUT_LINE])


class Follower(threading.Thread):
    """Hands the entries of the log to the loop, in their order."""

    def __init__(self, log, server):
        super().__init__(daemon=True)
        self.log, self.server, self.after = log, server, server.replica.revision

    def run(self):
        try:
            for entry in self.log.entries(self.after):
                self.server.loop.call_soon_threadsafe(self.server.take, entry)
        except Compacted as why:
            self.server.loop.call_soon_threadsafe(self.server.fail, why)


class Server:
    """What a server has: a replica, the clients that wait, and the threads that put into the log and follow it. All but what the
    threads do is on the loop's thread."""

    def __init__(self, name, setup, rows, new_log, milliseconds=5, calls=1000, batches=500):
        self.name, self.rows, self.new_log = name, rows, new_log
        self.wait, self.most_calls, self.batches = milliseconds / 1000, calls, batches
        kept = rows.read_bytes() if rows is not None and rows.exists() else None
        self.replica = Replica(setup, kept)
        self.waiting, self.count = {}, 0
        self.timer, self.cut_asked = None, 0

    async def start(self, port):
        """Follows the log, and answers clients on a port of the loopback."""
        self.loop, self.ended = asyncio.get_running_loop(), asyncio.Event()
        self.putter, self.cutter = Putter(self.new_log(), self), Cutter(self.new_log())
        for thread in (self.putter, self.cutter, Follower(self.new_log(), self)):
            thread.start()
        self.listener = await asyncio.start_server(self.serve, "127.0.0.1", port)

    async def serve(self, reader, writer):
        """Takes a client's lines until it goes."""
        try:
            while line := await reader.readline():
                self.asked(line, writer)
                await writer.drain()
        except (OSError, ValueError):
            pass
        finally:
            writer.close()

    def asked(self, line, writer):
        """Answers a line, or has its call put into the log."""
        try:
            words = json.loads(line)
        except ValueError:
            words = None
        match words:
            case [int(client), int(serial), str(procedure), list(values)]:
                self.called(client, serial, procedure, values, writer)
            case ["row", str(table), int(key)]:
                self.row(table, key, writer)
            case ["state"]:
                say(writer, [self.replica.batch, self.replica.revision, self.replica.session.digest()])
            case ["save"]:
                self.save()
                say(writer, [self.replica.batch, self.replica.revision])
            case _:
                say(writer, ["unknown"])

    def called(self, client, serial, procedure, values, writer):
        line = json.dumps(["call", procedure, [client, serial, *values]])
        kind = self.replica.test(line)
        if kind is not None:
            say(writer, [client, serial, "fault", int(kind)])
        elif self.count >= MOST_WAITING:
            say(writer, [client, serial, "busy"])
        else:
            self.count += 1
            self.putter.calls.put((line, (writer, client, serial)))

    def row(self, table, key, writer):
        try:
            say(writer, self.replica.session.row(table, key))
        except NoTable:
            say(writer, ["unknown"])

    def expect(self, name, clients):
        """An entry of this server is put into the log: these clients wait for its lines. It is told before the entry is put."""
        for place, client in enumerate(clients):
            self.waiting[name, place] = client

    def take(self, entry):
        """Takes the next entry of the log, and answers the clients of this server whose calls were executed."""
        batch = self.replica.batch
        try:
            for answer in self.replica.take(entry):
                self.answer(answer)
        except CalvinError as why:
            self.fail(why)
            return
        if self.replica.batch != batch:
            self.no_timer()
            if self.batches and self.replica.batch % self.batches == 0:
                self.save()
        if self.replica.waiting:
            self.plan_cut(entry.name.startswith(f"call/{self.name}/"))

    def answer(self, answer):
        if (answer.name, answer.place) in self.waiting:
            writer, client, serial = self.waiting.pop((answer.name, answer.place))
            self.count -= 1
            say(writer, [client, serial, *words_of(answer.outcome)])

    def plan_cut(self, ours):
        """Sees to it that the batch ends. The server whose call is its first one puts the cut, and the others only later."""
        if ours and len(self.replica.waiting) >= self.most_calls:
            self.ask_cut(self.replica.batch + 1)
        elif self.timer is None:
            self.timer = self.loop.call_later(self.wait * (1 if ours else OTHERS), self.ask_cut, self.replica.batch + 1)

    def no_timer(self):
        if self.timer is not None:
            self.timer.cancel()
        self.timer = None

    def ask_cut(self, batch):
        if self.cut_asked < batch:
            self.cut_asked = batch
            self.cutter.batches.put(batch)

    def save(self):
        """Writes the rows with their revision, whole or not at all."""
        if self.rows is not None:
            new = self.rows.with_name(self.rows.name + ".new")
            with new.open("wb") as file:
                file.write(self.replica.snapshot())
                file.flush()
                os.fsync(file.fileno())
            new.replace(self.rows)

    def fail(self, why):
        print(f"server {self.name}: {why}", file=sys.stderr)
        self.ended.set()


def words_of(outcome):
    """What a client is told of a call: its reply, or the fault of its line."""
    if isinstance(outcome, LineFault.Kind):
        return ["fault", int(outcome)]
    if outcome.outcome == Outcome.ABORT:
        return ["abort", outcome.code]
    return [outcome.outcome.name.lower(), *outcome.values]


def say(writer, words):
    if not writer.is_closing():
        writer.write(json.dumps(words).encode() + b"\n")


async def run(options):
    members = options.etcd.split(",")
    server = Server(options.name, options.setup.read_bytes(), options.rows, lambda: Log(members), options.milliseconds,
                    options.calls, options.batches)
    await server.start(options.port)
    begun = server.replica
    print(f"server {options.name} begins after batch {begun.batch}, at revision {begun.revision}", flush=True)
    await server.ended.wait()


def main():
    parser = argparse.ArgumentParser(description="A server of the replicated store.")
    parser.add_argument("--name", required=True)
    parser.add_argument("--port", type=int, required=True)
    parser.add_argument("--etcd", required=True)
    parser.add_argument("--rows", type=Path)
    parser.add_argument("--setup", type=Path, default=HERE / "store.json")
    parser.add_argument("--milliseconds", type=float, default=5)
    parser.add_argument("--calls", type=int, default=1000)
    parser.add_argument("--batches", type=int, default=500)
    asyncio.run(run(parser.parse_args()))
    return 1


if __name__ == "__main__":
    sys.exit(main())
