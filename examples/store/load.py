#!/usr/bin/env -S python3 -B
"""Clients of the replicated store, and what they find at its end:

    examples/store/load.py [--clients N] [--seconds N] PORT ..

Each client sends one call at a time, to one of the servers on these ports, and waits for its answer. Where none comes, or the server
goes, it sends the same call to the next server; and one in 20 it sends to two servers at once. When all have their last answer,
each server is asked for its rows: each acknowledged call must be there once, and all servers must have the same digest of all rows. It
prints how many calls there were a second, and how long they waited. The status is 1 where something is wrong.
"""
import argparse
import asyncio
import json
import random
import statistics
import sys
import time

# How long an answer may take before the call is sent again, and how long servers may take to agree at the end, in seconds.
PATIENCE = 2
AGREEMENT = 30
# One in how many calls is sent to two servers.
TWICE = 20


class Line:
    """A connection to a server, a line at a time."""

    def __init__(self, port):
        self.port, self.streams = port, None

    async def asked(self, words, wanted):
        """The next answer that is wanted. OSError where the server goes."""
        if self.streams is None:
            self.streams = await asyncio.open_connection("127.0.0.1", self.port)
        reader, writer = self.streams
        writer.write(json.dumps(words).encode() + b"\n")
        while line := await reader.readline():
            answer = json.loads(line)
            if wanted(answer):
                return answer
        raise OSError("the server is gone")

    def close(self):
        if self.streams is not None:
            self.streams[1].close()
        self.streams = None


async def answer_to(line, words):
    """What a server answers to a call, within a time."""
    return await asyncio.wait_for(line.asked(words, lambda answer: answer[:2] == words[:2] and answer[2] != "busy"), PATIENCE)


class Client:
    """A client with its number, and what was acknowledged to it."""

    def __init__(self, number, ports):
        self.number, self.lines = number, [Line(port) for port in ports]
        self.turn, self.serial = number, 0
        self.deposited, self.waits, self.again, self.twice = 0, [], 0, 0
        self.chance = random.Random(number)

    async def acknowledged(self, procedure, values):
        """What came of a call, sent as often as it takes."""
        self.serial += 1
        words = [self.number, self.serial, procedure, values]
        begun = time.monotonic()
        if self.chance.randrange(TWICE) == 0:
            self.twice += 1
            line = Line(self.lines[(self.turn + 1) % len(self.lines)].port)
            other = asyncio.ensure_future(answer_to(line, words))
            answer = await self.insist(words)
            other.cancel()
            await asyncio.gather(other, return_exceptions=True)
            line.close()
        else:
            answer = await self.insist(words)
        self.waits.append(time.monotonic() - begun)
        return answer

    async def insist(self, words):
        while True:
            try:
                line = self.lines[self.turn % len(self.lines)]
                return await answer_to(line, words)
            except (OSError, ValueError, asyncio.TimeoutError):
                line.close()
                self.turn += 1
                self.again += 1
                await asyncio.sleep(0.02)

    async def run(self, clients, until):
        """Deposits, pays and looks, until it is time to end."""
        while time.monotonic() < until:
            kind, amount = self.chance.randrange(4), self.chance.randrange(1, 100)
            if kind < 2:
                answer = await self.acknowledged("deposit", [self.number, amount])
                self.deposited += amount
            elif kind == 2:
                answer = await self.acknowledged("pay", [self.number, self.chance.randrange(clients), amount])
            else:
                answer = await self.acknowledged("balance", [self.number])
            if answer[2] != "commit" or answer[3] != self.serial:
                raise SystemExit(f"client {self.number}: call {self.serial} is answered {answer}")
        for line in self.lines:
            line.close()


async def one_answer(port, words):
    """A server's answer to one line; None while it doesn't answer."""
    line = Line(port)
    try:
        return await asyncio.wait_for(line.asked(words, lambda _: True), PATIENCE)
    except (OSError, asyncio.TimeoutError):
        return None
    finally:
        line.close()


async def states(ports):
    return [await one_answer(port, ["state"]) for port in ports]


async def agreed(ports):
    """The state that all servers have, once it is the same twice; None where they don't come to it."""
    until, last = time.monotonic() + AGREEMENT, None
    while time.monotonic() < until:
        found = await states(ports)
        if found[0] is not None and all(state == found[0] for state in found) and found == last:
            return found[0]
        last = found
        await asyncio.sleep(0.2)
    print(f"the servers don't agree: {last}")
    return None


async def wrongs(port, clients):
    """What is wrong with a server's rows."""
    wrong, balances, deposited = [], 0, 0
    for client in clients:
        row = await one_answer(port, ["row", "client", client.number])
        if row is None or row[:2] != [client.serial, client.serial]:
            wrong.append(f"client {client.number} has {client.serial} acknowledged calls, and its row on port {port} is {row}")
        balances += (await one_answer(port, ["row", "account", client.number]) or [0])[0]
        deposited += client.deposited
    if balances != deposited:
        wrong.append(f"{deposited} was deposited, and the accounts on port {port} have {balances}")
    return wrong


async def run(options):
    clients = [Client(number, options.ports) for number in range(options.clients)]
    begun = time.monotonic()
    await asyncio.gather(*(client.run(options.clients, begun + options.seconds) for client in clients))
    seconds = time.monotonic() - begun
    waits = sorted(wait * 1000 for client in clients for wait in client.waits)
    print(f"{len(waits)} calls of {len(clients)} clients in {seconds:.1f} seconds: {len(waits) / seconds:.0f} calls a second, "
          f"the middle wait {statistics.median(waits):.1f} ms, one in 100 above {waits[len(waits) * 99 // 100]:.0f} ms, "
          f"the worst {waits[-1]:.0f} ms")
    state = await agreed(options.ports)
    wrong = [wrong for port in options.ports for wrong in await wrongs(port, clients)] if state else ["no agreement"]
    for line in wrong:
        print(line)
    if wrong:
        return 1
    print(f"all {len(options.ports)} servers have each of the {len(waits)} acknowledged calls once, though "
          f"{sum(client.twice for client in clients)} were sent to two servers and {sum(client.again for client in clients)} sent again; "
          f"after batch {state[0]} they have the same rows, {state[2][:16]}..")
    return 0


def main():
    parser = argparse.ArgumentParser(description="Clients of the replicated store.")
    parser.add_argument("--clients", type=int, default=48)
    parser.add_argument("--seconds", type=float, default=10)
    parser.add_argument("ports", type=int, nargs="+")
    return asyncio.run(run(parser.parse_args()))


if __name__ == "__main__":
    sys.exit(main())
