"""How long a call waits for its reply line, from when its own line was written: over a pipe, batch by batch."""
import bisect
import itertools
import os
import selectors
import subprocess
import time
from dataclasses import dataclass

from comparing.running import Failed, is_reply
from comparing.tables import percentile

CUT = b'["cut"]\n'
PIECE = 1 << 16
MOST_SECONDS = 60
# How many batches there are of each size, and how many before them are not counted.
BATCHES = {1: 400, 16: 200, 256: 40, 4096: 10}
WARM_UP = 2


@dataclass(frozen=True)
class Waits:
    """Of the calls of batches of a size: in seconds, how long the middle one waits, and 99 of 100 at most."""

    middle: float
    most: float

    @classmethod
    def of(cls, seconds):
        return cls(percentile(seconds, 50), percentile(seconds, 99))


class Batch:
    """The lines of a batch that are written piece by piece: when each went out, and when each reply line came."""

    def __init__(self, lines):
        self.count, self.text, self.at = len(lines), memoryview(b"".join([*lines, CUT])), 0
        self.ends = list(itertools.accumulate(map(len, lines)))
        self.sent, self.replied = [], []

    @property
    def is_sent(self):
        return self.at == len(self.text)

    def write(self, to):
        now = time.perf_counter()
        try:
            self.at += os.write(to, self.text[self.at : self.at + PIECE])
        except BrokenPipeError:
            raise Failed("the program ended before its log") from None
        self.sent += [now] * (bisect.bisect_right(self.ends, self.at) - len(self.sent))

    def waits(self):
        return [after - before for before, after in zip(self.sent, self.replied)]


class Talk:
    """A program that is fed batches through a pipe, and whose reply lines come back through another. It is ended where
    a batch fails."""

    def __init__(self, command):
        self.process = subprocess.Popen(command, stdin=subprocess.PIPE, stdout=subprocess.PIPE, bufsize=0)
        self.to, self.back = self.process.stdin.fileno(), self.process.stdout.fileno()
        os.set_blocking(self.to, False)
        self.rest = b""

    def __enter__(self):
        return self

    def __exit__(self, kind, *_):
        if kind:
            self.process.kill()
            self.process.stdin.close()
            self.process.stdout.close()
            self.process.wait()
        else:
            self.close()

    def batch(self, lines):
        """Feeds the lines of a batch and its cut, and answers how long each of its calls waited."""
        batch = Batch(lines)
        with selectors.DefaultSelector() as ready:
            ready.register(self.to, selectors.EVENT_WRITE)
            ready.register(self.back, selectors.EVENT_READ)
            while len(batch.replied) < batch.count:
                events = ready.select(MOST_SECONDS)
                if not events:
                    raise Failed("a reply line didn't come")
                for key, _ in events:
                    if key.fd == self.back:
                        count = self.replies()
                        batch.replied += [time.perf_counter()] * count
                    else:
                        batch.write(self.to)
                        if batch.is_sent:
                            ready.unregister(self.to)
        return batch.waits()

    def replies(self):
        """How many reply lines have come whole with the next piece."""
        piece = os.read(self.back, PIECE)
        if not piece:
            raise Failed("the program ended before its reply lines")
        *lines, self.rest = (self.rest + piece).split(b"\n")
        return sum(map(is_reply, lines))

    def close(self):
        """Ends the log, takes what is left of the report and waits for the program."""
        self.process.stdin.close()
        while os.read(self.back, PIECE):
            pass
        self.process.stdout.close()
        if self.process.wait() != 0:
            raise Failed(f"a program ended with status {self.process.returncode}")


def measured(command, calls, size, count):
    """The waits of `count` batches of a size, of calls that are taken from the front again where they run out."""
    seconds = []
    with Talk(command) as talk:
        for turn in range(count + WARM_UP):
            begun = turn * size % len(calls)
            waits = talk.batch([calls[(begun + place) % len(calls)] for place in range(size)])
            if turn >= WARM_UP:
                seconds += waits
    return Waits.of(seconds)
