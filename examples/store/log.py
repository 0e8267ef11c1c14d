"""A log that etcd keeps, over the HTTP gateway that each of its members has on its client address.

An entry is a key below `log/` with its value. Its place is its revision, which etcd gives it, and all who follow the log see the
entries in the order of their revisions.
"""
import base64
import http.client
import json
import time
from typing import NamedTuple
from urllib.parse import urlsplit

PREFIX = "log/"
# How long a member of etcd may take to answer, and a watch may be still before another member is asked, in seconds.
PATIENCE = 1.5


class Compacted(Exception):
    """Entries from the wanted revision on are no longer there: start from rows of a later revision."""


class Entry(NamedTuple):
    """An entry of the log: its revision, its name without the prefix, and its lines."""

    revision: int
    name: str
    lines: list


def coded(text):
    return base64.b64encode(text.encode()).decode()


def plain(text):
    return base64.b64decode(text).decode(errors="replace")


class Log:
    """A client of the members of etcd. A thread of its own may have one of its own; it asks one member until that fails, and then
    the next one."""

    def __init__(self, members, patience=PATIENCE):
        self.members = [urlsplit(member) for member in members]
        self.patience = patience
        self.turn = 0
        self.connection = None

    def connect(self):
        member = self.members[self.turn % len(self.members)]
        return http.client.HTTPConnection(member.hostname, member.port, timeout=self.patience)

    def next_member(self):
        if self.connection is not None:
            self.connection.close()
        self.connection = None
        self.turn += 1

    def asked(self, path, question):
        """What a member answers; OSError or HTTPException where it fails to."""
        if self.connection is None:
            self.connection = self.connect()
        self.connection.request("POST", path, json.dumps(question), {"Content-Type": "application/json"})
        response = self.connection.getresponse()
        answer = response.read()
        if response.status != 200:
            raise OSError(f"etcd answers {response.status}: {answer[:200]!r}")
        return json.loads(answer)

    def insist(self, path, question):
        """What the first member answers that does, however long that takes."""
        while True:
            try:
                return self.asked(path, question)
            except (OSError, http.client.HTTPException, ValueError):
                self.next_member()
                time.sleep(0.02)

    def put_once(self, name, lines):
        """Puts an entry, unless its name is there. It returns once the entry is in the log, and its name is there once however
        often that is asked for: an answer that was lost leads to no second entry."""
        key = coded(PREFIX + name)
        self.insist("/v3/kv/txn", {
            "compare": [{"key": key, "target": "CREATE", "result": "EQUAL", "createRevision": "0"}],
            "success": [{"requestPut": {"key": key, "value": coded("\n".join(lines))}}],
        })

    def entries(self, after):
        """The entries after a revision, in the order of their revisions, without an end. Compacted."""
        while True:
            try:
                for entry in self.watched(after + 1):
                    yield entry
                    after = entry.revision
            except (OSError, http.client.HTTPException, ValueError):
                time.sleep(0.02)
            self.turn += 1

    def watched(self, first):
        """The entries from a revision on, until the member fails or is still for a time."""
        connection = self.connect()
        try:
            connection.request("POST", "/v3/watch", json.dumps({"create_request": {
                "key": coded(PREFIX),
                "range_end": coded(PREFIX[:-1] + chr(ord(PREFIX[-1]) + 1)),
                "start_revision": str(first),
            }}), {"Content-Type": "application/json"})
            response = connection.getresponse()
            while line := response.readline():
                yield from entries_of(json.loads(line))
        finally:
            connection.close()


def entries_of(answer):
    """The entries that a line of a watch's answer tells of. Those that were deleted are none."""
    if "error" in answer:
        raise OSError(f"etcd ends the watch: {answer['error']}")
    result = answer["result"]
    if "compact_revision" in result:
        raise Compacted(f"the log is compacted up to revision {result['compact_revision']}")
    if result.get("canceled"):
        raise OSError("etcd ends the watch")
    for event in result.get("events", ()):
        if event.get("type") != "DELETE":
            kept = event["kv"]
            name = plain(kept["key"])[len(PREFIX) :]
            yield Entry(int(kept["mod_revision"]), name, plain(kept.get("value", "")).split("\n"))
