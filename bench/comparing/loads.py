"""The loads that are measured: who makes each, and what each store's client calls it."""
import json
import subprocess
import sys
from dataclasses import dataclass
from pathlib import Path

TOP = Path(__file__).resolve().parent.parent.parent
FEWEST = 8


@dataclass(frozen=True)
class Load:
    """A load: the words of its generator, and its name at the clients of SQLite and of Redis, if they know it."""

    name: str
    calls: int
    about: str
    workload: str = None
    words: str = ""
    sqlite: str = None
    redis: str = None

    def make(self, folder, scale, batch=None):
        """Writes setup.json, setup3.json (the same setup in version 3) and log into a folder; answers how many calls
        there are. With a scale there are that many times the calls."""
        calls = max(FEWEST, round(self.calls * scale))
        if self.workload:
            maker = [TOP / "workloads" / self.workload / "generate.py", folder, "--calls", calls, *self.words.split()]
            maker += ["--batch", batch] if batch else []
        else:
            maker = [TOP / "scripts/loads.py", self.name, folder, calls]
        subprocess.run([sys.executable, "-B", *map(str, maker)], check=True)
        setup = json.loads((folder / "setup.json").read_text())
        (folder / "setup3.json").write_text(json.dumps(of_version_3(setup), separators=(",", ":")) + "\n")
        return calls

    def model(self, folder):
        """The report that the load's model writes, or nothing where it has none."""
        if not self.workload:
            return None
        command = [sys.executable, "-B", TOP / "workloads" / self.workload / "model.py", folder]
        return subprocess.run(command, check=True, stdout=subprocess.PIPE).stdout


def of_version_3(setup):
    """The setup whose batch lines have a digest over those of the partitions."""
    return ["setup", 3, *setup[2:5], setup[5] if len(setup) > 5 else 0, "partitions"]


def ycsb(letter, about, calls=20_000, **clients):
    words = f"--workload {letter}"
    return Load(f"ycsb-{letter}", calls, about, workload="ycsb", words=words, sqlite="ycsb", **clients)


LOADS = (
    Load("pay", 20_000, "transfers between two of 10,000 accounts", sqlite="pay", redis="pay"),
    Load("hot", 20_000, "the same between two of 10", sqlite="pay", redis="pay"),
    Load("spin", 20_000, "900 turns of a loop a call, each in its account"),
    Load("hop", 20_000, "a row names the account that a call changes", sqlite="hop", redis="pay"),
    Load("scan", 20_000, "transfers, and each tenth call sums a partition", sqlite="scan"),
    Load("big", 20_000, "transfers over 200,000 accounts", sqlite="pay", redis="pay"),
    Load("many", 400, "transfers over 10,000 accounts, two in a batch", sqlite="pay", redis="pay"),
    Load("tiny", 4_000, "the same over 20 accounts", sqlite="pay", redis="pay"),
    Load("smallbank", 20_000, "SmallBank, 10,000 customers, nine calls in ten to 100 of them", "smallbank",
         sqlite="smallbank", redis="smallbank"),
    ycsb("a", "YCSB A: half reads, half updates; 10,000 records", redis="ycsb"),
    ycsb("b", "YCSB B: 95 reads in 100, and updates", redis="ycsb"),
    ycsb("c", "YCSB C: reads", redis="ycsb"),
    ycsb("e", "YCSB E: 95 short scans in 100, and inserts", calls=4_000),
    ycsb("f", "YCSB F: half reads, half reads that modify", redis="ycsb"),
    Load("tpcc", 20_000, "TPC-C: 2 warehouses, 300 customers a district, 1,000 items", "tpcc", sqlite="tpcc"),
)  # fmt: skip
NAMED = {load.name: load for load in LOADS}
