#!/usr/bin/env -S python3 -B
"""Writes the small sizes of the workloads as stored cases, each with the report of its model:

    workloads/cases.py [--check]

With --check nothing is written; it ends with status 1 where a case in cases/workloads/ is not what it would write.
"""
import filecmp
import subprocess
import sys
import tempfile
from pathlib import Path

HERE = Path(__file__).resolve().parent
CASES = HERE.parent / "cases/workloads"
FILES = ("setup.json", "log", "stdout")
SMALL = {
    "smallbank": ("smallbank", "--calls 150 --batch 40 --customers 40 --hot 8"),
    "smallbank-hot": ("smallbank", "--calls 150 --batch 150 --customers 40 --hot 3 --share 1"),
    "ycsb-a": ("ycsb", "--workload a --calls 80 --batch 30 --records 30"),
    "ycsb-b": ("ycsb", "--workload b --keys uniform --calls 60 --batch 30 --records 30"),
    "ycsb-c": ("ycsb", "--workload c --calls 40 --batch 20 --records 30"),
    "ycsb-e": ("ycsb", "--workload e --calls 60 --batch 20 --records 60"),
    "ycsb-f": ("ycsb", "--workload f --calls 60 --batch 20 --records 30"),
    "tpcc": ("tpcc", "--calls 200 --batch 60 --warehouses 2 --customers 4 --items 25"),
    "tpcc-orders": ("tpcc", "--seed 3 --mix orders --calls 150 --batch 75 --warehouses 1 --customers 5 --items 20"),
}


def make(folder, workload, words):
    """Writes the files of a case into a folder."""
    at = HERE / workload
    subprocess.run([sys.executable, "-B", at / "generate.py", folder, *words.split()], check=True)
    with (folder / "stdout").open("w") as report:
        subprocess.run([sys.executable, "-B", at / "model.py", folder], stdout=report, check=True)


def main(*words):
    is_checked, changed = words == ("--check",), []
    for name, (workload, sizes) in SMALL.items():
        with tempfile.TemporaryDirectory() as room:
            folder = Path(room) if is_checked else CASES / name
            make(folder, workload, sizes)
            same, other, missing = filecmp.cmpfiles(folder, CASES / name, FILES, shallow=False)
            changed += [f"{name}/{file}" for file in other + missing]
    for file in changed:
        print(f"cases/workloads/{file} is not what the workload makes")
    print(f"{len(SMALL)} workloads are stored as their models say" if not changed else "workloads/cases.py writes them")
    return 1 if changed else 0


if __name__ == "__main__":
    sys.exit(main(*sys.argv[1:]))
