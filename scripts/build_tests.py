#!/usr/bin/env -S python3 -B
"""Tries the script that builds the program, scripts/build.py: which crate goes first, and that a crate is built and kept.

    scripts/build_tests.py

One crate, the least of the repository, is proved in a folder of its own, which takes some seconds. A last line says what came
of it. The status is 1 where a test fails.
"""
import os
import shutil
import subprocess
import sys
import tempfile
import time
import unittest
from pathlib import Path
from unittest.mock import patch

TOP = Path(__file__).resolve().parent.parent
sys.path.insert(0, str(TOP / "scripts"))

import build  # noqa: E402

LEAST_CRATE = "batch_items"


class Library:
    """A crate without a folder, of n lines, over others."""

    def __init__(self, name, lines, *deps):
        self.name, self.lines, self.deps = name, lines, list(deps)

    def below(self):
        return [it for dep in self.deps for it in [*dep.below(), dep]]

    def count(self, _):
        return self.lines


class Order(unittest.TestCase):
    def setUp(self):
        self.values = Library("values", 10)
        self.locks = Library("locks", 100, self.values)
        self.language = Library("language", 30, self.values)
        self.text = Library("text", 5, self.values)
        self.engine = Library("engine", 50, self.locks, self.language)
        self.all = [self.values, self.locks, self.language, self.text, self.engine]

    def built_by(self, way):
        return patch.multiple(build, build=lambda _, library, jobs, niceness: (way(library), 0), say=lambda text: None)

    def test_a_chain_is_as_long_as_the_crates_above(self):
        found = build.chains(self.all)
        self.assertEqual([found[it] for it in self.all], [160, 150, 80, 5, 50])

    def test_the_longest_chain_has_the_highest_priority(self):
        length = build.chains(self.all)
        begun = {self.text: None, self.locks: None, self.language: None}
        self.assertEqual(build.ranked(begun, length), {self.locks: 0, self.language: 10, self.text: 19})

    def test_no_priority_rises(self):
        length = build.chains(self.all)
        found = build.ranked({self.language: 10, self.text: 19}, length)
        self.assertEqual(found, {self.language: 10, self.text: 19})
        found = build.ranked({self.language: 10, self.locks: None}, length)
        self.assertEqual(found, {self.locks: 0, self.language: 10})

    def test_each_crate_is_built_after_those_below_it(self):
        order = []
        with self.built_by(lambda library: order.append(library) or True):
            self.assertIsNone(build.build_all(None, self.all))
        self.assertEqual(set(order), set(self.all))
        for place, library in enumerate(order):
            self.assertLessEqual(set(library.below()), set(order[:place]))

    def test_what_others_wait_for_gets_several_jobs(self):
        engine, text = Library("engine", 50), Library("text", 5)
        for processors, checks, wanted in [(1, 2, (1, 1)), (2, 3, (2, 1)), (4, 5, (4, 1)), (4, 2, (2, 1)), (16, 17, (4, 4))]:
            with self.subTest(processors=processors, checks=checks), patch.object(build, "processors", lambda: processors):
                self.assertEqual(tuple(build.jobs_of(it, checks) for it in (engine, text)), wanted)

    def test_there_are_crates_that_others_wait_for(self):
        crates = {line.partition(":")[0].split()[0] for line in Path(TOP, "crates.txt").read_text().splitlines() if ":" in line}
        self.assertLessEqual(build.IN_A_HURRY, crates)

    def test_the_first_that_fails_ends_the_build(self):
        with self.built_by(lambda library: library is not self.values):
            self.assertIs(build.build_all(None, self.all), self.values)


class Priorities(unittest.TestCase):
    def test_the_processes_of_a_folder_are_lowered_and_no_others(self):
        with tempfile.TemporaryDirectory() as one, tempfile.TemporaryDirectory() as other:
            started = [subprocess.Popen(["sh", "-c", "sleep 60; true"], cwd=folder) for folder in (one, other)]
            try:
                time.sleep(0.2)
                library = Library("one", 1)
                library.folder = one
                build.lower(library, 7)
                found = [os.getpriority(os.PRIO_PROCESS, it.pid) for it in started]
                inner = list(build.processes_below(started[0].pid))
                self.assertEqual((found[0], found[1] < 7), (7, True))
                self.assertEqual([os.getpriority(os.PRIO_PROCESS, it) for it in inner], [7])
            finally:
                for process in started:
                    for it in [*build.processes_below(process.pid), process.pid]:
                        os.kill(it, 9)
                    process.wait()


class Building(unittest.TestCase):
    def test_a_crate_is_proved_and_kept(self):
        rtlib = build.toolchain()
        with tempfile.TemporaryDirectory() as top:
            shutil.copytree(TOP / "crates" / LEAST_CRATE, Path(top, "crates", LEAST_CRATE), ignore=shutil.ignore_patterns("out"))
            Path(top, "crates.txt").write_text(f"{LEAST_CRATE}:\n")
            Path(top, "HANDLES").write_text(Path(TOP, "HANDLES").read_text())
            folder = os.path.join(top, "crates", LEAST_CRATE)
            library = rtlib.Crate(folder, top, {})
            self.assertFalse(library.is_built())
            well, _ = build.build(rtlib, library, 1, 0)
            self.assertTrue(well, Path(folder, "out", "build.log").read_text())
            self.assertTrue(library.is_built())


if __name__ == "__main__":
    ended = unittest.main(exit=False).result
    print(f"scripts/build.py: {ended.testsRun} tests, {len(ended.failures) + len(ended.errors)} failed")
    sys.exit(not ended.wasSuccessful())
