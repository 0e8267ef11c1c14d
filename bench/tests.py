#!/usr/bin/env -S python3 -B
"""Tests of what measures, and of the programs that the executor is measured beside:

    bench/tests.py [FOLDER [PROGRAM]]     FOLDER is bench/out, where bench/build.sh puts them, where none is named,
                                          and PROGRAM, of the executor, is crates/cli/out/cli

- Small functions: tables, percentiles, the plot, what a run took, the waits of a batch.
- The plain program gives the stored report of each case in cases/ whose log has no fault.
- On a small size of each workload it gives the model's report, on setups of version 1 and of version 3.
- bench/race.py sets workers over a run alone, and finds a report that differs.
- scripts/compare.py runs tiny sizes by all clients that are built, with the program of the executor where it is there,
  and with one that takes its words and is the plain one.

It ends with how many tests passed, and with status 1 where one failed. Tests of programs that aren't built are skipped.
"""
import importlib.util
import json
import os
import subprocess
import sys
import tempfile
import unittest
import xml.etree.ElementTree as ElementTree
from pathlib import Path
from unittest.mock import patch

HERE = Path(__file__).resolve().parent
TOP = HERE.parent
sys.path[:0] = [str(HERE), str(TOP / "workloads"), str(TOP / "scripts")]

import race  # noqa: E402
from comparing import latency, loads, machine, plot, running, systems, tables  # noqa: E402
from comparing.figures import Figures, of_waits  # noqa: E402
from report import Rows, digest, report_of  # noqa: E402

OUT, PROGRAM = HERE / "out", TOP / "crates/cli/out/cli"
NOT_PLAIN = ("args", "progress", "status", "stderr", "logs", "setups")


def of_words(*words, **other):
    """A finished run of the words, with its output."""
    return subprocess.run(list(map(str, words)), stdout=subprocess.PIPE, stderr=subprocess.STDOUT, check=False, **other)


class TablesTest(unittest.TestCase):
    def test_numbers_have_three_digits(self):
        shown = {0.0: "0.000", 0.0123: "0.012", 1.234: "1.23", 12.34: "12.3", 123.4: "123", 12_345.6: "12,346"}
        for value, wanted in shown.items():
            self.assertEqual(tables.number(value), wanted)

    def test_percentile_is_the_nearest_rank(self):
        values = [15, 20, 35, 40, 50]
        wanted = {0: 15, 5: 15, 30: 20, 40: 20, 50: 35, 99: 50, 100: 50}
        for share, value in wanted.items():
            self.assertEqual(tables.percentile(reversed(values), share), value)
        self.assertEqual(tables.percentile([7], 99), 7)
        self.assertEqual(tables.percentile(range(1, 101), 99), 99)

    def test_percentile_of_nothing_is_refused(self):
        self.assertRaises(ValueError, tables.percentile, [], 50)

    def test_columns_are_lined_up(self):
        made = tables.table(["load", "s"], [["pay", "1.50"], ["smallbank", 2]])
        wanted = "| load      |    s |\n| --------- | ---: |\n| pay       | 1.50 |\n| smallbank |    2 |\n"
        self.assertEqual(made, wanted)

    def test_rows_have_as_many_cells_as_the_head(self):
        self.assertRaises(ValueError, tables.table, ["a", "b"], [["1"]])

    def test_page_is_filled_between_its_marks(self):
        page = "before\n<!-- figures -->\nold\n<!-- end of figures -->\nafter\n"
        wanted = "before\n<!-- figures -->\n\nnew\n\n<!-- end of figures -->\nafter\n"
        self.assertEqual(tables.filled(page, "new\n"), wanted)
        self.assertEqual(tables.filled(wanted, "new"), wanted)

    def test_page_must_have_each_mark_once(self):
        for page in ("", "<!-- figures -->\n", "<!-- end of figures -->\n<!-- figures -->\n"):
            self.assertRaises(ValueError, tables.filled, page, "new")


class PlotTest(unittest.TestCase):
    def drawn(self, figures, names):
        root = ElementTree.fromstring(plot.bars("A <title>", figures, names))
        return root, [one for one in root.iter() if one.tag.endswith("rect") and len(one)]

    def test_each_figure_is_a_bar_by_its_logarithm(self):
        _, bars = self.drawn({"pay": {"a": 1, "b": 10}, "hot": {"b": 100}}, ["a", "b"])
        widths = [float(bar.get("width")) for bar in bars]
        self.assertEqual(len(widths), 3)
        self.assertAlmostEqual(widths[0], 0, places=1)
        self.assertAlmostEqual(2 * widths[1], widths[2], places=0)

    def test_names_are_escaped(self):
        root, _ = self.drawn({"a&b": {"<s>": 2.0}}, ["<s>"])
        texts = {one.text for one in root.iter() if one.tag.endswith("text")}
        self.assertTrue({"A <title>", "a&b", "<s>"} <= texts)

    def test_one_power_of_ten_is_enough(self):
        scale = plot.Scale([10, 10])
        self.assertEqual(scale.powers(), [10.0, 100.0])


class FiguresTest(unittest.TestCase):
    def test_best_of_the_rounds_less_an_empty_log(self):
        figures = Figures(calls={"pay": 1_000})
        for spent, empty in ((0.5, 0.2), (0.4, 0.3)):
            figures.add("pay", "plain", running.Taken(spent, spent + 1, 8), running.Taken(empty, 1, 8))
        self.assertAlmostEqual(figures.a_call("pay", "plain"), 200)
        self.assertEqual(figures.quantities("pay", "plain"), ["0.400", "1.40", "8.00", "200"])
        self.assertEqual(figures.quantities("pay", "redis"), ["–"] * 4)
        self.assertEqual(list(figures.of_calls(["plain", "redis"])["pay"]), ["plain"])
        self.assertEqual(len(figures.table(["plain", "redis"]).splitlines()), 6)

    def test_two_programs_are_set_beside_each_other(self):
        figures = Figures(calls={"pay": 10})
        for name, spent in {"old alone": 0.5, "new alone": 0.25, "old 2": 1.0}.items():
            figures.add("pay", name, running.Taken(spent, spent, 8), running.Taken(0, 0, 8))
        made = figures.ratios("new", "old", list(figures.whole["pay"]))
        self.assertEqual(made.splitlines()[0::2], ["| load | alone |", "| pay  | 0.500 |"])

    def test_waits_are_shown_in_microseconds(self):
        made = of_waits({16: {"plain": latency.Waits(0.0015, 0.02)}}, ["plain", "redis"])
        self.assertIn("1,500", made)
        self.assertIn("20,000", made)


class RunningTest(unittest.TestCase):
    def test_reply_lines_are_told_from_the_others(self):
        whole = running.written(b"0 commit 1\nbatch 1 rows a replies b\nend 1 rows a replies b\n")
        self.assertEqual(whole.replies, running.written(b"0 commit 1\n").whole)
        self.assertNotEqual(whole.whole, whole.replies)

    def test_what_was_taken_is_read(self):
        self.assertEqual(running.Taken.of("1.5 2.25 2048\n"), running.Taken(1.5, 2.25, 2.0))
        self.assertEqual(running.Taken(1, 5, 3).best(running.Taken(2, 4, 3)), running.Taken(1, 4, 3))

    def test_run_is_measured(self):
        if not (OUT / "taken").exists():
            self.skipTest("bench/build.sh hasn't built it")
        with tempfile.TemporaryDirectory() as room:
            out = Path(room) / "out"
            taken = running.run(OUT / "taken", ["sh", "-c", "cat; sleep 0.05"], __file__, out)
            self.assertEqual(out.read_bytes(), Path(__file__).read_bytes())
            self.assertGreater(taken.wall, 0.05)
            self.assertLess(taken.processor, taken.wall)
            self.assertGreater(taken.memory, 0)
            self.assertRaises(running.Failed, running.run, OUT / "taken", ["false"], __file__, out)


# A program that answers each call at once.
ECHO = """
import sys
for line in sys.stdin:
    print("0 commit" if "call" in line else "batch 1 rows", flush=True)
"""


class LatencyTest(unittest.TestCase):
    def test_lines_are_sent_when_their_last_byte_is(self):
        back, to = os.pipe()
        batch = latency.Batch([b"a\n", b"bc\n"])
        batch.write(to)
        os.close(to)
        with os.fdopen(back, "rb") as read:
            self.assertEqual(read.read(), b"a\nbc\n" + latency.CUT)
        self.assertTrue(batch.is_sent)
        batch.replied = [batch.sent[0] + 1, batch.sent[1] + 2]
        self.assertEqual([round(it, 6) for it in batch.waits()], [1, 2])

    def test_each_call_of_a_program_is_waited_for(self):
        calls = [b'["call","p",[1]]\n', b'["call","p",[2]]\n', b'["call","p",[3]]\n']
        waits = latency.measured([sys.executable, "-c", ECHO], calls, 2, 5)
        self.assertTrue(0 < waits.middle <= waits.most < 5)

    def test_program_that_ends_is_a_failure(self):
        self.assertRaises(running.Failed, latency.measured, ["true"], [b"x\n"], 1, 1)


class SystemsTest(unittest.TestCase):
    def test_client_is_called_by_its_name_of_the_load(self):
        client = systems.System("redis", ("redis", "WORKLOAD"), store="redis")
        self.assertEqual(client.command(loads.NAMED["hot"], Path("at")), ["redis", "pay", "at/setup.json"])
        self.assertIsNone(client.command(loads.NAMED["tpcc"], Path("at")))

    def test_version_3_has_a_setup_of_its_own(self):
        plain = systems.System("plain, v3", ("plain",), 3)
        self.assertEqual(plain.command(loads.NAMED["spin"], Path("at")), ["plain", "at/setup3.json"])

    def test_setup_of_version_3_keeps_all_parts(self):
        self.assertEqual(loads.of_version_3(["setup", 1, "c", "p", "r"]), ["setup", 3, "c", "p", "r", 0, "partitions"])
        self.assertEqual(loads.of_version_3(["setup", 2, "c", "p", "r", 2])[5:], [2, "partitions"])

    def test_program_that_is_not_there_reads_no_version(self):
        self.assertFalse(systems.reads_version_3("false"))
        self.assertTrue(systems.reads_version_3("true"))

    def test_what_is_not_there_is_named(self):
        made, missing = systems.of_all([("a", "/nowhere/a"), ("b", "/bin/false")], systems.of_peer)
        self.assertEqual([system.name for system in made], ["b"])
        self.assertEqual(missing, ["a is missing: there is no /nowhere/a.", "b reads no setup of version 3."])


class MachineTest(unittest.TestCase):
    def test_busy_machine_is_told_of(self):
        self.assertEqual(machine.other_work(2.0, 4), "")
        self.assertIn("a load of 2.1", machine.other_work(2.1, 4))

    def test_machine_has_a_processor(self):
        self.assertTrue(machine.processor())
        self.assertRegex(machine.description(), r"^\d+ processors of .+, \d{4}-\d\d-\d\d")


class PartitionRows(Rows):
    """Rows whose text, over which a batch line has a digest, is that of version 3."""

    def __init__(self, shapes):
        super().__init__(shape[0] for shape in shapes)
        self.splits = {name: split for name, split, _ in shapes}

    def part_of(self, table, key):
        split = self.splits[table]
        return key % split if isinstance(split, int) else sum(bound <= key for bound in split[1:])

    def text(self):
        lines = []
        for name, rows in self.tables.items():
            parts = {}
            for key in sorted(rows):
                one = Rows([name])
                one.tables[name][key] = rows[key]
                parts.setdefault(self.part_of(name, key), []).append(one.text())
            lines += [f"{name} {part} {digest(''.join(parts[part]))}\n" for part in sorted(parts)]
        return "".join(lines)


def answer_of(workload):
    """What a model answers a call with."""
    path = TOP / "workloads" / workload / "model.py"
    spec = importlib.util.spec_from_file_location(f"{workload}_model", path)
    module = importlib.util.module_from_spec(spec)
    # (scripts/ has a module of that name, too)
    with patch.dict(sys.modules):
        sys.modules.pop("loads", None)
        spec.loader.exec_module(module)
    return module.answer


class PlainTest(unittest.TestCase):
    """Tests of the plain program."""

    def setUp(self):
        self.program = OUT / "plain"
        if not self.program.exists():
            self.skipTest("bench/build.sh hasn't built it")

    def report(self, setup, log):
        with open(log, "rb") as lines:
            return of_words(self.program, setup, stdin=lines).stdout

    def test_stored_cases(self):
        cases = [path.parent for path in sorted(TOP.glob("cases/*/*/setup.json"))]
        cases = [it for it in cases if not any((it / file).exists() for file in NOT_PLAIN)]
        # (one of commands stores no report)
        cases = [it for it in cases if not any(it.glob("*.status"))]
        self.assertTrue(cases)
        for case in cases:
            with self.subTest(case=case.name):
                log = case / "log" if (case / "log").exists() else os.devnull
                self.assertEqual(self.report(case / "setup.json", log), (case / "stdout").read_bytes())

    def test_version_3_over_all_rows_is_version_1(self):
        case = TOP / "cases/workloads/smallbank"
        setup = loads.of_version_3(json.loads((case / "setup.json").read_text()))
        with tempfile.NamedTemporaryFile("w", suffix=".json") as file:
            file.write(json.dumps([*setup[:6], "rows"]))
            file.flush()
            self.assertEqual(self.report(file.name, case / "log"), (case / "stdout").read_bytes())

    def test_stored_workloads_in_version_3(self):
        cases = sorted((TOP / "cases/workloads").iterdir())
        self.assertTrue(cases)
        for case in cases:
            with self.subTest(case=case.name), tempfile.NamedTemporaryFile("w", suffix=".json") as file:
                setup = json.loads((case / "setup.json").read_text())
                file.write(json.dumps(loads.of_version_3(setup)))
                file.flush()
                rows = PartitionRows(setup[2][2])
                for table, key, values in setup[4][2]:
                    rows.tables[table][key] = values
                answer = answer_of(case.name.split("-")[0])
                wanted = report_of(rows, answer, (case / "log").read_text().splitlines())
                self.assertEqual(self.report(file.name, case / "log").decode(), wanted)

    def test_faults_are_told(self):
        for log in ('["call","nothing",[]]\n', "no JSON\n", '["call","pay",[1.5,2,3]]\n'):
            run = of_words(self.program, TOP / "examples/bank.json", input=log.encode())
            self.assertEqual(run.returncode, 1)
            self.assertTrue(run.stdout)


# A program that takes the executor's words, of which the last is the setup, and runs another one.
STAND_IN = """#!/bin/sh
[ "$1" = check ] && exec {plain} "$2" < /dev/null
for setup; do :; done
exec {plain} "$setup"
"""


class CompareTest(unittest.TestCase):
    """A run of the whole on tiny sizes."""

    def needs_programs(self):
        if not (OUT / "taken").exists() or not (OUT / "plain").exists():
            self.skipTest("bench/build.sh hasn't built it")

    def script(self, room, name, text):
        """A script that can be run."""
        path = Path(room) / name
        path.write_text(text)
        path.chmod(0o755)
        return path

    def compare(self, *words):
        return of_words(sys.executable, "-B", TOP / "scripts/compare.py", "--clients", OUT, *words)

    def test_tiny_sizes(self):
        self.needs_programs()
        with tempfile.TemporaryDirectory() as room:
            page, raw = Path(room) / "page.md", Path(room) / "raw.json"
            page.write_text("<!-- figures -->\n<!-- end of figures -->\n")
            sizes = "--rounds 2 --scale 0.004 --batches 1,16 --ways alone,2".split()
            stand_in = self.script(room, "stand-in", STAND_IN.format(plain=OUT / "plain"))
            programs = ["--program", f"calvin={PROGRAM}", "--program", f"stand-in={stand_in}"]
            run = self.compare(*sizes, *programs, "--into", page, "--json", raw)
            self.assertEqual(run.returncode, 0, run.stdout.decode())
            self.assertIn("stand-in 2, v3", page.read_text())
            self.assertEqual("calvin is missing" in page.read_text(), not PROGRAM.exists())
            self.assertIn("all replies agree", run.stdout.decode().splitlines()[-1])
            self.assertEqual(set(json.loads(raw.read_text())["loads"]), set(loads.NAMED))
            self.assertIn("| smallbank, 80 calls", page.read_text())
            ElementTree.parse(Path(room) / "page.svg")

    def test_program_that_replies_otherwise_is_found(self):
        self.needs_programs()
        with tempfile.TemporaryDirectory() as room:
            wrong = self.script(room, "wrong", f'#!/bin/sh\n"{OUT}/plain" "$1" | sed "s/^5 commit/5 commit 1/"\n')
            sizes = "--rounds 1 --scale 0.001 --loads pay --batches".split()
            run = self.compare(*sizes, "", "--peer", f"plain={OUT}/plain", "--peer", f"wrong={wrong}")
            self.assertEqual(run.returncode, 1)
            self.assertIn("pay: wrong replies otherwise", run.stdout.decode())

    def test_words_that_are_wrong_are_refused(self):
        for words in ("--loads nothing", "--rounds 0", "--batches 5000", "--ways 17", "--program PATH"):
            with self.subTest(words=words):
                self.assertEqual(self.compare(*words.split()).returncode, 2)

    def test_nothing_built_is_told(self):
        with tempfile.TemporaryDirectory() as room:
            run = of_words(sys.executable, "-B", TOP / "scripts/compare.py", "--clients", room)
            self.assertEqual(run.returncode, 1)
            self.assertIn("bench/build.sh makes", run.stdout.decode())


STOPWATCH = """#!/bin/sh
case "$*" in *--alone*) took="2 4 1024" ;; *--workers*) took="3 1 1024" ;; esac
echo "$took" > "$1"
echo "{report}"
[ "$6" = "{fails}" ] && exit 124
exit 0
"""


class RaceTest(unittest.TestCase):
    """bench/race.py, with a program in the place of what measures that takes the words and runs nothing."""

    def race(self, room, *words, report="batch", fails="none"):
        taken = Path(room) / "stopwatch"
        taken.write_text(STOPWATCH.format(report=report, fails=fails))
        taken.chmod(0o755)
        programs = ["--program", f"one={taken}", "--program", f"two={taken}"]
        return of_words(sys.executable, "-B", HERE / "race.py", "--taken", taken, *programs, "--rounds", 2, *words)

    def test_workers_are_set_over_alone(self):
        with tempfile.TemporaryDirectory() as room:
            run = self.race(room, "--batches", 20, "--ways", "2")
            text = run.stdout.decode()
            self.assertEqual(run.returncode, 0, text)
            for load in ("twos", "sixes"):
                lines = [line for line in text.splitlines() if line.startswith(f"| {load}")]
                cells = [[cell.strip() for cell in line.split("|")[1:-1]] for line in lines]
                self.assertEqual(cells[0], [load, "4.00", "0.25", "4.00", "0.25"])
                self.assertEqual(cells[1], [load, "2.00", "1.50", "2.00", "1.50"])
                self.assertEqual(cells[2], [load, *["1.00"] * 4])
            self.assertIn("all reports agree", text)

    def test_another_report_is_found(self):
        with tempfile.TemporaryDirectory() as room:
            run = self.race(room, "--batches", 20, "--ways", "2", report="$*")
            self.assertEqual(run.returncode, 1)
            self.assertIn("twos: the report of one 2 is another one", run.stdout.decode())

    def test_run_that_hangs_is_told(self):
        with tempfile.TemporaryDirectory() as room:
            run = self.race(room, "--batches", 20, "--ways", "2", fails="--workers")
            self.assertEqual(run.returncode, 1)
            self.assertIn("twos, one 2:", run.stdout.decode())

    def test_one_of_ten_batches_has_a_long_call(self):
        for size in (2, 6):
            with self.subTest(size=size), tempfile.TemporaryDirectory() as room:
                folder = race.make_batches(Path(room) / "batches", 40, size)
                log = [json.loads(line) for line in (folder / "log").read_text().splitlines()]
                batches = [log[at : at + size + 1] for at in range(0, len(log), size + 1)]
                self.assertEqual([batch[size] for batch in batches], [["cut"]] * 40)
                long = [at for at, batch in enumerate(batches) if "spin" in [call[1] for call in batch[:size]]]
                self.assertEqual(long, [0, 10, 20, 30])

    def test_words_that_are_wrong_are_refused(self):
        for words in ("--batches 0", "--ways 17", "--ways alone", "--rounds x", "--program PATH"):
            with self.subTest(words=words):
                self.assertEqual(of_words(sys.executable, "-B", HERE / "race.py", *words.split()).returncode, 2)


def main(folder=OUT, program=PROGRAM):
    global OUT, PROGRAM
    OUT, PROGRAM = Path(folder).resolve(), Path(program).resolve()
    tests = unittest.defaultTestLoader.loadTestsFromModule(sys.modules["__main__"])
    result = unittest.TextTestRunner().run(tests)
    # (a test may fail in several of its parts)
    failed = len({str(test).split(" (", 2)[1] for test, _ in [*result.failures, *result.errors]})
    skipped = len(result.skipped)
    print(f"bench: {result.testsRun - failed - skipped} tests passed, {failed} failed, {skipped} were left out")
    return 1 if failed else 0


if __name__ == "__main__":
    sys.exit(main(*sys.argv[1:]))
