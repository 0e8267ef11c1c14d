#!/usr/bin/env -S python3 -B
"""Tests of scripts/edits.py, on a small crate that is written for them, and on lines as a check prints them:

    scripts/edits_tests.py

No check runs. It ends with how many tests passed, and with status 1 where one failed.
"""
import sys
import tempfile
import unittest
from pathlib import Path

sys.path.insert(0, str(Path(__file__).resolve().parent))

import edits  # noqa: E402

PARTS = """impl Part {
    /// The parts above.
    #[tactic(auto)]
    fn up(&self) -> usize {
        self.up()
    }

    fn count(&self) -> usize {
        0
    }
}

#[cycle(walk)]
fn even(n: u8) -> bool {
    odd(n)
}

#[cycle(walk)]
fn odd(n: u8) -> bool {
    even(n)
}
"""
NO_TEXTS = {}


class OfACrate(unittest.TestCase):
    def setUp(self):
        room = tempfile.TemporaryDirectory()
        self.addCleanup(room.cleanup)
        self.crate = Path(room.name, "parts")
        for folder in ["src", "must-fail/together"]:
            Path(self.crate, folder).mkdir(parents=True)
        Path(self.crate, "src/part.rt").write_text(PARTS)

    def edit(self, name, *lines):
        path = Path(self.crate, f"must-fail/together/{name}.md")
        path.write_text("\n".join(lines) + "\n")
        return edits.Edit(path)

    def opened(self, line):
        return edits.opened_in(self.crate, NO_TEXTS, line)


class Functions(OfACrate):
    def test_each_has_its_lines_and_its_owner(self):
        places = [(4, 6, "Part::up"), (8, 10, "Part::count"), (14, 16, "part::even"), (19, 21, "part::odd")]
        self.assertEqual(edits.functions_of("src/part.rt", PARTS), places)

    def test_an_owner_is_a_type_and_its_trait(self):
        self.assertEqual(edits.owner_of("<'a> Sink for Report<'a> {"), "ReportSink")
        self.assertEqual(edits.owner_of(" From<NoMemory> for Fault {"), "FaultFromNoMemory")


class OpenGoals(OfACrate):
    def test_a_goal_in_the_source_is_of_the_function_at_its_line(self):
        self.assertEqual(self.opened("note: src/part.rt:9:9: it is not proved \n"), {"Part::count"})

    def test_a_goal_of_a_whole_function_is_said_at_its_attributes(self):
        self.assertEqual(self.opened("note: src/part.rt:3:5: it is not proved \n"), {"Part::up"})

    def test_an_answer_that_is_not_read_is_of_the_function_of_its_folder(self):
        line = "proofs/part/Part/count/Answers.antt:3:1: error: `returns-clause-exact` is no goal\n"
        self.assertEqual(self.opened(line), {"Part::count"})

    def test_in_a_cycle_of_two_a_goal_names_its_function(self):
        line = "./proofs/part/+walk/Answers.antt:3:1: error: `odd-returns` is no goal\n"
        self.assertEqual(self.opened(line), {"part::odd"})

    def test_so_do_an_end_and_an_invariant(self):
        for goal in ["decreases-odd", "invariant-odd-loop-part"]:
            line = f"./proofs/part/+walk/Invariants.antt:3:1: error: `{goal}` is not read\n"
            self.assertEqual(self.opened(line), {"part::odd"}, goal)

    def test_a_word_that_is_no_goal_names_none_of_a_cycle(self):
        line = "./proofs/part/+walk/Answers.antt:3:1: error: `odd` is not in scope\n"
        self.assertEqual(self.opened(line), {"part::walk"})

    def test_a_function_named_almost_as_a_cycle_is_none(self):
        line = "proofs/part/swalk/Answers.antt:3:1: error: `returns-in_default` is no goal\n"
        self.assertEqual(self.opened(line), {"part::swalk"})

    def test_a_function_that_calls_itself_alone_is_named_by_its_folder(self):
        line = "proofs/part/Part/+up/Answers.antt:3:1: error: `returns-in_default` is no goal\n"
        self.assertEqual(self.opened(line), {"Part::up"})

    def test_a_missing_answer_is_of_the_function_that_is_said(self):
        line = "fn parts::part::Part::count: no proof: expected answers in proofs/part/Part/count/Answers.antt\n"
        self.assertEqual(self.opened(line), {"Part::count"})

    def test_missing_answers_of_a_cycle_say_of_none_of_its_functions_that_its_goal_is_open(self):
        line = "fn parts::part::even: no proof: expected answers in proofs/part/+walk/Answers.antt\n"
        self.assertEqual(self.opened(line), set())


class Edits(OfACrate):
    def test_lines_take_the_place_of_others(self):
        one = self.edit("one", "file: src/part.rt", "old:         0", "new:         1")
        self.assertEqual(one.made_on(NO_TEXTS), {"src/part.rt": PARTS.replace("        0", "        1")})
        self.assertEqual(one.functions(), {"Part::count"})
        self.assertTrue(one.is_apart())

    def test_a_text_that_is_not_there_once_makes_none(self):
        self.assertIsNone(self.edit("none", "file: src/part.rt", "old: what is nowhere", "new: x").made_on(NO_TEXTS))
        self.assertIsNone(self.edit("twice", "file: src/part.rt", "old: -> bool", "new: -> u8").made_on(NO_TEXTS))
        self.assertIsNone(self.edit("no_file", "file: src/no.rt", "old: 0", "new: 1").made_on(NO_TEXTS))

    def test_one_that_changes_more_than_functions_is_tried_alone(self):
        two = self.edit("two", "file: src/part.rt", "old: impl Part {", "new: impl Whole {")
        self.assertFalse(two.is_apart())

    def test_edits_of_one_function_are_not_made_together(self):
        ones = [self.edit(f"one_{n}", "file: src/part.rt", "old:         0", f"new:         {n}") for n in (1, 2)]
        other = self.edit("other", "file: src/part.rt", "old:     odd(n)", "new:     !odd(n)")
        group, texts = edits.group_of([*ones, other])
        self.assertEqual(group, [ones[0], other])
        self.assertIn("!odd(n)", texts["src/part.rt"])


if __name__ == "__main__":
    ran = unittest.main(exit=False, verbosity=0).result
    failed = len(ran.failures) + len(ran.errors)
    print(f"{ran.testsRun - failed} tests of edits passed, {failed} failed")
    sys.exit(1 if failed else 0)
