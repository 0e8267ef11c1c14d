#!/usr/bin/env -S python3 -B
"""Tests of scripts/figures.py, on small texts:

    scripts/figures_tests.py

It ends with how many tests passed, and with status 1 where one failed.
"""
import json
import sys
import tempfile
import unittest
import xml.etree.ElementTree as ElementTree
from pathlib import Path
from unittest.mock import patch

sys.path.insert(0, str(Path(__file__).resolve().parent))

import figures  # noqa: E402

TWO = """\
# a comment
size 300 100
title Two & more
box a 10 10 80 plain: A
  cli/src/main.rt
box b 200 10 80 worker: B
arrow a.right -> b.left: goes
"""


def words(text):
    """All words of a figure, in their order."""
    root = ElementTree.fromstring(figures.drawn(text))
    return [it.text for it in root.iter("{http://www.w3.org/2000/svg}text")]


class Drawing(unittest.TestCase):
    def test_words_of_boxes_and_arrows_are_drawn(self):
        self.assertEqual(words(TWO), ["goes", "A", "cli/src/main.rt", "B"])

    def test_a_box_is_as_high_as_its_lines(self):
        self.assertEqual(figures.Figure(TWO).boxes["a"].height, figures.Figure(TWO).boxes["b"].height + figures.LINE)

    def test_a_side_is_named_by_its_middle_or_by_how_far_from_its_beginning(self):
        box = figures.Box(10, 20, 80, "plain", "A")
        self.assertEqual(box.side("right"), (90, 20 + box.height / 2, (1, 0)))
        self.assertEqual(box.side("right+5"), (90, 25, (1, 0)))
        self.assertEqual(box.side("bottom+5"), (15, 20 + box.height, (0, 1)))

    def test_an_arrow_between_sides_of_one_height_is_straight_and_others_bend(self):
        right, left = (90, 30, (1, 0)), (200, 30, (-1, 0))
        self.assertEqual(len(figures.way_between(right, left)), 2)
        self.assertEqual(figures.way_between(right, (200, 50, (-1, 0)))[1:3], [(145, 30), (145, 50)])
        self.assertEqual(figures.way_between(right, (200, 50, (0, -1))), [(90, 30), (200, 30), (200, 50)])

    def test_a_line_that_says_nothing_is_told_with_its_number(self):
        for line in ("circle 1 2", "box a 1 2 plain: x", "box a 1 2 3 no-kind: x", "arrow a.left -> b.right"):
            with self.assertRaisesRegex(figures.FigureFault, "line 2: "):
                figures.Figure(f"size 10 10\n{line}\n")


class Trees(unittest.TestCase):
    def test_a_tree_has_the_rows_of_a_setup_and_the_modes_of_call_0(self):
        with tempfile.TemporaryDirectory() as folder:
            tables = ["catalogue", 1, [["t", 2, [["n", "int"]]]]]
            setup = ["setup", 1, tables, ["procs", 1, []], ["rows", 1, [["t", 3, [0]]]]]
            Path(folder, "setup.json").write_text(json.dumps(setup))
            Path(folder, "stdout").write_text("0 IX db\n0 IX t\n0 IX t/1\n0 X t/1/3\n1 S db\n")
            self.assertEqual(set(words(f"tree {folder}\n")), {"db: IX", "t: IX", "t/0", "t/1: IX", "t/1/3: X"})


class Checks(unittest.TestCase):
    def test_a_figure_that_is_what_its_text_says_has_no_finding(self):
        self.assertEqual(list(figures.findings(TWO, figures.drawn(TWO))), [])

    def test_another_picture_and_a_file_that_is_not_there_are_told(self):
        text = TWO.replace("cli/src/main.rt", "cli/src/gone.rt")
        self.assertEqual(len(list(figures.findings(text, figures.drawn(TWO)))), 2)

    def test_other_words_are_refused_with_status_2(self):
        with patch("sys.stderr"):
            self.assertEqual(figures.main("--other"), 2)


if __name__ == "__main__":
    result = unittest.main(exit=False, verbosity=0).result
    failed = len(result.failures) + len(result.errors)
    print(f"{result.testsRun - failed} tests of figures passed, {failed} failed")
    sys.exit(1 if failed else 0)
