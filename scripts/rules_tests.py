#!/usr/bin/env -S python3 -B
"""Tests of scripts/rules.py, on small repositories in a temporary folder:

    scripts/rules_tests.py

It ends with how many tests passed, and with status 1 where one failed.
"""
import sys
import tempfile
import unittest
from pathlib import Path
from unittest.mock import patch

sys.path.insert(0, str(Path(__file__).resolve().parent))

import rules  # noqa: E402

WHOLE = {
    "docs/language.md": '<a id="step.limit"></a>The limit. <a id="fault-1"></a>',
    "crates/x/specs/Runs.antt": "-- a step\n-- rule: step.limit\nabbrev pub step : Ran\nstep = ok\n",
    "crates/x/src/runs.rt": "/// Takes a step.\n// rule: step.limit\n#[inline]\npub(crate) fn take_step() {}\n",
    "crates/x/must-fail/together/take_step__one_too_many.md": "file: src/runs.rt\nrule: step.limit\nold: a\nnew: b\n",
    "cases/rules.txt": "step.limit: bank/a, bank/b\n",
    "cases/bank/a/log": "",
    "cases/bank/b/log": "",
}


def index_of(files):
    with tempfile.TemporaryDirectory() as folder:
        for path, text in files.items():
            file = Path(folder, path)
            file.parent.mkdir(parents=True, exist_ok=True)
            file.write_text(text)
        return rules.Index(folder)


class Indexes(unittest.TestCase):
    def test_a_rule_is_listed_with_what_names_it(self):
        index = index_of(WHOLE)
        line = (
            "| [step.limit](language.md#step.limit) | [`step`](../crates/x/specs/Runs.antt)"
            " | [`x::take_step`](../crates/x/src/runs.rt)"
            " | [`one too many`](../crates/x/must-fail/together/take_step__one_too_many.md)"
            " | [`bank/a`](../cases/bank/a), [`bank/b`](../cases/bank/b) |"
        )
        self.assertEqual(index.faults, [])
        self.assertIn(line, index.page().splitlines())
        self.assertIn("There is none.", index.page())

    def test_a_rule_that_lacks_something_is_told(self):
        index = index_of({**WHOLE, "cases/rules.txt": ""})
        self.assertEqual(index.faults, [])
        self.assertIn("- step.limit has no case.", index.page())

    def test_several_rules_are_named_in_one_line(self):
        page = '<a id="step.limit"></a> <a id="step.count"></a>'
        source = "// rule: step.limit, step.count\nfn f() {}"
        index = index_of({**WHOLE, "docs/language.md": page, "crates/x/src/runs.rt": source})
        self.assertEqual([len(rule.links["contract"]) for rule in index.rules.values()], [1, 1])

    def test_a_name_of_no_rule_a_name_before_nothing_and_a_case_that_is_not_there_are_told(self):
        source = "// rule: step.gone\nfn f() {}\n// rule: step.limit\nstruct S;\n// rule: step.limit"
        index = index_of({**WHOLE, "crates/x/src/runs.rt": source, "cases/rules.txt": "step.limit: bank/c"})
        self.assertEqual(len(index.faults), 4)

    def test_a_rule_that_is_there_twice_is_told(self):
        self.assertEqual(len(index_of({**WHOLE, "docs/language.md": '<a id="step.limit"></a>' * 2}).faults), 1)

    def test_other_words_are_refused_with_status_2(self):
        with patch("sys.stderr"):
            self.assertEqual(rules.main("--other"), 2)


if __name__ == "__main__":
    result = unittest.main(exit=False, verbosity=0).result
    failed = len(result.failures) + len(result.errors)
    print(f"{result.testsRun - failed} tests of rules passed, {failed} failed")
    sys.exit(1 if failed else 0)
