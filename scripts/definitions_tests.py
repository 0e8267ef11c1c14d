#!/usr/bin/env -S python3 -B
"""Tests of scripts/definitions.py, on small repositories in a temporary folder:

    scripts/definitions_tests.py

It ends with how many tests passed, and with status 1 where one failed.
"""
import io
import sys
import tempfile
import unittest
from contextlib import redirect_stderr, redirect_stdout
from pathlib import Path

sys.path.insert(0, str(Path(__file__).resolve().parent))

import definitions  # noqa: E402
from definitions import Definition, Heading  # noqa: E402

PAGE = f"# Page\n\n{definitions.BEGIN}\nold\n{definitions.END}\n\nafter\n"
CLAIMED = "-- Claimed: promises rest on these words.\n"


def parts(*lines):
    return list(definitions.parts(CLAIMED + "-- About it.\nuse x.{y}\n" + "\n".join(lines) + "\n"))


class Repository:
    """A repository of these files in a temporary folder, beside a page with the marks."""

    def __init__(self, files):
        self.files = {"docs/definitions.md": PAGE, **files}

    def __enter__(self):
        self.folder = tempfile.TemporaryDirectory()
        top = Path(self.folder.name)
        for path, text in self.files.items():
            (top / path).parent.mkdir(parents=True, exist_ok=True)
            (top / path).write_text(text)
        return top

    def __exit__(self, *_):
        self.folder.cleanup()


def run(top, *words):
    """The status and the last line of a run of the script on a repository."""
    output = io.StringIO()
    with redirect_stdout(output), redirect_stderr(io.StringIO()):
        status = definitions.main(*words, top=top)
    return status, output.getvalue().splitlines()[-1:]


class Parts(unittest.TestCase):
    def test_a_definition_has_the_comment_above_it(self):
        source = ["-- the number of", "-- things", "abbrev pub count : ℕ", "count = 1"]
        self.assertEqual(parts(*source), [Definition("count", "the number of things")])

    def test_records_types_and_operators_are_definitions(self):
        source = ["pub record R (a : ℕ) : Type 0 where", "  pub field : ℕ", "pub data D : Type 0 where",
                  "  case : D", "unfoldable pub f : ℕ", "abbrev pub ◌>>=◌ : ℕ"]
        self.assertEqual([it.name for it in parts(*source)], ["R", "D", "f", "◌>>=◌"])

    def test_definitions_that_call_each_other_are_found_in_their_group(self):
        source = ["abbrev mutual", "  -- one", "  pub a : ℕ", "  a = b", "", "  pub b : ℕ"]
        self.assertEqual(parts(*source), [Definition("a", "one"), Definition("b", "")])

    def test_definitions_with_common_parameters_are_found_and_fields_are_not(self):
        source = ["module _ {Q : Type 0} where", "  -- one", "  pub record A (q : Q) : Type 0 where", "    pub b : Q",
                  "", "  abbrev pub c : Q", "pub record R : Type 0 where", "  pub data : (Q)"]
        self.assertEqual(parts(*source), [Definition("A", "one"), Definition("c", ""), Definition("R", "")])

    def test_a_comment_before_an_empty_line_belongs_to_no_definition(self):
        self.assertEqual(parts("-- a note", "", "abbrev pub a : ℕ"), [Definition("a", "")])

    def test_a_heading_is_kept_and_is_no_comment(self):
        source = ["-- ---- laws", "", "abbrev pub a : ℕ", "module _ {Q : Type 0} where", "  -- ---- more"]
        self.assertEqual(parts(*source), [Heading("laws"), Definition("a", ""), Heading("more")])

    def test_what_is_not_public_is_left_out(self):
        self.assertEqual(parts("-- mine", "abbrev a : ℕ", "pub use x.{y}", "record R : Type 0 where"), [])


class Texts(unittest.TestCase):
    def test_a_file_says_what_it_is_about_after_its_first_line(self):
        self.assertEqual(definitions.about(CLAIMED + "-- About\n-- it.\nuse x\n-- more\n"), "About it.")

    def test_definitions_without_a_comment_are_named_together(self):
        found = [Definition("a", "one"), Definition("b", ""), Definition("c", ""), Heading("h"), Definition("d", "")]
        wanted = "- `a`: one\n- `b`, `c`\n\nh:\n\n- `d`\n"
        self.assertEqual("".join(definitions.items(found)), wanted)

    def test_marks_of_markdown_are_escaped_and_code_is_not(self):
        self.assertEqual(definitions.escaped("a < b, `c < d` and [e]"), "a \\< b, `c < d` and \\[e]")


class Pages(unittest.TestCase):
    FILES = {
        "crates.txt": "# layer\ntwo:\none staticlib: two\n",
        "crates/one/specs/A.antt": CLAIMED + "-- First.\nabbrev pub a : ℕ\n",
        "crates/one/specs/B.antt": "-- Of the code: what it keeps.\nabbrev pub b : ℕ\n",
        "crates/two/specs/C.antt": CLAIMED + "-- Second.\n-- it is c\nabbrev pub c : ℕ\n",
    }

    def test_crates_come_in_their_order_and_only_claimed_files(self):
        with Repository(self.FILES) as top:
            self.assertEqual(run(top)[0], 0)
            page = (top / "docs/definitions.md").read_text()
        self.assertLess(page.index("### two"), page.index("### one"))
        self.assertIn("**[`A`](../crates/one/specs/A.antt)** First.\n\n- `a`\n", page)
        self.assertNotIn("`b`", page)
        self.assertTrue(page.startswith("# Page\n") and page.endswith(f"{definitions.END}\n\nafter\n"))

    def test_a_page_that_is_written_passes_the_check_and_an_old_one_does_not(self):
        with Repository(self.FILES) as top:
            self.assertEqual(run(top, "--check"), (1, ["the list of definitions is not that of the comments"]))
            run(top)
            self.assertEqual(run(top, "--check"), (0, ["the list of definitions is that of the comments"]))

    def test_a_page_without_marks_is_refused(self):
        with Repository({**self.FILES, "docs/definitions.md": "# Page\n"}) as top:
            self.assertEqual(run(top, "--check")[0], 1)

    def test_other_words_are_refused_with_status_2(self):
        with Repository(self.FILES) as top:
            self.assertEqual(run(top, "--other")[0], 2)


if __name__ == "__main__":
    result = unittest.main(exit=False, verbosity=0).result
    failed = len(result.failures) + len(result.errors)
    print(f"{result.testsRun - failed} tests of definitions passed, {failed} failed")
    sys.exit(1 if failed else 0)
