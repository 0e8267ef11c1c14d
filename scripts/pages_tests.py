#!/usr/bin/env -S python3 -B
"""Tests of scripts/pages.py, on small repositories in a temporary folder:

    scripts/pages_tests.py

It ends with how many tests passed, and with status 1 where one failed.
"""
import sys
import tempfile
import unittest
from pathlib import Path
from unittest.mock import patch

sys.path.insert(0, str(Path(__file__).resolve().parent))

import pages  # noqa: E402


def findings(files, limits=()):
    """What is wrong in a repository of these files, a text for each path."""
    with tempfile.TemporaryDirectory() as folder:
        for path, text in files.items():
            file = Path(folder, path)
            file.parent.mkdir(parents=True, exist_ok=True)
            file.write_text(text)
        with patch.object(pages, "LIMITS", dict(limits)):
            return list(pages.Repository(folder).findings())


class Lengths(unittest.TestCase):
    def test_a_page_may_have_as_many_words_as_its_limit(self):
        self.assertEqual(findings({"a.md": "one two three"}, {"a.md": 3}), [])

    def test_one_word_more_is_told(self):
        self.assertEqual(findings({"a.md": "one two three"}, {"a.md": 2}), ["a.md: 3 words, and it may have 2"])

    def test_what_a_script_writes_is_not_counted(self):
        for made in ("figures", "crates"):
            text = f"one <!-- {made} -->\n| 1 | 2 |\n<!-- end of {made} --> two"
            self.assertEqual(pages.count_words(text), 2)

    def test_definitions_that_a_script_writes_are_not_counted(self):
        text = "one <!-- definitions -->\n- `a`: b\n<!-- end of definitions --> two <!-- end of figures -->"
        self.assertEqual(pages.count_words(text), 7)

    def test_a_page_with_a_limit_that_is_not_there_is_told(self):
        self.assertEqual(findings({"b.md": ""}, {"a.md": 2}), ["a.md: there is no such page"])

    def test_pages_of_edits_and_of_builds_are_no_pages(self):
        files = {"crates/x/must-fail/more/e.md": "behind", "bench/out/o.md": "behind", "a.md": ""}
        self.assertEqual(findings(files), [])


class Words(unittest.TestCase):
    def test_a_word_of_the_list_is_told_with_its_line(self):
        self.assertEqual(findings({"a.md": "x\nIt is Behind it."}), ["a.md:2: `Behind`, where `after` is plainer"])

    def test_two_words_are_found_over_one_space(self):
        self.assertEqual(len(findings({"a.md": "so many keys; if memory is refused it hangs on it"})), 3)

    def test_words_in_code_and_in_links_and_longer_words_are_passed_over(self):
        text = "[it](stands.md) `behind`\n```\nstands\n```\nunderstand, a stand-in, outstanding"
        self.assertEqual(findings({"stands.md": "", "a.md": text}), [])


class Comments(unittest.TestCase):
    def test_a_word_in_a_comment_is_told_with_its_line(self):
        comments = {
            "crates/x/src/a.rt": "fn behind() {}\n/// It is behind.\n",
            "crates/x/specs/A.antt": "behind x--behind = x\n  x -- behind",
            "scripts/a.py": 'X = """behind"""\n"""It is\nbehind."""',
            "scripts/b.py": "behind = '#behind'\n# It is behind.\n",
            "scripts/a.sh": "behind='#behind'\nx\t# behind\n",
            "include/a.h": "int behind;\n/* behind */",
        }
        for path, text in comments.items():
            wanted = f"{path}:{3 if path == 'scripts/a.py' else 2}: `behind`, where `after` is plainer"
            self.assertEqual(findings({path: text}), [wanted])

    def test_words_are_found_over_the_end_of_a_line(self):
        text = "    /// Room for so\n    /// many keys.\n"
        wanted = ["crates/x/src/a.rt:1: `so many`, where `n` is plainer"]
        self.assertEqual(findings({"crates/x/src/a.rt": text}), wanted)

    def test_names_in_comments_and_other_folders_are_passed_over(self):
        files = {
            "crates/x/src/a.rt": "// `stands` and names_stand_so, Stands_at\n",
            "crates/x/proofs/A.antt": "-- behind",
            "bench/out/a.py": "# behind\n",
            "docs/a.py": "# behind\n",
        }
        self.assertEqual(findings(files), [])


class Links(unittest.TestCase):
    def test_a_link_to_a_page_from_its_folder(self):
        self.assertEqual(findings({"a.md": "[b](docs/b.md)", "docs/b.md": "[a](../a.md) [docs](.)"}), [])

    def test_a_dead_link_is_told_with_its_line(self):
        self.assertEqual(findings({"a.md": "\n\n[b](b.md)"}), ["a.md:3: a link to b.md, which is not there"])

    def test_anchors_are_headings_and_named_anchors(self):
        page = '# How `a` is (or was) built\n# Again\n# Again\n<a id="fault-15"></a>\n'
        links = "[1](b.md#how-a-is-or-was-built) [2](b.md#again-1) [3](b.md#fault-15)"
        self.assertEqual(findings({"a.md": links, "b.md": page}), [])

    def test_a_dead_anchor_is_told(self):
        wanted = ["a.md:2: a link to #c, and that page has no such heading"]
        self.assertEqual(findings({"a.md": "# B\n[c](#c) [b](#b)"}), wanted)

    def test_links_out_of_the_repository_and_in_code_are_passed_over(self):
        self.assertEqual(findings({"a.md": "[x](https://example.org/x.md) `[y](y.md)`\n```\n[z](z.md)\n```\n"}), [])


class Names(unittest.TestCase):
    FILES = {"scripts/run.sh": "", "docs/d.md": "", "crates/x/src/lib.rt": "", "crates/x/specs/W.antt": ""}

    def test_files_are_named_from_the_top_the_page_the_crates_a_crate_and_alone(self):
        text = "`scripts/run.sh --all`, `d.md`, `crates/x/`, `x/src/lib.rt`, `specs/W.antt`, `lib.rt`"
        self.assertEqual(findings({**self.FILES, "docs/a.md": text}), [])

    def test_a_file_that_is_not_there_is_told(self):
        wanted = ["a.md:2: `scripts/gone.sh` is not there"]
        self.assertEqual(findings({**self.FILES, "a.md": "x\n`scripts/gone.sh 1`"}), wanted)

    def test_placeholders_words_and_what_a_build_leaves_are_passed_over(self):
        text = "`examples/NAME.json` `crates/*/src/lib.rt` `x/out/x.json` `engine::execute` `a/b` `e.g`"
        self.assertEqual(findings({**self.FILES, "a.md": text}), [])

    def test_the_first_word_of_a_line_in_a_code_block_is_looked_at(self):
        wanted = ["a.md:3: `scripts/gone.sh` is not there"]
        self.assertEqual(findings({**self.FILES, "a.md": "```\nscripts/run.sh x.sh\nscripts/gone.sh\n```\n"}), wanted)


class Commands(unittest.TestCase):
    def test_other_words_are_refused_with_status_2(self):
        with patch("sys.stderr"):
            self.assertEqual(pages.main("--other"), 2)


class NamesOfCode(unittest.TestCase):
    SOURCES = {"crates/one/src/lib.rt": "pub struct Engine; impl Engine { fn execute() {} }"}

    def found(self, text):
        return findings({**self.SOURCES, "a.md": text})

    def test_names_of_code_that_are_there_are_not_told(self):
        self.assertEqual(self.found("`one::Engine::execute`, `Engine::execute`, `std::thread`"), [])

    def test_a_name_that_is_in_no_source_is_told(self):
        self.assertEqual(self.found("`one::resume`"), ["a.md:1: `one::resume`: no source has the word `resume`"])
        self.assertEqual(len(self.found("`Engine::resume`")), 1)

    def test_names_in_blocks_are_passed_over(self):
        self.assertEqual(self.found("```\none::resume\n```"), [])


if __name__ == "__main__":
    result = unittest.main(exit=False, verbosity=0).result
    failed = len(result.failures) + len(result.errors)
    print(f"{result.testsRun - failed} tests of pages passed, {failed} failed")
    sys.exit(1 if failed else 0)
