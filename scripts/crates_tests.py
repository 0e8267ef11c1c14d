#!/usr/bin/env -S python3 -B
"""Tests of scripts/crates.py, on a small repository in a temporary folder:

    scripts/crates_tests.py

It ends with how many tests passed, and with status 1 where one failed.
"""
import io
import sys
import tempfile
import unittest
from contextlib import redirect_stdout
from pathlib import Path
from unittest.mock import patch

sys.path.insert(0, str(Path(__file__).resolve().parent))

import crates  # noqa: E402

EMPTY = "# A page\n\n<!-- crates -->\n\n\n<!-- end of crates -->\n\nMore.\n"
FILES = {
    "crates.txt": "# low\nrows:\nkeys: rows thiserror\n# high\nserver: rows keys thiserror\n",
    "crates/rows/src/lib.rt": "//! Rows.\n//!\n//! More of them.\n",
    "crates/keys/src/lib.rt": "//! Keys of\n//! rows:\nmod key;\n",
    "crates/server/src/main.rt": "//! A server.\n",
    "page.md": EMPTY,
}
TABLE = """\
| crate | depends on | what it is |
|---|---|---|
| **low** | | |
| `rows` |  | Rows |
| `keys` | rows, thiserror | Keys of rows |
| **high** | | |
| `server` | keys | A server |
"""


def run(*words, files=FILES):
    """The status of a run and the page after it."""
    with tempfile.TemporaryDirectory() as folder:
        for path, text in files.items():
            file = Path(folder, path)
            file.parent.mkdir(parents=True, exist_ok=True)
            file.write_text(text)
        page = Path(folder, "page.md")
        with patch.multiple(crates, TOP=Path(folder), PAGE=page), redirect_stdout(io.StringIO()):
            return crates.main(*words), page.read_text()


class Tables(unittest.TestCase):
    WRITTEN = EMPTY.replace("crates -->\n\n", f"crates -->\n\n{TABLE}", 1)

    def test_the_table_is_written_between_the_marks(self):
        self.assertEqual(run(), (0, self.WRITTEN))

    def test_a_page_with_the_table_passes_the_check_and_another_does_not(self):
        self.assertEqual(run("--check", files={**FILES, "page.md": self.WRITTEN}), (0, self.WRITTEN))
        other = self.WRITTEN.replace("Rows", "Columns")
        self.assertEqual(run("--check", files={**FILES, "page.md": other}), (1, other))

    def test_a_crate_in_no_layer_does_not_pass_the_check(self):
        files = {**FILES, "page.md": self.WRITTEN, "crates.txt": FILES["crates.txt"].removeprefix("# low\n")}
        self.assertEqual(run("--check", files=files)[0], 1)


if __name__ == "__main__":
    result = unittest.main(exit=False, verbosity=0).result
    failed = len(result.failures) + len(result.errors)
    print(f"{result.testsRun - failed} tests of crates passed, {failed} failed")
    sys.exit(1 if failed else 0)
