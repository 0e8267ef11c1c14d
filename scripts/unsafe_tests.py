#!/usr/bin/env -S python3 -B
"""Tests of scripts/unsafe.py, on texts of sources:

    scripts/unsafe_tests.py

It ends with how many tests passed, and with status 1 where one failed.
"""
import sys
import unittest
from pathlib import Path

sys.path.insert(0, str(Path(__file__).resolve().parent))

import unsafe  # noqa: E402


def found(name, text):
    return list(unsafe.findings(name, text))


class Words(unittest.TestCase):
    def test_a_raw_pointer_is_found_at_its_line(self):
        self.assertEqual(found("x/src/row.rt", "fn f() {\n    let at: *mut u8;\n}\n"), ["crates/x/src/row.rt:2: *mut"])

    def test_a_block_is_found(self):
        self.assertEqual(found("x/src/row.rt", "fn f() { unsafe { g() } }\n"), ["crates/x/src/row.rt:1: unsafe"])

    def test_a_named_file_may_have_both(self):
        self.assertEqual(found("calvin_c/src/handle.rt", "fn f(at: *mut u8) { unsafe { g(at) } }\n"), [])

    def test_a_file_may_not_let_a_value_go(self):
        for word in ["ManuallyDrop", "MaybeUninit", "leak", "forget"]:
            self.assertEqual(len(found("calvin_c/src/handle.rt", f"fn f() {{ {word}(x); }}\n")), 1, word)

    def test_the_file_of_the_end_may_let_an_engine_go_and_nothing_else(self):
        self.assertEqual(found("running/src/leaving.rt", "fn f() { mem::forget(engine); }\n"), [])
        unsafe_there = found("running/src/leaving.rt", "fn f() { unsafe { g() } }\n")
        self.assertEqual(unsafe_there, ["crates/running/src/leaving.rt:1: unsafe"])

    def test_a_method_of_that_name_is_no_such_word(self):
        self.assertEqual(found("x/src/row.rt", "fn forget(&mut self) { self.kept.forget(); }\n"), [])

    def test_comments_and_texts_are_not_looked_at(self):
        self.assertEqual(found("x/src/row.rt", '// unsafe *mut\nfn f() { let a = "unsafe"; }\n'), [])

    def test_an_export_is_for_the_library_of_c_alone(self):
        text = '#[unsafe(no_mangle)]\npub extern "C" fn f() {}\n'
        self.assertEqual(found("calvin_c/src/rows.rt", text), [])
        self.assertEqual(found("x/src/rows.rt", text), ["crates/x/src/rows.rt:1: unsafe"])

    def test_a_block_beside_an_export_is_found(self):
        text = '#[unsafe(no_mangle)]\npub extern "C" fn f() {\n    unsafe { g() }\n}\n'
        self.assertEqual(found("calvin_c/src/rows.rt", text), ["crates/calvin_c/src/rows.rt:3: unsafe"])


if __name__ == "__main__":
    ran = unittest.main(exit=False, verbosity=0).result
    failed = len(ran.failures) + len(ran.errors)
    print(f"{ran.testsRun - failed} tests of unsafe words passed, {failed} failed")
    sys.exit(1 if failed else 0)
