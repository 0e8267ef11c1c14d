#!/usr/bin/env python3
"""Refuses, in the sources of the crates, what could make a value without its owner or let one go without its end:

    scripts/unsafe.py

`unsafe` and raw pointers may be used in some named files alone, and a word by which a value is let go without its end
in one other file alone. A proof knows neither: a `drop` that keeps its block in a `ManuallyDrop` would meet its
contract. The attribute by which a function keeps its name for C, `#[unsafe(no_mangle)]`, may be used in the crate of
the C library alone. It ends with how many files were looked at, and with status 1 where it finds one of these words
elsewhere.
"""
import re
import sys
from pathlib import Path

TOP = Path(__file__).resolve().parent.parent
# The block of nodes of a lock tree is taken and given back in the first two, a session that C owns in the others.
MAY_BE_UNSAFE = {
    "request_arena/src/memory.rt",
    "request_arena/src/row.rt",
    "calvin_c/src/handle.rt",
    "calvin_c/src/loose.rt",
    "calvin_c/src/opening.rt",
}
# Where the process ends next, the memory of an engine is left to the system.
MAY_LET_GO = {"running/src/leaving.rt"}
EXPORTS = "calvin_c/src/"
EXPORT = "#[unsafe(no_mangle)]"
UNSAFE = re.compile(
    r"\b(?:unsafe|into_raw|from_raw|into_raw_parts|from_raw_parts|transmute|NonNull)\b"
    r"|\.(?:de)?allocate\(|\*\s*(?:mut|const)\b|&raw\b"
)
# (`forget` of the library is a function; a method of that name is one of these crates)
LETS_GO = re.compile(r"\b(?:ManuallyDrop|MaybeUninit|leak)\b|(?<!\.)(?<!\bfn )\bforget\b")
TEXTS = re.compile(
    r"""\bb?r(#*)".*?"\1|"(?:[^"\\]|\\.)*"|b?'(?:[^'\\\n]|\\[^\n]{1,9}?)'|//[^\n]*|/\*.*?\*/""", re.DOTALL
)


def code(text):
    """The text without its comments and string literals, line for line."""
    return TEXTS.sub(lambda found: "\n" * found[0].count("\n"), text)


def findings(name, text):
    """Each line that has a word which the file may not have."""
    text = text.replace(EXPORT, "") if name.startswith(EXPORTS) else text
    refused = [words for words, files in [(LETS_GO, MAY_LET_GO), (UNSAFE, MAY_BE_UNSAFE)] if name not in files]
    for number, line in enumerate(code(text).splitlines(), 1):
        for words in refused:
            for word in words.findall(line):
                yield f"crates/{name}:{number}: {word}"


def main():
    files = sorted((TOP / "crates").glob("*/src/**/*.rt"))
    names = {str(file.relative_to(TOP / "crates")): file for file in files}
    found = [one for name, file in names.items() for one in findings(name, file.read_text())]
    found += [f"crates/{name} is not there" for name in sorted((MAY_BE_UNSAFE | MAY_LET_GO) - names.keys())]
    print(*found, sep="\n", end="\n" if found else "")
    print(f"{len(files)} files, {len(found)} words that may not be there")
    return 1 if found else 0


if __name__ == "__main__":
    sys.exit(main())
