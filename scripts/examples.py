#!/usr/bin/env python3
"""Runs the examples on a program that is built, and compares what comes out with what the documents say:

    scripts/examples.py [PROGRAM]      PROGRAM is crates/cli/out/cli where none is named

- Each `examples/NAME.json` with a log and a report of its name gives that report.
- Where README or a document says that "`./calvin WORDS` prints" something, in a block below or between backquotes, it prints it.
- Each setup in `examples/` is one that `check` takes.

It ends with how many agree, and with status 1 where one doesn't.
"""
import re
import shlex
import subprocess
import sys
from pathlib import Path

TOP = Path(__file__).resolve().parent.parent
BLOCK = re.compile(r"`\./calvin ([^`]*)` prints\n\n```\n(.*?)```", re.DOTALL)
INLINE = re.compile(r"`\./calvin ([^`]*)` prints `([^`]*)`")


def printed(program, words):
    """What a command line prints on standard output; `<` comes before the file of its log."""
    words = shlex.split(words)
    log = TOP / words[-1] if "<" in words else Path("/dev/null")
    if "<" in words:
        words = words[: words.index("<")]
    with open(log) as source:
        run = subprocess.run([program, *words], cwd=TOP, stdin=source, capture_output=True, text=True, timeout=60)
    return run.stdout


def expected():
    """Each command line that something is said of, with what it prints, and where that is said."""
    for report in sorted(TOP.glob("examples/*.report")):
        name = report.with_suffix("").relative_to(TOP)
        yield f"run {name}.json < {name}.log", report.read_text(), report.name
    for page in [TOP / "README.md", *sorted(TOP.glob("docs/*.md")), *sorted(TOP.glob("examples/**/*.md"))]:
        text = page.read_text()
        for words, output in BLOCK.findall(text):
            yield words, output, page.name
        for words, output in INLINE.findall(text):
            yield words, output + "\n", page.name


def main(program=TOP / "crates/cli/out/cli"):
    agree = differ = 0
    for words, output, place in expected():
        if printed(program, words) == output:
            agree += 1
        else:
            differ += 1
            print(f"calvin {words}: it prints something else than {place} says")
    for setup in sorted(TOP.glob("examples/**/*.json")):
        if printed(program, f"check {setup.relative_to(TOP)}").startswith("ok "):
            agree += 1
        else:
            differ += 1
            print(f"{setup.name}: `check` finds a fault")
    print(f"{agree} examples agree, {differ} don't")
    return 1 if differ or not agree else 0


if __name__ == "__main__":
    sys.exit(main(*sys.argv[1:]))
