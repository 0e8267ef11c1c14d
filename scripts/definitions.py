#!/usr/bin/env python3
"""Writes the list of definitions in docs/definitions.md from the comments in the folders `specs/` of the crates:

    scripts/definitions.py [--check]

The list is between two marks. It has the files whose first line says that promises rest on them, `-- Claimed: ..`,
crate by crate in the order of crates.txt: first what the file is about, which the comment after that line says, and
then each public definition with the comment above it. A heading of the file, `-- ---- TEXT`, is kept. Definitions
without a comment are named together, in their place.

With --check nothing is written. A last line says what came of it. The status is 1 where the list is not what the script
would write, or the page lacks the marks.
"""
import re
import sys
from itertools import takewhile
from pathlib import Path
from typing import NamedTuple

TOP = Path(__file__).resolve().parent.parent
BEGIN, END = "<!-- definitions -->", "<!-- end of definitions -->"
LIST = re.compile(f"{BEGIN}\n.*?{END}\n", re.DOTALL)
CLAIMED = "-- Claimed:"
HEADING = "-- ---- "
COMMENT = re.compile(r" *--(?: |$)")
DEFINITION = re.compile(r"(?:  )?(?:abbrev pub|unfoldable pub|pub record|pub data) +([^\s:]+) *[:({]")
IN_GROUP = re.compile(r"  pub ([^\s:]+) *:")
GROUP = "abbrev mutual"
SPAN = re.compile(r"(`[^`]+`)")


class Heading(NamedTuple):
    """The name of a part of a file."""

    text: str


class Definition(NamedTuple):
    """The name of a public definition, and the comment above it, which may be empty."""

    name: str
    text: str


def crates(top):
    """The names in crates.txt, in its order."""
    lines = (top / "crates.txt").read_text().splitlines()
    return [line.partition(":")[0].split()[0] for line in lines if line.strip() and not line.startswith("#")]


def is_claimed(source):
    return source.startswith(CLAIMED)


def joined(lines):
    """The text of comment lines."""
    return " ".join(line.strip().removeprefix("--").strip() for line in lines).strip()


def head(source):
    """The comment lines after the first line of a file, and the lines after these."""
    lines = source.splitlines()[1:]
    comment = list(takewhile(COMMENT.match, lines))
    return comment, lines[len(comment):]


def about(source):
    """What a file says of itself."""
    return joined(head(source)[0])


def parts(source):
    """The headings and the public definitions of a file, in its order."""
    above, in_group = [], False
    for line in head(source)[1]:
        if line.lstrip().startswith(HEADING):
            yield Heading(line.lstrip().removeprefix(HEADING).strip())
            above = []
        elif COMMENT.match(line):
            above.append(line)
        else:
            if line and not line.startswith(" "):
                in_group = line == GROUP
            if found := (IN_GROUP if in_group else DEFINITION).match(line):
                yield Definition(found[1], joined(above))
            above = []


def escaped(text):
    """A comment as Markdown shows it, with its code spans as they are."""
    pieces = SPAN.split(text)
    return "".join(it if at % 2 else re.sub(r"([*<\[|])", r"\\\1", it) for at, it in enumerate(pieces))


def items(found):
    """The lines of a file's parts. Definitions without a comment that follow each other are one item."""
    bare = []
    for it in [*found, Heading("")]:
        if bare and (isinstance(it, Heading) or it.text):
            yield "- " + ", ".join(f"`{name}`" for name in bare) + "\n"
            bare = []
        if isinstance(it, Heading):
            if it.text:
                yield f"\n{escaped(it.text)}:\n\n"
        elif it.text:
            yield f"- `{it.name}`: {escaped(it.text)}\n"
        else:
            bare.append(it.name)


def sections(top):
    """A section for each crate that has such files."""
    for crate in crates(top):
        files = sorted((top / "crates" / crate / "specs").glob("*.antt"))
        claimed = [(file.stem, source) for file in files if is_claimed(source := file.read_text())]
        if claimed:
            yield f"### {crate}\n\n"
        for name, source in claimed:
            yield f"**[`{name}`](../crates/{crate}/specs/{name}.antt)** {escaped(about(source))}\n\n"
            yield "".join(items(parts(source))).lstrip("\n") + "\n"


def written(page, top):
    """The page with the list as the comments of a repository have it."""
    listed = re.sub(r"\n{3,}", "\n\n", "".join(sections(top)))
    return LIST.sub(lambda _: f"{BEGIN}\n\n{listed}{END}\n", page)


def main(*words, top=TOP):
    if words not in [(), ("--check",)]:
        print("usage: scripts/definitions.py [--check]", file=sys.stderr)
        return 2
    path = top / "docs/definitions.md"
    page = path.read_text()
    if not LIST.search(page):
        print(f"docs/definitions.md lacks the marks {BEGIN} and {END}")
        return 1
    new = written(page, top)
    if not words:
        path.write_text(new)
        print("docs/definitions.md has the list of definitions")
        return 0
    print(f"the list of definitions is {'' if new == page else 'not '}that of the comments")
    return 0 if new == page else 1


if __name__ == "__main__":
    sys.exit(main(*sys.argv[1:]))
