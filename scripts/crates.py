#!/usr/bin/env python3
"""Writes the table of crates in docs/architecture.md from crates.txt and from the head of each crate's root file:

    scripts/crates.py [--check]

The table is between the marks `<!-- crates -->` and `<!-- end of crates -->`. A comment line of crates.txt is the name of a
layer, and the crates of the lines after it are in that layer. Of the crates that a line names the table leaves out those
that another of them depends on. What a crate is, is the first paragraph of its head.

With --check nothing is written; it ends with status 1 where the table is not what it would write, or a crate is in no layer.
"""
import re
import sys
from pathlib import Path

TOP = Path(__file__).resolve().parent.parent
PAGE = TOP / "docs/architecture.md"
HEADING = "| crate | depends on | what it is |\n|---|---|---|\n"
TABLE = re.compile(r"(?<=<!-- crates -->\n\n)(?:\|.*\n)*(?=\n<!-- end of crates -->)")


def layers():
    """The crates of each layer, each with the libraries that its line names."""
    found, layer = {}, None
    for line in (TOP / "crates.txt").read_text().splitlines():
        if line.startswith("#"):
            layer = line.removeprefix("#").strip()
        elif line.strip():
            name, _, named = line.partition(":")
            found.setdefault(layer, {})[name.split()[0]] = named.split()
    return found


def below(name, named):
    """Every library of the repository that a crate depends on."""
    return {it for one in named.get(name, []) for it in {one, *below(one, named)}}


def depends_on(name, named):
    """The libraries that a crate names, without those that another of them depends on."""
    hidden = {it for one in named[name] for it in below(one, named)}
    return [it for it in named[name] if it not in hidden]


def head(name):
    """The first paragraph of a crate's head, without the full stop at its end."""
    source = TOP / "crates" / name / "src"
    root = next(it for it in (source / "lib.rt", source / "main.rt") if it.exists())
    lines = []
    for line in root.read_text().splitlines():
        text = line.removeprefix("//!").strip()
        if not line.startswith("//!") or not text:
            break
        lines.append(text)
    return " ".join(lines).rstrip(".:")


def table():
    found = layers()
    named = {name: libraries for crates in found.values() for name, libraries in crates.items()}
    rows = []
    for layer, crates in found.items():
        rows.append(f"| **{layer}** | | |")
        rows += [f"| `{it}` | {', '.join(depends_on(it, named))} | {head(it)} |" for it in crates]
    return HEADING + "".join(row + "\n" for row in rows)


def main(*words):
    page = PAGE.read_text()
    written = TABLE.sub(lambda _: table(), page)
    if "--check" not in words:
        PAGE.write_text(written)
        return 0
    agrees = written == page and TABLE.search(page) and None not in layers()
    print("the table of crates is that of crates.txt" if agrees else "the table of crates is not that of crates.txt")
    return 0 if agrees else 1


if __name__ == "__main__":
    sys.exit(main(*sys.argv[1:]))
