#!/usr/bin/env python3
"""Writes docs/rules.md: for each rule of docs/language.md what defines it, promises it, tests the promise and shows it:

    scripts/rules.py [--check]

A rule is an anchor of that page whose name has a dot, as `<a id="step.limit"></a>`. It is named by

- a line `-- rule: NAME` before a definition in a crate's specs/,
- a line `// rule: NAME` before a function with a contract in a crate's src/,
- a line `rule: NAME` in an edit of a crate's must-fail/,
- a line `NAME: SET/CASE` of cases/rules.txt, for a stored case.

Several names, and several cases, have commas between them. With --check nothing is written. The status is 1 where the page
isn't what it would write, where a name is of no rule, where no definition or function comes after it, and where a case
isn't there.
"""
import re
import sys
from dataclasses import dataclass, field
from pathlib import Path

TOP = Path(__file__).resolve().parent.parent
KINDS = ("definition", "contract", "edit", "case")
ANCHOR = re.compile(r'<a id="([a-z_]+\.[a-z_]+)"></a>')
NAMED = re.compile(r"^ *(?:--|//)? ?rule: ([a-z_., ]+)$")
DEFINITION = re.compile(r"^ *(?:(?:abbrev|unfoldable|pub|record|data) )+([A-Za-z_]+)")
FUNCTION = re.compile(r"^ *(?:pub(?:\(crate\))? )?(?:const )?fn (\w+)")
BETWEEN = re.compile(r"^ *(?:--|//|#\[)")  # what may be between a name and what it is put before
INTRODUCTION = """\
# Rules

Each rule of [the language](language.md), by its name: the definition that says it, a function whose contract promises it,
an edit that breaks it and that the prover refuses, and a stored case that shows it. `scripts/rules.py` writes this page.

"""


@dataclass
class Rule:
    """What names a rule: links, by their kind."""

    links: dict = field(default_factory=lambda: {kind: [] for kind in KINDS})


class Index:
    """The rules of a repository, in the order of their page, and what is wrong with what names them."""

    def __init__(self, top):
        self.top = Path(top)
        self.faults = []
        names = ANCHOR.findall((self.top / "docs/language.md").read_text())
        self.rules = {name: Rule() for name in names}
        twice = sorted({name for name in names if names.count(name) > 1})
        self.faults += [f"docs/language.md: {name} is there twice" for name in twice]
        for path in sorted(self.top.glob("crates/*/specs/*.antt")):
            self.take_source("definition", path, DEFINITION)
        for path in sorted(self.top.glob("crates/*/src/*.rt")):
            self.take_source("contract", path, FUNCTION)
        for path in sorted(self.top.glob("crates/*/must-fail/*/*.md")):
            self.take_edit(path)
        self.take_cases()

    def add(self, kind, names, words, path, place):
        """Names rules by a link of this kind."""
        for name in names:
            if name in self.rules:
                self.rules[name].links[kind].append(f"[`{words}`](../{path})")
            else:
                self.faults.append(f"{place}: {name} is no rule of docs/language.md")

    def take_source(self, kind, path, pattern):
        here, names = path.relative_to(self.top), []
        crate = here.parts[1]
        for number, line in enumerate(path.read_text().splitlines(), 1):
            found = NAMED.match(line)
            if found:
                names += split(found[1])
                continue
            if not names or BETWEEN.match(line):
                continue
            item = pattern.match(line)
            if item:
                words = f"{crate}::{item[1]}" if kind == "contract" else item[1]
                self.add(kind, names, words, here, f"{here}:{number}")
            else:
                self.faults.append(f"{here}:{number}: no {kind} comes after the name of a rule")
            names = []
        if names:
            self.faults.append(f"{here}: no {kind} comes after the name of a rule")

    def take_edit(self, path):
        here = path.relative_to(self.top)
        for line in path.read_text().splitlines():
            found = NAMED.match(line)
            if found:
                self.add("edit", split(found[1]), path.stem.partition("__")[2].replace("_", " "), here, here)

    def take_cases(self):
        for number, line in enumerate((self.top / "cases/rules.txt").read_text().splitlines(), 1):
            name, _, cases = line.partition(": ")
            place = f"cases/rules.txt:{number}"
            for case in split(cases):
                if not (self.top / "cases" / case).is_dir():
                    self.faults.append(f"{place}: there is no case {case}")
                self.add("case", [name], case, f"cases/{case}", place)

    def page(self):
        """The page, with a line for each rule, and then those that lack something."""
        lines = [INTRODUCTION + "| rule | definition | contract | edit | case |", "|---|---|---|---|---|"]
        for name, rule in self.rules.items():
            cells = [", ".join(rule.links[kind]) or "none" for kind in KINDS]
            lines.append(f"| [{name}](language.md#{name}) | {' | '.join(cells)} |")
        lines += ["", "## Rules that lack one of these", ""]
        lacking = [(name, kind) for name, rule in self.rules.items() for kind in KINDS if not rule.links[kind]]
        lines += [f"- {name} has no {kind}." for name, kind in lacking] or ["There is none."]
        return "\n".join(lines) + "\n"


def split(names):
    return [it.strip() for it in names.split(",") if it.strip()]


def main(*words):
    if words not in [(), ("--check",)]:
        print("usage: scripts/rules.py [--check]", file=sys.stderr)
        return 2
    index, page = Index(TOP), TOP / "docs/rules.md"
    if not words:
        page.write_text(index.page())
    faults = list(index.faults)
    if not page.exists() or page.read_text() != index.page():
        faults.append("docs/rules.md is not what scripts/rules.py writes")
    for it in faults:
        print(it)
    listed = f"{len(index.rules)} rules are listed as they are named"
    print(f"{len(faults)} findings: each line above names one" if faults else listed)
    return 1 if faults else 0


if __name__ == "__main__":
    sys.exit(main(*sys.argv[1:]))
