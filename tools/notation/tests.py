#!/usr/bin/env -S python3 -B
"""Tests of the notation and of its tool, over the built program:

    tools/notation/tests.py [PROGRAM]     PROGRAM is crates/cli/out/cli where none is named

- Each setup of examples/ and each stored setup that the program takes goes from JSON to the notation and back, and is
  the same document; laying it out once more changes nothing. Each examples/NAME.calvin is laid out, and makes the
  document that is in examples/NAME.json.
- broken/notations.txt and broken/setups.txt have broken sources, each under the line and the column, from 1, and the
  text that `notation check` must tell of it.
- Of 10,000 sources in which a few characters are changed at random, from a seed, each is read, or refused at a place
  that it has; a source that is read keeps its comments and its document when it is laid out.
- The schema docs/setup.schema.json takes each of these setups, and refuses those of broken/setups.txt whose faults are
  of form, as far as Python's `jsonschema` is there to ask.

It ends with how many tests passed, and with status 1 where one failed.
"""
import json
import random
import re
import sys
import tempfile
from concurrent.futures import ThreadPoolExecutor
from pathlib import Path

HERE = Path(__file__).resolve().parent
sys.path.insert(0, str(HERE))

import command  # noqa: E402
from faults import told  # noqa: E402
from formatter import laid_out  # noqa: E402
from grammar import parsed  # noqa: E402
from json_reader import document, source_of  # noqa: E402
from json_writer import written  # noqa: E402
from places import place_of  # noqa: E402
from spots import Mistake, plain  # noqa: E402
from tree import setup_of  # noqa: E402

TOP = HERE.parent.parent
CHANGES = 10_000
SIGNS = '()[]{},:;.=<>!+-*/%"`#\n 09azAZ_\\'
# Faults of form, which a schema can see.
OF_FORM = (1, 3, 4, 42)


def setups():
    """The setups of the repository, by their paths."""
    return sorted([*TOP.glob("examples/*.json"), *TOP.glob("cases/*/*/setup.json")])


def comes_back(path):
    """Whether a setup is the same after the way to the notation and back; `None` where it is no setup."""
    data = path.read_bytes()
    try:
        text = laid_out(source_of(document(data)))
    except Mistake:
        return None
    source = parsed(text)
    setup = setup_of(source)
    same = plain(setup) == json.loads(data) == json.loads(written(setup))
    return same and laid_out(source) == text


def stays(path):
    """Whether an example in the notation is laid out and makes the document of its JSON file."""
    text = path.read_text()
    document_there = json.loads(path.with_suffix(".json").read_text())
    return laid_out(parsed(text)) == text and plain(setup_of(parsed(text))) == document_there


def broken(name):
    """The cases of a file: what must be told, and the source."""
    cases = ("\n" + (HERE / "broken" / name).read_text().removesuffix("\n")).split("\n== ")[1:]
    return [case.partition("\n")[::2] for case in cases]


def told_of(program, source, ending):
    """What `notation check` tells of a source, without the file's name and the line below."""
    with tempfile.TemporaryDirectory() as room:
        path = Path(room, "broken" + ending)
        path.write_text(source)
        words = [sys.executable, "-B", str(HERE / "notation"), "check", "--program", str(program), str(path)]
        ran = command.subprocess.run(words, stdout=command.subprocess.PIPE, stderr=command.subprocess.PIPE)
        first = ran.stderr.decode().split("\n")[0]
        return first.removeprefix(f"{path}:") if ran.returncode == 1 else f"status {ran.returncode}"


def told_rightly(program):
    """The cases of both files of which something else is told."""
    cases = [(*it, ".calvin") for it in broken("notations.txt")] + [(*it, ".json") for it in broken("setups.txt")]
    with ThreadPoolExecutor() as pool:
        found = list(pool.map(lambda it: told_of(program, it[1], it[2]), cases))
    for (wanted, source, _), got in zip(cases, found):
        if got != wanted:
            print(f"of\n{source}\nis told: {got}\nwanted:  {wanted}")
    return [got == it[0] for it, got in zip(cases, found)]


def changed(text, chance):
    signs = list(text)
    for _ in range(chance.randint(1, 3)):
        at, kind = chance.randrange(len(signs) + 1), chance.randrange(4)
        if kind == 0:
            del signs[at : at + chance.randint(1, 5)]
        elif kind == 1:
            signs.insert(at, chance.choice(SIGNS))
        elif kind == 2:
            signs[at : at + 1] = chance.choice(SIGNS)
        else:
            other = chance.randrange(len(signs) + 1)
            signs[at:at] = signs[other : other + chance.randint(1, 30)]
    return "".join(signs)


def is_there(mistake, text):
    lines = text.split("\n")
    return 1 <= mistake.line <= len(lines) and 1 <= mistake.column <= len(lines[mistake.line - 1]) + 1


def holds(text):
    """Whether a source of the notation is refused at a place that it has, or is kept when it is laid out."""
    try:
        source = parsed(text)
        setup, after = setup_of(source), laid_out(source)
    except Mistake as mistake:
        return is_there(mistake, text)
    again = parsed(after)
    comments = [sorted(it.text for it in one.comments) for one in (source, again)]
    return plain(setup_of(again)) == plain(setup) and comments[0] == comments[1] and laid_out(again) == after


def holds_as_json(text):
    """Whether a JSON source is refused where Python refuses it, at a place that it has, and any fault has a place."""
    try:
        setup = document(text.encode())
    except Mistake as mistake:
        return is_there(mistake, text)
    json.loads(text)
    paths = ([], [2], [2, 0, 3, 0, 4], [9, 9])
    return all(place_of(setup, fault, path).line for fault in (1, 2, 5, 7, 11, 15, 42, 43, 45, 46) for path in paths)


def hold_when_changed():
    chance, found = random.Random(1), []
    texts = [path.read_text() for path in sorted(TOP.glob("examples/*.json"))]
    notations = [laid_out(source_of(document(it.encode()))).replace("\n\n", "\n# why\n\n") for it in texts]
    for number in range(CHANGES):
        text = changed(chance.choice(notations if number % 2 else texts), chance)
        well = holds(text) if number % 2 else holds_as_json(text)
        if not well:
            print(f"goes wrong:\n{text}")
        found.append(well)
    return found


def fit_the_schema():
    try:
        import jsonschema
    except ImportError:
        print("Python's jsonschema is not there: the schema is not tried")
        return []
    schema = jsonschema.Draft202012Validator(json.loads((TOP / "docs/setup.schema.json").read_text()))
    found = [schema.is_valid(json.loads(path.read_text())) for path in sorted(TOP.glob("examples/*.json"))]
    for wanted, source in broken("setups.txt"):
        fault = told(re.sub(r"^\S+ (fault \d+):.*", r"\1", wanted))
        if fault and fault[0] in OF_FORM:
            found.append(not schema.is_valid(json.loads(source)))
    return found


def main(program=command.BUILT):
    sys.setrecursionlimit(10_000)
    kept = [stays(path) for path in sorted(TOP.glob("examples/*.calvin"))]
    parts = {
        "setups come back as they were": [it for it in map(comes_back, setups()) if it is not None],
        "examples in the notation are their JSON": kept,
        "broken sources are told of rightly": told_rightly(program),
        "changed sources are read, or refused at a place": hold_when_changed(),
        "setups fit the schema, or don't": fit_the_schema(),
    }
    for name, found in parts.items():
        print(f"{name}: {sum(found)} of {len(found)}")
    # (the schema alone may have nothing to be tried by)
    well = all(map(all, parts.values())) and all(found for name, found in parts.items() if "schema" not in name)
    print("the notation: all tests passed" if well else "the notation: a test FAILED")
    return 0 if well else 1


if __name__ == "__main__":
    sys.exit(main(*sys.argv[1:]))
