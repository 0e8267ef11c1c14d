#!/usr/bin/env python3
"""Draws the figures of the pages: each text docs/figures/NAME.txt gives docs/figures/NAME.svg:

    scripts/figures.py [--check]

A line of a text is one of these. Places and lengths are in pixels, from the top left corner; `#` begins a comment.

    size WIDTH HEIGHT
    title WORDS                          what the figure is, for who cannot see it
    area X Y WIDTH HEIGHT: WORDS         a dashed frame with a heading
    box NAME X Y WIDTH KIND: HEADING     a box; each indented line after it is a line of its text
    arrow A.SIDE -> B.SIDE: WORDS        an arrow from one box to another, by the middles of their sides: left, right,
                                         top or bottom; `left+20` is 20 pixels below the upper end of the side,
                                         `top+20` 20 pixels to the right of its left end. Words may be left out
    wake A.SIDE -> B.SIDE: WORDS         the same, dashed
    text X Y: WORDS                      words by themselves
    tree CASE                            the tree of a stored case's setup, with the locks of call 0 in its `stdout`

Boxes have fills of their own, and lines and words outside of them a grey that shows on white and on black. With --check
nothing is written: the status is 1 where a figure isn't what it would write, or a box names a file `crate/src/NAME.rt`
that is not there.
"""
import json
import re
import sys
from dataclasses import dataclass, field
from pathlib import Path
from xml.sax.saxutils import escape

TOP = Path(__file__).resolve().parent.parent
FIGURES = TOP / "docs/figures"
FILLS = {"plain": "#e4e4e4", "scheduler": "#cfe2f3", "worker": "#fbdcb8", "locked": "#cfe2f3", "free": "none"}
GREY, INK = "#767676", "#1c1c1c"
LINE = 17  # from one line of a text to the next
FILE = re.compile(r"\b[a-z_]+/src/[a-z_]+\.rt\b")
AWAY = {"left": (-1, 0), "right": (1, 0), "top": (0, -1), "bottom": (0, 1)}


class FigureFault(Exception):
    """What is wrong with a text, and where."""


@dataclass
class Box:
    x: int
    y: int
    width: int
    kind: str
    heading: str
    lines: list = field(default_factory=list)

    @property
    def height(self):
        return 14 + LINE * (1 + len(self.lines))

    def side(self, name):
        """The point in the middle of a side, or so far from its beginning, and which way leads away from the box."""
        name, _, offset = name.partition("+")
        across, down = AWAY[name]
        x = self.x + (int(offset) if offset and down else self.width * (1 + across) / 2)
        y = self.y + (int(offset) if offset and across else self.height * (1 + down) / 2)
        return x, y, (across, down)


def number(value):
    return f"{value:g}"


def words_at(x, y, words, color=GREY, anchor="start", weight="normal"):
    place = f'x="{number(x)}" y="{number(y)}" text-anchor="{anchor}"'
    return f'<text {place} fill="{color}" font-weight="{weight}">{escape(words)}</text>'


def box_text(box):
    dashes = ' stroke-dasharray="4 3"' if box.kind == "free" else ""
    yield (f'<rect x="{box.x}" y="{box.y}" width="{box.width}" height="{box.height}" rx="5" fill="{FILLS[box.kind]}" '
           f'stroke="{GREY}"{dashes}/>')
    color = GREY if box.kind == "free" else INK
    if not box.lines:
        yield words_at(box.x + box.width / 2, box.y + 20, box.heading, color, "middle")
        return
    yield words_at(box.x + 10, box.y + 20, box.heading, color, weight="bold")
    for place, line in enumerate(box.lines, 1):
        yield words_at(box.x + 10, box.y + 20 + LINE * place, line, color)


def way_between(start, end):
    """The corners of a way from one side to another, straight or with one or two bends."""
    (x, y, (across, _)), (to_x, to_y, (to_across, _)) = start, end
    if x == to_x or y == to_y:
        return [(x, y), (to_x, to_y)]
    if bool(across) != bool(to_across):
        return [(x, y), (to_x, y) if across else (x, to_y), (to_x, to_y)]
    middle = (x + to_x) / 2 if across else (y + to_y) / 2
    bends = [(middle, y), (middle, to_y)] if across else [(x, middle), (to_x, middle)]
    return [(x, y), *bends, (to_x, to_y)]


def arrow_text(start, end, words, dashed):
    way = way_between(start, end)
    points = " ".join(f"{number(x)},{number(y)}" for x, y in way)
    dashes = ' stroke-dasharray="5 4"' if dashed else ""
    style = f'fill="none" stroke="{GREY}" stroke-width="1.5"{dashes}'
    yield f'<polyline points="{points}" {style} marker-end="url(#head)"/>'
    (x, y), (to_x, to_y) = max(zip(way, way[1:]), key=lambda it: abs(it[0][0] - it[1][0]) + abs(it[0][1] - it[1][1]))
    for place, line in enumerate(words.split(" / ") if words else []):
        if y == to_y:
            yield words_at((x + to_x) / 2, y - 6 - LINE * (len(words.split(" / ")) - 1 - place), line, anchor="middle")
        else:
            yield words_at(x + 7, (y + to_y) / 2 + 4 + LINE * place, line)


def tree_of(case):
    """The tree of the rows of a case's setup: each resource with those right below it."""
    setup = json.loads((case / "setup.json").read_text())
    tables = {table[0]: table[1] for table in setup[2][2]}
    tree = {"db": list(tables)}
    for table, partitions in tables.items():
        tree[table] = [f"{table}/{part}" for part in range(partitions)]
        tree.update({part: [] for part in tree[table]})
    for table, key, _ in sorted(setup[4][2], key=lambda row: row[:2]):
        part = f"{table}/{key % tables[table]}"
        tree[part].append(f"{part}/{key}")
    return tree


def draw_tree(case):
    """The boxes of a tree, with the mode on each resource that call 0 locks, and lines from each to those below it."""
    tree = tree_of(case)
    held = [line.split() for line in (case / "stdout").read_text().splitlines()]
    modes = {resource: mode for no, mode, resource in held if no == "0"}
    levels, row = [], ["db"]
    while row:
        levels.append(row)
        row = [below for resource in row for below in tree.get(resource, [])]
    leaves = [it for level in levels for it in level if not tree.get(it)]
    boxes, middle = {}, {leaf: 100 + 180 * place for place, leaf in enumerate(leaves)}
    for depth, level in reversed(list(enumerate(levels))):
        for resource in level:
            below = [middle[it] for it in tree.get(resource, [])]
            middle.setdefault(resource, sum(below) / max(len(below), 1))
            kind = "locked" if resource in modes else "free"
            heading = f"{resource}: {modes[resource]}" if resource in modes else resource
            boxes[resource] = Box(round(middle[resource] - 60), 60 + 80 * depth, 120, kind, heading)
    for resource, below in tree.items():
        for it in below:
            (x, y, _), (to_x, to_y, _) = boxes[resource].side("bottom"), boxes[it].side("top")
            yield f'<line x1="{number(x)}" y1="{number(y)}" x2="{number(to_x)}" y2="{number(to_y)}" stroke="{GREY}"/>'
    for box in boxes.values():
        yield from box_text(box)


class Figure:
    """A figure, as its text says it."""

    def __init__(self, text):
        self.size, self.title, self.boxes, self.parts = (100, 100), "", {}, []
        latest = None
        for place, line in enumerate(text.splitlines(), 1):
            if not line.strip() or line.startswith("#"):
                continue
            if line.startswith(" ") and latest:
                latest.lines.append(line.strip())
                continue
            try:
                latest = self.take(line)
            except (ValueError, KeyError, IndexError) as fault:
                raise FigureFault(f"line {place}: {line}") from fault

    def take(self, line):
        """Takes one line, and gives the box that it begins, if it does."""
        word, _, rest = line.partition(" ")
        front, _, words = rest.partition(": ")
        match word:
            case "size":
                self.size = tuple(map(int, rest.split()))
            case "title":
                self.title = rest
            case "box":
                name, x, y, width, kind = front.split()
                FILLS[kind]  # a kind that there is
                self.boxes[name] = Box(int(x), int(y), int(width), kind, words)
                return self.boxes[name]
            case "area":
                self.parts.append(("area", *map(int, front.split()), words))
            case "text":
                x, y = map(int, front.split())
                self.parts.append(("text", x, y, words))
            case "arrow" | "wake":
                ends = [(self.boxes[name], side) for name, side in (it.split(".") for it in front.split(" -> "))]
                self.parts.append((word, *ends, words))
            case "tree":
                self.parts.append(("tree", TOP / rest.strip()))
            case _:
                raise ValueError(word)
        return None

    def files(self):
        """The files of crates that the boxes name."""
        return [it for box in self.boxes.values() for line in box.lines for it in FILE.findall(line)]

    def part_text(self, part):
        match part:
            case ("area", x, y, width, height, words):
                yield (f'<rect x="{x}" y="{y}" width="{width}" height="{height}" rx="8" fill="none" stroke="{GREY}" '
                       'stroke-dasharray="2 4"/>')
                yield words_at(x + 10, y - 7, words, weight="bold")
            case ("text", x, y, words):
                yield words_at(x, y, words)
            case ("tree", case):
                yield from draw_tree(case)
            case (kind, (box, side), (other, other_side), words):
                yield from arrow_text(box.side(side), other.side(other_side), words, kind == "wake")

    def svg(self):
        width, height = self.size
        yield (f'<svg xmlns="http://www.w3.org/2000/svg" width="{width}" height="{height}" '
               f'viewBox="0 0 {width} {height}" font-family="sans-serif" font-size="13" role="img">')
        yield f"<title>{escape(self.title)}</title>"
        yield ('<defs><marker id="head" viewBox="0 0 8 8" refX="7" refY="4" markerWidth="7" markerHeight="7" '
               f'orient="auto"><path d="M0,0 L8,4 L0,8 Z" fill="{GREY}"/></marker></defs>')
        for part in self.parts:
            yield from self.part_text(part)
        for box in self.boxes.values():
            yield from box_text(box)
        yield "</svg>"


def drawn(text):
    """The SVG of a text."""
    return "\n".join(Figure(text).svg()) + "\n"


def findings(text, kept):
    """What is wrong with a figure whose SVG is kept."""
    for file in Figure(text).files():
        if not (TOP / "crates" / file).exists():
            yield f"it names crates/{file}, which is not there"
    if drawn(text) != kept:
        yield "its SVG is not what its text says: scripts/figures.py draws it"


def main(*words):
    if words not in [(), ("--check",)]:
        print("usage: scripts/figures.py [--check]", file=sys.stderr)
        return 2
    wrong, texts = 0, sorted(FIGURES.glob("*.txt"))
    for path in texts:
        picture = path.with_suffix(".svg")
        try:
            if not words:
                picture.write_text(drawn(path.read_text()))
            found = list(findings(path.read_text(), picture.read_text() if picture.exists() else ""))
        except FigureFault as fault:
            found = [f"a line that says nothing, {fault}"]
        for it in found:
            print(f"{path.relative_to(TOP)}: {it}")
        wrong += bool(found)
    print(f"{wrong} of {len(texts)} figures are wrong" if wrong else f"{len(texts)} figures are what their texts say")
    return 1 if wrong else 0


if __name__ == "__main__":
    sys.exit(main(*sys.argv[1:]))
