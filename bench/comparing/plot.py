"""A plot of bars as a picture in SVG: for each load a group, and in it a bar for each system, on a scale of powers."""
import math
from xml.sax.saxutils import escape

from comparing.tables import number

COLOURS = (
    *("#4d4d4d", "#9a9a9a", "#d1862b", "#b5443c"),
    *("#1b5e8c", "#3f87b8", "#74aed4", "#a9cfe8"),
    *("#2d6b3f", "#55986a", "#8bc09c", "#bfe0c9"),
)
LEFT, RIGHT, TOP, BAR, GAP, LINE = 110, 90, 16, 9, 12, 18
WIDTH = 860


def text(x, y, words, anchor="start", size=12):
    return f'<text x="{x:.1f}" y="{y:.1f}" text-anchor="{anchor}" font-size="{size}">{escape(words)}</text>'


def bar(x, y, width, colour, words):
    return (
        f'<rect x="{x:.1f}" y="{y:.1f}" width="{width:.1f}" height="{BAR - 1}" fill="{colour}">'
        f"<title>{escape(words)}</title></rect>"
    )


class Scale:
    """From a number to a place, between the power of ten below the least and the greatest."""

    def __init__(self, numbers):
        self.low = math.floor(math.log10(min(numbers)))
        self.high = max(math.ceil(math.log10(max(numbers))), self.low + 1)

    def at(self, value):
        share = (math.log10(value) - self.low) / (self.high - self.low)
        return LEFT + share * (WIDTH - LEFT - RIGHT)

    def powers(self):
        return [10.0**power for power in range(self.low, self.high + 1)]


def legend(systems, y):
    """The systems in rows of four, with their colours."""
    parts, rows = [], -(-len(systems) // 4)
    for place, system in enumerate(systems):
        x, line = LEFT + place % 4 * 185, y + place // 4 * LINE
        square = f'<rect x="{x}" y="{line - 9}" width="10" height="10" fill="{colour(place)}"/>'
        parts += [square, text(x + 15, line, system)]
    return parts, y + rows * LINE


def colour(place):
    return COLOURS[place % len(COLOURS)]


def group(load, of, systems, scale, y):
    """The bars of a load, and where the next group begins."""
    parts, begun = [], y
    for place, system in enumerate(systems):
        spent = of.get(system)
        if spent is None:
            continue
        end, shown = scale.at(spent), number(spent)
        parts.append(bar(LEFT, y, end - LEFT, colour(place), f"{load}, {system}: {shown}"))
        parts.append(text(end + 4, y + BAR - 1, shown, size=9))
        y += BAR
    return [text(LEFT - 8, (begun + y) / 2 + 4, load, "end"), *parts], y + GAP


def bars(title, figures, systems):
    """The picture of a mapping from loads to mappings from systems to numbers above 0."""
    scale = Scale([spent for of in figures.values() for spent in of.values()])
    parts, y = legend(systems, TOP + 2 * LINE)
    begun = y
    for load, of in figures.items():
        lines, y = group(load, of, systems, scale, y)
        parts += lines
    ticks = []
    for power in scale.powers():
        x = scale.at(power)
        ticks.append(f'<line x1="{x:.1f}" x2="{x:.1f}" y1="{begun}" y2="{y}" stroke="#dddddd"/>')
        ticks.append(text(x, y + LINE, f"{power:,g}", "middle"))
    height = y + 2 * LINE
    head = f'<svg xmlns="http://www.w3.org/2000/svg" width="{WIDTH}" height="{height}" font-family="sans-serif">'
    ground = f'<rect width="{WIDTH}" height="{height}" fill="white"/>'
    return "\n".join([head, ground, text(LEFT, TOP + 4, title, size=14), *ticks, *parts, "</svg>"]) + "\n"
