"""Tables of Markdown, and the numbers in them."""


def number(value):
    """A number with three digits that say something, or with all before the point."""
    if value >= 100:
        return f"{value:,.0f}"
    if value >= 10:
        return f"{value:.1f}"
    return f"{value:.2f}" if value >= 1 else f"{value:.3f}"


def percentile(values, share):
    """The least of the values such that `share` of a hundred are at most it (the nearest rank)."""
    if not values:
        raise ValueError("no values")
    ordered = sorted(values)
    rank = -(-len(ordered) * share // 100)
    return ordered[max(0, int(rank) - 1)]


def table(head, rows):
    """A table with its columns lined up; the first is left-bound, and the others are right-bound."""
    cells = [list(map(str, head))] + [list(map(str, row)) for row in rows]
    if any(len(row) != len(head) for row in cells):
        raise ValueError("a row has another number of cells than the head")
    widths = [max(3, *map(len, column)) for column in zip(*cells)]
    rule = ["-" * widths[0], *("-" * (width - 1) + ":" for width in widths[1:])]
    lines = [line(row, widths) for row in (cells[0], rule, *cells[1:])]
    return "".join(lines)


def line(cells, widths):
    first, *others = zip(cells, widths)
    return "| " + " | ".join([first[0].ljust(first[1]), *(cell.rjust(width) for cell, width in others)]) + " |\n"


MARKS = "<!-- figures -->\n", "<!-- end of figures -->"


def filled(page, figures):
    """A page with these figures between its two marks, each of which it must have once."""
    begin, end = MARKS
    if page.count(begin) != 1 or page.count(end) != 1 or page.index(end) < page.index(begin):
        raise ValueError(f"the page must have {begin.strip()} and {end} once each, in this order")
    before, rest = page.split(begin)
    return before + begin + "\n" + figures.strip() + "\n\n" + end + rest.split(end)[1]
