"""Documents whose parts know where they are written.

A setup has one shape, whether it is read from JSON or from the notation: numbers, texts and lists. A `Spot` is one part
of it, with the line and the column, both from 1, at which its text begins, and the line on which it ends.
"""


class Mistake(Exception):
    """What is wrong with a text, and where."""

    def __init__(self, message, line, column):
        super().__init__(message)
        self.message, self.line, self.column = message, line, column


class Spot:
    """A number, a text or a list of further spots, and where it is written."""

    __slots__ = ("value", "line", "column", "last")

    def __init__(self, value, line, column, last=None):
        self.value, self.line, self.column = value, line, column
        self.last = line if last is None else last

    def __repr__(self):
        return f"Spot({self.value!r}, {self.line}, {self.column})"

    @property
    def is_list(self):
        return isinstance(self.value, list)

    @property
    def is_text(self):
        return isinstance(self.value, str)

    @property
    def is_number(self):
        return isinstance(self.value, int) and not isinstance(self.value, bool)

    def mistake(self, message):
        return Mistake(message, self.line, self.column)


def plain(spot):
    """The document itself, without places."""
    return [plain(it) for it in spot.value] if spot.is_list else spot.value


def at_path(spot, path):
    """The part of a document at a path of places from 0, or the innermost part on the way that is there."""
    for place in path:
        if not spot.is_list or place >= len(spot.value):
            break
        spot = spot.value[place]
    return spot
