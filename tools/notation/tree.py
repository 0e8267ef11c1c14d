"""A setup in the notation: its items in the order in which they are written, and the document that they make."""
from spots import Spot

HEADER, CATALOGUE, TABLE, PROCEDURE, ROWS = "setup", "catalogue", "table", "proc", "rows"
# Of which text of the rows the digests in a report are.
DIGESTS = ("rows", "partitions")


class Item:
    """A part of a source. Its spots are, for the header, version, retries and digest, where they are written; for the
    version of the catalogue that number; for a table or a procedure its document; for rows the documents of rows."""

    def __init__(self, kind, spots, line, last, name=None):
        self.kind, self.spots, self.line, self.last, self.name = kind, spots, line, last, name


class Source:
    """The items of a source, its comments, and its lines that are empty."""

    def __init__(self, items, comments=(), empty_lines=()):
        self.items, self.comments, self.empty_lines = items, list(comments), frozenset(empty_lines)

    def of_kind(self, kind):
        return [item for item in self.items if item.kind == kind]


def listed(*parts, at):
    """A list whose parts are spots, or values that are written where it begins."""
    whole = [part if isinstance(part, Spot) else Spot(part, at.line, at.column) for part in parts]
    return Spot(whole, at.line, at.column)


def has_bounds(table):
    return table.spots[0].value[1].is_list


def setup_of(source):
    """The setup document that a source makes."""
    top = Spot(None, 1, 1)
    header, version = source.of_kind(HEADER), source.of_kind(CATALOGUE)
    tables, procedures = source.of_kind(TABLE), source.of_kind(PROCEDURE)
    rows = [row for item in source.of_kind(ROWS) for row in item.spots]
    of_tables = Spot([it.spots[0] for it in tables], *place_of(tables))
    of_procedures = Spot([it.spots[0] for it in procedures], *place_of(procedures))
    of_rows = Spot(rows, *((rows[0].line, rows[0].column) if rows else (1, 1)))
    told = version[0].spots[0] if version else 2 if any(map(has_bounds, tables)) else 1
    number, *rest = header[0].spots if header else (1,)
    return listed(
        "setup",
        number,
        listed("catalogue", told, of_tables, at=of_tables),
        listed("procs", 1, of_procedures, at=of_procedures),
        listed("rows", 1, of_rows, at=of_rows),
        *rest,
        at=top,
    )


def place_of(items):
    return (items[0].line, 1) if items else (1, 1)
