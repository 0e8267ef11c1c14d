"""Where the faults of a setup are: the place that the executor names, or the first one that breaks a rule of catalogues
or of rows, for which it names none. The orders are those of docs/faults.md."""
import re

from spots import at_path
from tree import DIGESTS

NAME = re.compile("[a-z][a-z0-9_]{0,31}")
LEAST, MOST = -(2**63), 2**63 - 1
LONGEST_TEXT = 64


def is_number(spot):
    return spot.is_number and LEAST <= spot.value <= MOST


def is_list(spot, *kinds):
    """Whether it is a list of parts, one of each of these kinds."""
    return spot.is_list and len(spot.value) == len(kinds) and all(is_kind(it) for is_kind, it in zip(kinds, spot.value))


def is_text(spot):
    return spot.is_text


def is_array(spot):
    return spot.is_list


def anything(_):
    return True


def word(text):
    return lambda spot: spot.is_text and spot.value == text


def one_of(*numbers):
    return lambda spot: is_number(spot) and spot.value in numbers


# ---- setups


def of_setup(setup):
    """The faults of the outer form, in their order."""
    heads = (word("setup"), anything, anything, anything, anything)
    if not setup.is_list or not setup.value:
        yield 42, setup
    elif not is_text(setup.value[0]) or setup.value[0].value != "setup":
        yield 42, setup.value[0]
    elif len(setup.value) < len(heads) or not one_of(1, 2, 3)(setup.value[1]):
        yield 42, setup.value[1] if len(setup.value) > 1 else setup
    elif len(setup.value) != 4 + setup.value[1].value:
        yield 42, setup
    else:
        if setup.value[1].value > 1 and not one_of(0, 1, 2)(setup.value[5]):
            yield 42, setup.value[5]
        if setup.value[1].value > 2 and not any(word(it)(setup.value[6]) for it in DIGESTS):
            yield 42, setup.value[6]


# ---- catalogues


def of_catalogue(catalogue):
    """The faults of a catalogue, in their order."""
    if not is_list(catalogue, word("catalogue"), one_of(1, 2), is_array):
        yield 1, catalogue.value[1] if is_list(catalogue, word("catalogue"), anything, is_array) else catalogue
        return
    version, tables = catalogue.value[1].value, catalogue.value[2]
    if not 1 <= len(tables.value) <= 64:
        yield 5, tables
    names = set()
    for table in tables.value:
        yield from of_table(table, version, names)
        names.add(table.value[0].value)


def is_split(version):
    def is_one(spot):
        parts = spot.value
        return is_number(spot) or version == 2 and spot.is_list and bool(parts) and word("bounds")(parts[0]) and all(map(is_number, parts[1:]))

    return is_one


def of_table(table, version, names):
    if not is_list(table, is_text, is_split(version), is_array):
        yield 1, table
        return
    name, split, columns = table.value
    yield from of_name(name, names)
    yield from of_split(split)
    if not columns.value:
        yield 4, columns
    if len(columns.value) > 16:
        yield 5, columns
    seen = set()
    for column in columns.value:
        if not is_list(column, is_text, lambda it: it.value in ("int", "text")):
            yield 1, column
            return
        yield from of_name(column.value[0], seen)
        seen.add(column.value[0].value)


def of_name(name, before):
    if not NAME.fullmatch(name.value):
        yield 3, name
    if name.value in before:
        yield 2, name


def of_split(split):
    if is_number(split):
        if not 1 <= split.value <= 1024:
            yield 5, split
        return
    if len(split.value) > 1024:
        yield 5, split
    least = 1
    for bound in split.value[1:]:
        if bound.value < least:
            yield 7, bound
        least = bound.value + 1


# ---- rows


def of_rows(rows, catalogue):
    """The faults of the rows of a catalogue without a fault, in their order."""
    if not is_list(rows, word("rows"), one_of(1), is_array):
        yield 42, rows
        return
    kinds = {table.value[0].value: [it.value[1].value for it in table.value[2].value] for table in catalogue.value[2].value}
    seen = set()
    for row in rows.value[2].value:
        if not is_list(row, is_text, is_number, is_array):
            yield 42, row
            return
        table, key, values = row.value
        if table.value not in kinds:
            yield 43, table
            return
        if key.value < 0:
            yield 44, key
        yield from of_values(values, kinds[table.value])
        if (table.value, key.value) in seen:
            yield 46, row
        seen.add((table.value, key.value))


def of_values(values, kinds):
    if len(values.value) != len(kinds):
        yield 45, values
    for value, kind in zip(values.value, kinds):
        fits = is_number(value) if kind == "int" else value.is_text and len(value.value.encode()) <= LONGEST_TEXT
        if not fits:
            yield 45, value


# ---- both


def place_of(setup, fault, path):
    """Where a fault of a setup is, of which the executor tells the number and, for procedures, the path."""
    if 11 <= fault <= 19:
        return at_path(setup, [3, *path])
    if fault in (37, 41, 47):
        return setup
    if fault == 42 and (found := next(of_setup(setup), None)):
        return found[1]
    catalogue, rows = at_path(setup, [2]), at_path(setup, [4])
    whole, faults = (catalogue, of_catalogue(catalogue)) if fault <= 7 else (rows, of_rows(rows, catalogue))
    if fault > 7 and next(of_catalogue(catalogue), None):
        return whole
    number, spot = next(faults, (None, whole))
    return spot if number == fault else whole
