"""What the faults of a setup mean. docs/faults.md has the rules."""
import re

MEANINGS = {
    1: "the catalogue has a wrong form",
    2: "a table or a column has a name that was used before",
    3: "a name is 1 to 32 of a to z, 0 to 9 and _, and begins with a letter",
    4: "a table has no column",
    5: "there are 1 to 64 tables, 1 to 1024 partitions, at most 1023 bounds and at most 16 columns",
    6: "no memory for the catalogue",
    7: "a bound is at least 1 and above the one before it",
    11: "a wrong form, or a name that isn't 1 to 32 of a to z, 0 to 9 and _ after a letter",
    12: "there is no such table",
    13: "the table has no such column",
    14: "no variable of this name is seen here",
    15: "an expression or a column of another type than is wanted here",
    16: "the name is used before, or belongs to a parameter or a loop",
    17: "an abort code is 100 to 65535",
    18: "too many parts, too deep, or a text of more than 64 bytes",
    19: "no memory for the procedures",
    36: "the setup could not be read",
    37: "no memory",
    41: "this is not JSON",
    42: "the setup or its rows have a wrong form",
    43: "there is no such table",
    44: "a key isn't negative",
    45: "another number of values than columns, a value of another type, or a text of more than 64 bytes",
    46: "the row is given before",
    47: "no memory for the setup",
}
LINE = re.compile(r"fault (\d+)(?: at (\S*))?(?: line \d+)?\s*")


def told(line):
    """The fault that a line of the executor tells, and the path that it names: two numbers and a list of places."""
    found = LINE.fullmatch(line)
    if not found:
        return None
    places = [int(it) for it in (found[2] or "").split("/") if it.isdigit()]
    return int(found[1]), places
