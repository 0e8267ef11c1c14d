#!/usr/bin/env python3
"""A second reader of setups, which was written from docs/language.md and docs/faults.md alone, to compare the program with:

    scripts/second_reader.py SETUP ..       prints of each setup what `calvin check` must
    scripts/second_reader.py --compare      compares: each line of standard input has the bytes of a setup in hexadecimal, and
                                            after a space what the program says of it

What `check` says is `ok T tables P procedures R rows`, or the first fault. With --compare the lines that it says otherwise are
printed, and how many there were; it ends with status 1 where there are any, or no lines at all.
"""
import json
import math
import re
import sys

LEAST, GREATEST = -(2**63), 2**63 - 1
NAME = re.compile(r"[a-z][a-z0-9_]{0,31}")
SURROGATE = re.compile("[\ud800-\udfff]")
MOST_NESTED, MOST_DEEP = 127, 24
ARITHMETIC, EQUALITY, ORDER, LOGIC = {"+", "-", "*", "/", "%"}, {"=", "<>"}, {"<", "<="}, {"and", "or"}
INT, TEXT, BOOL = "int", "text", "bool"


class Fault(Exception):
    """The first fault: its number, and the path of the place that it is named at, where it has one."""

    def __init__(self, number, path=None):
        super().__init__(number, path)
        self.number, self.path = number, path

    def __str__(self):
        return f"fault {self.number}" if self.path is None else f"fault {self.number} at {self.path}"


class NotJson(Exception):
    """The text is not JSON."""


class Other:
    """A value of JSON that is no array, no text and no whole number in range."""


def whole(digits):
    if math.isinf(float(digits)):
        raise NotJson
    if digits.startswith("-0"):
        return Other()
    number = int(digits)
    return number if LEAST <= number <= GREATEST else Other()


def fraction(digits):
    if math.isinf(float(digits)):
        raise NotJson
    return Other()


def refuse(_):
    raise NotJson


def nested(text):
    """How deep arrays and objects nest, in a text whose strings are JSON's."""
    deepest = depth = 0
    for token in re.finditer(r'"(?:[^"\\]|\\.)*"|[\[\]{}]', text):
        if token[0] in "[{":
            depth += 1
            deepest = max(deepest, depth)
        elif token[0] in "]}":
            depth -= 1
    return deepest


def has_half_a_pair(value):
    if isinstance(value, str):
        return bool(SURROGATE.search(value))
    return isinstance(value, (list, tuple)) and any(map(has_half_a_pair, value))


def json_of(data):
    """The value of a JSON text, as bytes. An object is a tuple of its pairs, which has no meaning anywhere."""
    try:
        text = data.decode("utf-8")
        if nested(text) > MOST_NESTED:
            raise NotJson
        value = json.loads(text, parse_int=whole, parse_float=fraction, parse_constant=refuse, object_pairs_hook=tuple)
    except (UnicodeDecodeError, json.JSONDecodeError, RecursionError) as error:
        raise NotJson from error
    if has_half_a_pair(value):
        raise NotJson
    return value


def is_array(value, count=None):
    return isinstance(value, list) and (count is None or len(value) == count)


def is_text(value):
    return isinstance(value, str)


def is_number(value):
    return isinstance(value, int) and not isinstance(value, bool)


def require(holds, number, path=None):
    if not holds:
        raise Fault(number, path)


def read_column(column, earlier):
    require(is_array(column, 2) and is_text(column[0]) and column[1] in (INT, TEXT) and is_text(column[1]), 1)
    require(NAME.fullmatch(column[0]), 3)
    require(column[0] not in earlier, 2)
    earlier[column[0]] = column[1]


def has_form_of_split(split, version):
    """Whether this is a number of partitions or, in version 2, an array of bounds."""
    if is_number(split):
        return True
    return version == 2 and is_array(split) and split[:1] == ["bounds"] and all(map(is_number, split[1:]))


def read_split(split):
    if is_number(split):
        require(1 <= split <= 1024, 5)
        return
    bounds = split[1:]
    require(len(bounds) <= 1023, 5)
    before = 0
    for bound in bounds:
        require(before < bound, 7)
        before = bound


def read_catalogue(document):
    """The tables by name, each with the types of its columns by name, in order."""
    require(is_array(document, 3) and document[0] == "catalogue" and is_number(document[1]) and document[1] in (1, 2) and is_array(document[2]), 1)
    version = document[1]
    require(1 <= len(document[2]) <= 64, 5)
    tables = {}
    for table in document[2]:
        require(is_array(table, 3) and is_text(table[0]) and has_form_of_split(table[1], version) and is_array(table[2]), 1)
        name, split, columns = table
        require(NAME.fullmatch(name), 3)
        require(name not in tables, 2)
        read_split(split)
        require(columns, 4)
        require(len(columns) <= 16, 5)
        kinds = {}
        for column in columns:
            read_column(column, kinds)
        tables[name] = kinds
    return tables


class Procedures:
    """Reads procedures over tables."""

    def __init__(self, tables):
        self.tables = tables

    def read(self, document):
        require(is_array(document, 3) and document[0] == "procs" and is_number(document[1]) and document[1] == 1 and is_array(document[2]), 11, "")
        require(len(document[2]) <= 256, 18, "/2")
        names = set()
        for place, procedure in enumerate(document[2]):
            self.procedure(procedure, f"/2/{place}", names)
        return len(document[2])

    def procedure(self, procedure, path, names):
        require(is_array(procedure, 4) and is_text(procedure[0]) and is_array(procedure[1]), 11, path)
        name, parameters, footprint, body = procedure
        require(NAME.fullmatch(name), 11, f"{path}/0")
        require(name not in names, 16, f"{path}/0")
        names.add(name)
        require(len(parameters) <= 16, 18, f"{path}/1")
        seen = {}
        for place, parameter in enumerate(parameters):
            at = f"{path}/1/{place}"
            require(is_array(parameter, 2) and is_text(parameter[0]) and is_text(parameter[1]) and parameter[1] in (INT, TEXT), 11, at)
            require(NAME.fullmatch(parameter[0]), 11, f"{at}/0")
            require(parameter[0] not in seen, 16, f"{at}/0")
            seen[parameter[0]] = parameter[1]
        self.footprint(footprint, f"{path}/2", seen)
        Body(self.tables, set(seen)).block(body, f"{path}/3", seen, 1)

    def footprint(self, footprint, path, parameters):
        is_declared = is_array(footprint) and footprint[:1] == ["declared"]
        require(is_declared or footprint == ["recon"], 11, path)
        require(len(footprint) - 1 <= 256, 18, path)
        for place, entry in enumerate(footprint[1:], 1):
            self.entry(entry, f"{path}/{place}", parameters)

    def entry(self, entry, path, parameters):
        lengths = {"row": 4, "rows": 5, "part": 4, "table": 3, "db": 2}
        require(is_array(entry) and entry and is_text(entry[0]) and len(entry) == lengths.get(entry[0]), 11, path)
        require(is_text(entry[1]) and entry[1] in ("r", "w"), 11, path)
        require(len(entry) == 2 or is_text(entry[2]), 11, path)
        require(len(entry) == 2 or entry[2] in self.tables, 12, f"{path}/2")
        expressions = Expressions(self.tables, reads_rows=False)
        kinds = [expressions.kind(key, f"{path}/{place}", parameters, 1) for place, key in enumerate(entry[3:], 3)]
        for place, kind in enumerate(kinds, 3):
            require(kind == INT, 15, f"{path}/{place}")


class Expressions:
    """Reads expressions over tables, and finds their types."""

    def __init__(self, tables, reads_rows=True):
        self.tables, self.reads_rows = tables, reads_rows

    def has_form(self, value):
        if is_number(value) or is_text(value):
            return True
        if not is_array(value) or not value or not is_text(value[0]):
            return False
        head, count = value[0], len(value)
        if head == "text":
            return count == 2 and is_text(value[1])
        if head == "not":
            return count == 2
        if head in ARITHMETIC | EQUALITY | ORDER | LOGIC:
            return count == 3
        if self.reads_rows and head in ("exists", "count"):
            return count == 3 and is_text(value[1])
        return self.reads_rows and head == "sum" and count == 4 and is_text(value[1]) and is_text(value[3])

    def kind(self, value, path, seen, depth):
        require(self.has_form(value), 11, path)
        require(depth <= MOST_DEEP, 18, path)
        if is_number(value):
            return INT
        if is_text(value):
            require(value in seen, 14, path)
            return seen[value]
        head = value[0]
        if head == "text":
            require(len(value[1].encode()) <= 64, 18, path)
            return TEXT
        if head in ("exists", "count", "sum"):
            return self.of_rows(value, path, seen, depth)
        kinds = [self.kind(part, f"{path}/{place}", seen, depth + 1) for place, part in enumerate(value[1:], 1)]
        return self.joined(head, kinds, path)

    def of_rows(self, value, path, seen, depth):
        require(value[1] in self.tables, 12, f"{path}/1")
        kind = self.kind(value[2], f"{path}/2", seen, depth + 1)
        if value[0] == "sum":
            require(value[3] in self.tables[value[1]], 13, f"{path}/3")
        require(kind == INT, 15, f"{path}/2")
        if value[0] == "sum":
            require(self.tables[value[1]][value[3]] == INT, 15, f"{path}/3")
        return BOOL if value[0] == "exists" else INT

    @staticmethod
    def joined(head, kinds, path):
        if head in EQUALITY:
            require(kinds[0] != BOOL, 15, f"{path}/1")
            require(kinds[1] == kinds[0], 15, f"{path}/2")
            return BOOL
        wanted = BOOL if head in LOGIC or head == "not" else INT
        for place, kind in enumerate(kinds, 1):
            require(kind == wanted, 15, f"{path}/{place}")
        return INT if head in ARITHMETIC else BOOL


class Body:
    """Reads the blocks of a procedure. `fixed` are the names that no statement can change."""

    FORMS = {
        "let": (3, [1]), "get": (5, [1, 2, 4]), "put": (5, [1, 3]), "insert": (4, [1]), "delete": (3, [1]),
        "if": (4, []), "for": (5, [1]), "each": (5, [1, 2]), "abort": (2, []), "reply": (None, []),
    }  # fmt: skip

    def __init__(self, tables, fixed):
        self.tables, self.fixed = tables, fixed
        self.expressions = Expressions(tables)

    def block(self, block, path, seen, depth):
        require(is_array(block), 11, path)
        require(len(block) <= 1024, 18, path)
        require(depth <= MOST_DEEP, 18, path)
        seen = dict(seen)
        for place, statement in enumerate(block):
            self.statement(statement, f"{path}/{place}", seen, depth)

    def statement(self, statement, path, seen, depth):
        require(is_array(statement) and statement and is_text(statement[0]) and statement[0] in self.FORMS, 11, path)
        count, texts = self.FORMS[statement[0]]
        require(count is None or len(statement) == count, 11, path)
        require(all(is_text(statement[place]) for place in texts), 11, path)
        getattr(self, f"read_{statement[0]}")(statement, path, seen, depth)

    def kind(self, value, path, seen):
        return self.expressions.kind(value, path, seen, 1)

    def table(self, name, path):
        require(name in self.tables, 12, path)
        return self.tables[name]

    def target(self, name, path, seen):
        require(name not in seen or name not in self.fixed, 16, path)
        require(name in seen or NAME.fullmatch(name), 11, path)

    def loop_name(self, name, path, seen):
        require(name not in seen, 16, path)
        require(NAME.fullmatch(name), 11, path)

    def read_let(self, statement, path, seen, _):
        self.target(statement[1], f"{path}/1", seen)
        kind = self.kind(statement[2], f"{path}/2", seen)
        require(kind != BOOL and kind == seen.get(statement[1], kind), 15, f"{path}/2")
        seen[statement[1]] = kind

    def read_get(self, statement, path, seen, _):
        self.target(statement[1], f"{path}/1", seen)
        columns = self.table(statement[2], f"{path}/2")
        key = self.kind(statement[3], f"{path}/3", seen)
        require(statement[4] in columns, 13, f"{path}/4")
        require(key == INT, 15, f"{path}/3")
        kind = columns[statement[4]]
        require(kind == seen.get(statement[1], kind), 15, f"{path}/4")
        seen[statement[1]] = kind

    def read_put(self, statement, path, seen, _):
        columns = self.table(statement[1], f"{path}/1")
        key = self.kind(statement[2], f"{path}/2", seen)
        require(statement[3] in columns, 13, f"{path}/3")
        value = self.kind(statement[4], f"{path}/4", seen)
        require(key == INT, 15, f"{path}/2")
        require(value == columns[statement[3]], 15, f"{path}/4")

    def read_insert(self, statement, path, seen, _):
        require(is_array(statement[3]), 11, path)
        columns = self.table(statement[1], f"{path}/1")
        key = self.kind(statement[2], f"{path}/2", seen)
        require(len(statement[3]) == len(columns), 11, f"{path}/3")
        kinds = [self.kind(value, f"{path}/3/{place}", seen) for place, value in enumerate(statement[3])]
        require(key == INT, 15, f"{path}/2")
        for place, (kind, wanted) in enumerate(zip(kinds, columns.values())):
            require(kind == wanted, 15, f"{path}/3/{place}")

    def read_delete(self, statement, path, seen, _):
        self.table(statement[1], f"{path}/1")
        require(self.kind(statement[2], f"{path}/2", seen) == INT, 15, f"{path}/2")

    def read_if(self, statement, path, seen, depth):
        kind = self.kind(statement[1], f"{path}/1", seen)
        self.block(statement[2], f"{path}/2", seen, depth + 1)
        self.block(statement[3], f"{path}/3", seen, depth + 1)
        require(kind == BOOL, 15, f"{path}/1")

    def turns(self, block, path, name, seen, depth):
        self.fixed.add(name)
        self.block(block, path, {**seen, name: INT}, depth + 1)
        self.fixed.discard(name)

    def read_for(self, statement, path, seen, depth):
        self.loop_name(statement[1], f"{path}/1", seen)
        low = self.kind(statement[2], f"{path}/2", seen)
        high = self.kind(statement[3], f"{path}/3", seen)
        self.turns(statement[4], f"{path}/4", statement[1], seen, depth)
        require(low == INT, 15, f"{path}/2")
        require(high == INT, 15, f"{path}/3")

    def read_each(self, statement, path, seen, depth):
        self.loop_name(statement[1], f"{path}/1", seen)
        self.table(statement[2], f"{path}/2")
        part = self.kind(statement[3], f"{path}/3", seen)
        self.turns(statement[4], f"{path}/4", statement[1], seen, depth)
        require(part == INT, 15, f"{path}/3")

    def read_abort(self, statement, path, *_):
        require(is_number(statement[1]), 11, path)
        require(100 <= statement[1] <= 65535, 17, f"{path}/1")

    def read_reply(self, statement, path, seen, _):
        require(len(statement) - 1 <= 64, 18, path)
        kinds = [self.kind(value, f"{path}/{place}", seen) for place, value in enumerate(statement[1:], 1)]
        for place, kind in enumerate(kinds, 1):
            require(kind != BOOL, 15, f"{path}/{place}")


def fits(value, kind):
    return is_number(value) if kind == INT else is_text(value) and len(value.encode()) <= 64


def read_rows(rows, tables):
    named = set()
    for row in rows:
        require(is_array(row, 3) and is_text(row[0]) and is_number(row[1]) and is_array(row[2]), 42)
        require(row[0] in tables, 43)
        require(row[1] >= 0, 44)
        kinds = tables[row[0]].values()
        require(len(row[2]) == len(kinds) and all(map(fits, row[2], kinds)), 45)
        require((row[0], row[1]) not in named, 46)
        named.add((row[0], row[1]))
    return len(named)


def is_setup(document):
    """Whether the outer form is that of a setup of version 1; of version 2, which says how often a stale call is tried again; or of
    version 3, which says beside it of which text of the rows digests are."""
    if is_array(document, 5):
        return document[0] == "setup" and is_number(document[1]) and document[1] == 1
    if is_array(document, 6):
        versioned = document[0] == "setup" and is_number(document[1]) and document[1] == 2
        return versioned and is_number(document[5]) and 0 <= document[5] <= 2
    if is_array(document, 7):
        versioned = document[0] == "setup" and is_number(document[1]) and document[1] == 3
        return versioned and is_number(document[5]) and 0 <= document[5] <= 2 and document[6] in ("rows", "partitions")
    return False


def read_setup(data):
    try:
        document = json_of(data)
    except NotJson as error:
        raise Fault(41) from error
    require(is_setup(document), 42)
    tables = read_catalogue(document[2])
    procedures = Procedures(tables).read(document[3])
    rows = document[4]
    require(is_array(rows, 3) and rows[0] == "rows" and is_number(rows[1]) and rows[1] == 1 and is_array(rows[2]), 42)
    return f"ok {len(tables)} tables {procedures} procedures {read_rows(rows[2], tables)} rows"


def said_of(data):
    try:
        return read_setup(data)
    except Fault as fault:
        return str(fault)


def compare(lines):
    count = wrong = 0
    for line in lines:
        digits, _, said = line.rstrip("\n").partition(" ")
        count += 1
        if said != said_of(bytes.fromhex(digits)):
            wrong += 1
            print(f"{said_of(bytes.fromhex(digits))}, and the program says {said}: {bytes.fromhex(digits)}")
    print(f"{count} setups, {wrong} read otherwise")
    return 1 if wrong or not count else 0


def main(*paths):
    sys.setrecursionlimit(10_000)
    if paths == ("--compare",):
        return compare(sys.stdin)
    for path in paths:
        with open(path, "rb") as setup:
            print(said_of(setup.read()))
    return 0


if __name__ == "__main__":
    sys.exit(main(*sys.argv[1:]))
