"""What is of another type than is wanted, where the executor tells that something is: a value's kind and the one that
its place wants. The rules of types are those of docs/language.md."""
from spots import at_path

NUMBER, TEXT, CONDITION, EITHER = "a number", "a text", "a condition", "a number or a text"
OF_COLUMN = {"int": NUMBER, "text": TEXT}
NUMERIC = frozenset("+ - * / % count sum".split())
LOGICAL = frozenset("= <> < <= and or not exists".split())


class Kinds:
    """The kinds of columns, and of the variables that are seen on the way to a place."""

    def __init__(self, setup):
        self.columns = {
            (table.value[0].value, column.value[0].value): OF_COLUMN[column.value[1].value]
            for table in at_path(setup, [2, 2]).value
            for column in table.value[2].value
        }
        self.in_order = {
            table.value[0].value: [OF_COLUMN[it.value[1].value] for it in table.value[2].value]
            for table in at_path(setup, [2, 2]).value
        }
        self.variables = {}

    def of(self, spot):
        """The kind of an expression, `None` where it is not known."""
        if spot.is_number:
            return NUMBER
        if spot.is_text:
            return self.variables.get(spot.value)
        head = spot.value[0].value
        return TEXT if head == "text" else NUMBER if head in NUMERIC else CONDITION if head in LOGICAL else None

    def pass_by(self, statement):
        """Takes note of the variable that a statement gives a value."""
        head, *rest = statement.value
        if head.value == "let":
            self.variables.setdefault(rest[0].value, self.of(rest[1]))
        elif head.value == "get":
            self.variables.setdefault(rest[0].value, self.columns.get((rest[1].value, rest[3].value)))
        elif head.value in ("for", "each"):
            self.variables.setdefault(rest[0].value, NUMBER)

    def wanted(self, parent, place, values_of):
        """What is wanted at a place of a list; the values of an `insert` are in a list of their own."""
        head, *rest = parent.value
        if values_of is not None:
            kinds = self.in_order.get(values_of.value[1].value, [])
            return kinds[place] if place < len(kinds) else None
        word = head.value
        if word == "put" and place == 4:
            return self.columns.get((rest[0].value, rest[2].value))
        if word in ("let", "get") and place in (2, 4):
            return self.variables.get(rest[0].value, EITHER)
        if word == "reply":
            return EITHER
        if word in ("=", "<>"):
            return EITHER if place == 1 else self.of(rest[0])
        return CONDITION if word in ("if", "and", "or", "not") else NUMBER


def told_of(setup, path):
    """What is of another type at a path of the procedures, in words, or `None` where that isn't known."""
    kinds, spot, values_of = Kinds(setup), at_path(setup, [3]), None
    for parameter in at_path(setup, [3, *path[:2], 1]).value:
        kinds.variables[parameter.value[0].value] = OF_COLUMN[parameter.value[1].value]
    for place in path[:-1]:
        if spot.value and spot.value[0].is_list and spot.value[0].value:
            for statement in spot.value[:place]:
                if statement.is_list and statement.value and statement.value[0].is_text:
                    kinds.pass_by(statement)
        values_of = spot if spot.value[0].value == "insert" and place == 3 else None
        spot = spot.value[place]
        if spot.is_list and spot.value and spot.value[0].value in ("for", "each"):
            kinds.pass_by(spot)
    at, wanted = spot.value[path[-1]], kinds.wanted(spot, path[-1], values_of)
    if (spot.value[0].value, path[-1]) in (("get", 4), ("sum", 3)) and values_of is None:
        table = spot.value[path[-1] - 2].value
        found = kinds.columns.get((table, at.value))
        return f"a column that is {found} where {wanted} is wanted" if found and wanted else None
    found = kinds.of(at) or "a value of another type"
    return f"{found} where {wanted} is wanted" if wanted else None
