"""The formatter: from the items of a source to its one layout, with the comments that it has."""
import json
import re

from tree import CATALOGUE, DIGESTS, HEADER, PROCEDURE, ROWS, TABLE
from words import RESERVED

WIDTH = 100
INDENT = "    "
SIGNS = {"=": "==", "<>": "!="}
# How tightly an operator binds: `or` least. A comparison takes no comparison as its part.
BINDS = {"or": 1, "and": 2, "not": 3, "=": 4, "<>": 4, "<": 4, "<=": 4, "+": 5, "-": 5, "*": 6, "/": 6, "%": 6}
OPERAND = 7
PLAIN_NAME = re.compile("[A-Za-z_][A-Za-z0-9_]*")


def unsayable(spot):
    return spot.mistake("the notation can't say this")


def name(spot):
    if not spot.is_text or "`" in spot.value or "\n" in spot.value:
        raise unsayable(spot)
    return spot.value if PLAIN_NAME.fullmatch(spot.value) and spot.value not in RESERVED else f"`{spot.value}`"


def number(spot):
    if not spot.is_number:
        raise unsayable(spot)
    return str(spot.value)


def digest(spot):
    if not spot.is_text or spot.value not in DIGESTS:
        raise unsayable(spot)
    return spot.value


def text(value):
    return json.dumps(value, ensure_ascii=False).replace("\x7f", "\\u007f")


def parts(spot, *counts):
    """The parts of a list that has one of these counts of them."""
    if not spot.is_list or counts and len(spot.value) not in counts:
        raise unsayable(spot)
    return spot.value


# ---- expressions


def expression(spot, least=0):
    """An expression where only operators that bind at least so tightly need no brackets."""
    if spot.is_number:
        return number(spot)
    if spot.is_text:
        return name(spot)
    head, *operands = parts(spot)
    if head.value == "text" and len(operands) == 1 and operands[0].is_text:
        return text(operands[0].value)
    if head.value in ("exists", "count", "sum"):
        return of_rows(head.value, spot)
    binds = BINDS.get(head.value) if head.is_text else None
    if binds is None or len(operands) != (1 if head.value == "not" else 2):
        raise unsayable(spot)
    if head.value == "not":
        found = "not " + expression(operands[0], binds)
    else:
        left, right = expression(operands[0], binds + (binds == 4)), expression(operands[1], binds + 1)
        found = f"{left} {SIGNS.get(head.value, head.value)} {right}"
    return f"({found})" if binds < least else found


def of_rows(word, spot):
    if word == "exists":
        _, table, key = parts(spot, 3)
        return f"exists({row(table, key)})"
    table, part, *column = parts(spot, 3 if word == "count" else 4)[1:]
    return f"{word}({partition(table, part)}{''.join(', ' + name(it) for it in column)})"


def row(table, key):
    return f"{name(table)}[{expression(key)}]"


def partition(table, part):
    return f"{name(table)}/{expression(part, OPERAND)}"


# ---- statements


def simple(spot):
    """The text of a statement without blocks, `None` for one with blocks."""
    head, *rest = parts(spot)
    if head.value == "let" and len(rest) == 2:
        return f"let {name(rest[0])} = {expression(rest[1])}"
    if head.value == "get" and len(rest) == 4:
        return f"let {name(rest[0])} = {row(rest[1], rest[2])}.{name(rest[3])}"
    if head.value == "put" and len(rest) == 4:
        return f"{row(rest[0], rest[1])}.{name(rest[2])} = {expression(rest[3])}"
    if head.value == "insert" and len(rest) == 3:
        return f"insert {row(rest[0], rest[1])} ({', '.join(map(expression, parts(rest[2])))})"
    if head.value == "delete" and len(rest) == 2:
        return f"delete {row(rest[0], rest[1])}"
    if head.value == "abort" and len(rest) == 1:
        return f"abort {number(rest[0])}"
    if head.value == "reply":
        return " ".join(["reply"] + [", ".join(map(expression, rest))] * bool(rest))
    return None


def head_of(spot):
    """The text before the first block of a statement with blocks, and its blocks."""
    head, *rest = parts(spot)
    if head.value == "if" and len(rest) == 3:
        return f"if {expression(rest[0])}", rest[1:]
    if head.value == "for" and len(rest) == 4:
        return f"for {name(rest[0])} in {expression(rest[1])}..{expression(rest[2])}", rest[3:]
    if head.value == "each" and len(rest) == 4:
        return f"each {name(rest[0])} in {partition(rest[1], rest[2])}", rest[3:]
    raise unsayable(spot)


class Layout:
    """Lines that are laid out, and the comments of the source that are still to come."""

    def __init__(self, source):
        self.lines, self.depth, self.source = [], 0, source
        self.left = sorted(source.comments, key=lambda it: (it.line, it.column))

    def put(self, line):
        self.lines.append((INDENT * self.depth + line).rstrip())

    def blank(self):
        if self.lines and self.lines[-1] and not self.lines[-1].endswith("{"):
            self.lines.append("")

    def begin(self, line):
        """Writes the comments that come before a line of the source, and an empty line where one was there."""
        while self.left and self.left[0].line < line:
            comment = self.left.pop(0)
            if comment.line - 1 in self.source.empty_lines:
                self.blank()
            self.put(comment.text)
        if line - 1 in self.source.empty_lines:
            self.blank()

    def end(self, line):
        """Writes the comments that are within what ends on this line of the source: the last one beside it, and the
        others before it."""
        while self.left and self.left[0].line <= line:
            comment = self.left.pop(0)
            if self.left and self.left[0].line <= line or comment.is_alone:
                self.lines.insert(len(self.lines) - 1, INDENT * self.depth + comment.text)
            else:
                self.lines[-1] += "  " + comment.text

    def has_comments_in(self, block):
        return bool(self.left) and block.line <= self.left[0].line < block.last

    # ---- blocks

    def block(self, block, head):
        """Writes a head and the statements of a block; the closing bracket is left to the caller."""
        self.put(head + " {")
        begin = block.line
        if self.left and self.left[0].line == begin and not self.left[0].is_alone and begin != block.last:
            self.lines[-1] += "  " + self.left.pop(0).text
        self.depth += 1
        statements = parts(block)
        for place, statement in enumerate(statements):
            self.begin(statement.line)
            # A comment at the end of a line is of the last that ends there.
            after = statements[place + 1].line if place + 1 < len(statements) else block.last
            self.statement(statement, is_last=after > statement.last)
        if block.last > block.line:
            while self.left and self.left[0].line < block.last:
                self.put(self.left.pop(0).text)
        self.depth -= 1

    def statement(self, spot, is_last):
        line = simple(spot)
        if line is not None:
            self.put(line)
        elif not self.brief(spot):
            head, blocks = head_of(spot)
            self.block(blocks[0], head)
            self.others(blocks)
        if is_last:
            self.end(spot.last)

    def brief(self, spot):
        """Writes an `if` of one statement without blocks on one line, where it fits and has no comment within."""
        head, blocks = head_of(spot)
        only = parts(blocks[0])
        if not head.startswith("if ") or len(only) != 1 or parts(blocks[1]):
            return False
        within = self.left and self.left[0].line < spot.last
        line = simple(only[0]) and f"{head} {{ {simple(only[0])} }}"
        if not line or within or len(line) + len(INDENT) * self.depth > WIDTH:
            return False
        self.put(line)
        return True

    def others(self, blocks):
        """Writes the second block of an `if`, if it has one."""
        while len(blocks) == 2 and (parts(blocks[1]) or self.has_comments_in(blocks[1])):
            second = parts(blocks[1])
            is_if = len(second) == 1 and second[0].is_list and second[0].value and second[0].value[0].value == "if"
            if not is_if:
                self.block(blocks[1], "} else")
                break
            head, blocks = head_of(second[0])
            self.block(blocks[0], "} else " + head)
        self.put("}")

    # ---- items

    def item(self, item):
        writers = {HEADER: self.header, CATALOGUE: self.catalogue, TABLE: self.table, PROCEDURE: self.procedure, ROWS: self.rows}
        writers[item.kind](item)

    def header(self, item):
        version, *rest = item.spots
        words = ["setup", number(version)]
        if rest:
            words += ["retries", number(rest[0])]
        if rest[1:]:
            words += ["digest", digest(rest[1])]
        self.put(" ".join(words))
        self.end(item.last)

    def catalogue(self, item):
        self.put(f"catalogue {number(item.spots[0])}")
        self.end(item.last)

    def table(self, item):
        table, split, columns = parts(item.spots[0], 3)
        line = f"table {name(table)} ({typed(columns)})"
        if split.is_list:
            head, *bounds = parts(split)
            if head.value != "bounds":
                raise unsayable(split)
            line += f" bounds [{', '.join(map(number, bounds))}]"
        elif split.value != 1:
            line += f" partitions {number(split)}"
        self.put(line)
        self.end(item.last)

    def procedure(self, item):
        procedure, parameters, footprint, body = parts(item.spots[0], 4)
        # (a comment within the head comes before it)
        while self.left and self.left[0].line < body.line:
            self.put(self.left.pop(0).text)
        head = f"proc {name(procedure)}({typed(parameters)})"
        rights = rights_of(footprint)
        line = " ".join([head, *rights])
        if len(line) + 2 > WIDTH:
            self.put(head)
            self.depth += 1
            for right in rights:
                self.put(right)
            self.depth -= 1
            self.block_below(body)
        else:
            self.block(body, line)
        self.put("}")
        self.end(item.last)

    def block_below(self, body):
        self.block(body, "")
        at = max(place for place, line in enumerate(self.lines) if line.lstrip().startswith("{"))
        self.lines[at] = self.lines[at].strip()

    def rows(self, item):
        head = f"rows {name_of(item)}"
        rows = [f"{number(it.value[1])}: {values(it.value[2])}" for it in item.spots]
        line = f"{head} {{ {', '.join(rows)} }}" if rows else f"{head} {{ }}"
        if len(line) <= WIDTH and not (self.left and self.left[0].line < item.last):
            self.put(line)
            self.end(item.last)
            return
        self.put(head + " {")
        self.depth += 1
        for spot, row_text in zip(item.spots, rows):
            self.begin(spot.line)
            self.put(row_text + ",")
            self.end(spot.last)
        while self.left and self.left[0].line < item.last:
            self.put(self.left.pop(0).text)
        self.depth -= 1
        self.put("}")
        self.end(item.last)


def name_of(item):
    spot = item.spots[0].value[0] if item.spots else None
    return name(spot) if spot else item.name


def typed(spots):
    return ", ".join(f"{name(parts(it, 2)[0])} {type_of(it.value[1])}" for it in parts(spots))


def type_of(spot):
    if spot.value not in ("int", "text"):
        raise unsayable(spot)
    return spot.value


def values(spot):
    found = [text(it.value) if it.is_text else number(it) for it in parts(spot)]
    return found[0] if len(found) == 1 else f"({', '.join(found)})"


def rights_of(footprint):
    """The words of a footprint: `recon`, or a right and its entries for each run of entries of one right."""
    head, *entries = parts(footprint)
    if head.value == "recon" and not entries:
        return ["recon"]
    if head.value != "declared":
        raise unsayable(footprint)
    found = []
    for it in entries:
        word = {"r": "reads", "w": "writes"}.get(parts(it)[1].value if len(it.value) > 1 else None)
        if word is None:
            raise unsayable(it)
        if found and found[-1].startswith(word):
            found[-1] += ", " + entry(it)
        else:
            found.append(f"{word} {entry(it)}")
    return found


def entry(spot):
    kind, _, *rest = parts(spot, 2, 3, 4, 5)
    if kind.value == "db" and not rest:
        return "database"
    if kind.value == "table" and len(rest) == 1:
        return name(rest[0])
    if kind.value == "part" and len(rest) == 2:
        return partition(*rest)
    if kind.value == "row" and len(rest) == 2:
        return row(*rest)
    if kind.value == "rows" and len(rest) == 3:
        return f"{name(rest[0])}[{expression(rest[1])}..{expression(rest[2])}]"
    raise unsayable(spot)


def laid_out(source):
    """The text of a source in its one layout."""
    layout, before = Layout(source), None
    for item in source.items:
        layout.begin(item.line)
        if before and (item.kind != before or item.kind == PROCEDURE):
            first = len(layout.lines)
            while first and layout.lines[first - 1].startswith("#"):
                first -= 1
            if first and layout.lines[first - 1]:
                layout.lines.insert(first, "")
        layout.item(item)
        before = item.kind
    for comment in layout.left:
        if comment.line - 1 in source.empty_lines:
            layout.blank()
        layout.put(comment.text)
    return "\n".join(layout.lines) + "\n" if layout.lines else ""
