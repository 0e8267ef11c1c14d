"""JSON documents with places: each number, text and list knows where it is written."""
import re

from spots import Mistake, Spot
from tree import CATALOGUE, HEADER, PROCEDURE, ROWS, TABLE, Item, Source

# As deep as the executor reads.
DEEPEST = 127
SPACE = re.compile(r"[ \t\r\n]*")
NUMBER = re.compile(r"-?(?:0|[1-9][0-9]*)(\.[0-9]+)?([eE][-+]?[0-9]+)?")
PLAIN = re.compile(r'[^"\\\x00-\x1f]*')
ESCAPES = {'"': '"', "\\": "\\", "/": "/", "b": "\b", "f": "\f", "n": "\n", "r": "\r", "t": "\t"}
WORDS = {"true": True, "false": False, "null": None}


class Other:
    """A value that no setup has: a number with a fraction, an object, a word."""


class Reader:
    def __init__(self, text):
        self.text, self.place = text, 0
        self.begins = [0] + [at.end() for at in re.finditer("\n", text)]
        self.line = 0

    def where(self, place=None):
        """The line and the column of a place, which is at or after the last one that was asked for, or the place now."""
        place = self.place if place is None else place
        while self.line + 1 < len(self.begins) and self.begins[self.line + 1] <= place:
            self.line += 1
        return self.line + 1, place - self.begins[self.line] + 1

    def refuse(self, why):
        raise Mistake(f"fault 41: {why}", *self.where())

    def skip(self):
        self.place = SPACE.match(self.text, self.place).end()

    def take(self, sign):
        self.skip()
        found = self.text.startswith(sign, self.place)
        self.place += len(sign) * found
        return found

    def value(self, depth=0):
        self.skip()
        line, column = self.where()
        sign = self.text[self.place : self.place + 1]
        if sign and sign in "[{" and depth >= DEEPEST:
            self.refuse("nested more than 127 deep")
        if sign == "[":
            found = Spot(self.parts("]", lambda: self.value(depth + 1)), line, column)
        elif sign == "{":
            self.parts("}", lambda: self.member(depth + 1))
            found = Spot(Other(), line, column)
        elif sign == '"':
            found = Spot(self.written(), line, column)
        else:
            found = Spot(self.bare(), line, column)
        found.last = self.where()[0]
        return found

    def parts(self, closing, part):
        self.place += 1
        found = []
        if self.take(closing):
            return found
        while True:
            found.append(part())
            if self.take(closing):
                return found
            if not self.take(","):
                self.refuse(f"`,` or `{closing}` is due")

    def member(self, depth):
        self.skip()
        if not self.text.startswith('"', self.place):
            self.refuse("a text is due")
        self.written()
        if not self.take(":"):
            self.refuse("`:` is due")
        return self.value(depth)

    def bare(self):
        for word, value in WORDS.items():
            if self.text.startswith(word, self.place):
                self.place += len(word)
                return Other()
        found = NUMBER.match(self.text, self.place)
        if not found:
            self.refuse("a value is due" if self.place < len(self.text) else "the document ends too soon")
        if found[1] or found[2]:
            if float(found[0]) in (float("inf"), float("-inf")):
                self.refuse("a number too large")
            self.place = found.end()
            return Other()
        if len(found[0]) > 310:
            self.refuse("a number too large")
        self.place = found.end()
        return Other() if found[0] == "-0" else int(found[0])

    def written(self):
        """The text that begins here."""
        self.place += 1
        parts = []
        while True:
            found = PLAIN.match(self.text, self.place)
            parts.append(found[0])
            self.place = found.end()
            sign = self.text[self.place : self.place + 1]
            if sign == '"':
                self.place += 1
                return "".join(parts)
            if sign != "\\":
                self.refuse("a text that doesn't end" if not sign else "a control character in a text")
            parts.append(self.escaped())

    def escaped(self):
        sign = self.text[self.place + 1 : self.place + 2]
        if sign in ESCAPES and sign:
            self.place += 2
            return ESCAPES[sign]
        code = self.code()
        if 0xDC00 <= code < 0xE000:
            self.refuse("half a surrogate pair")
        if not 0xD800 <= code < 0xDC00:
            self.place += 6
            return chr(code)
        self.place += 6
        low = self.code() if self.text.startswith("\\u", self.place) else 0
        if not 0xDC00 <= low < 0xE000:
            self.refuse("half a surrogate pair")
        self.place += 6
        return chr(0x10000 + (code - 0xD800 << 10) + (low - 0xDC00))

    def code(self):
        digits = re.compile("\\\\u([0-9a-fA-F]{4})").match(self.text, self.place)
        if not digits:
            self.refuse("an escape that there is not")
        return int(digits[1], 16)


def document(data):
    """The document that these bytes are."""
    try:
        text = data.decode()
    except UnicodeDecodeError as error:
        before = data[: error.start].decode()
        raise Mistake("fault 41: bytes that are no UTF-8", before.count("\n") + 1, len(before) - before.rfind("\n")) from None
    reader = Reader(text)
    found = reader.value()
    reader.skip()
    if reader.place < len(text):
        reader.refuse("something comes after the document's end")
    return found


def refuse(spot):
    raise spot.mistake("the notation can't say this")


def parts_of(spot, *counts):
    """The parts of a list, of which there are as many as one of the counts says."""
    if not spot.is_list or counts and len(spot.value) not in counts:
        refuse(spot)
    return spot.value


def listed_after(spot, head):
    """The parts of the list in a document of version 1 with that head word."""
    word, version, found = parts_of(spot, 3)
    if word.value != head or version.value != 1:
        refuse(spot)
    return parts_of(found)


def item(kind, spot, count):
    """An item of a document with `count` parts, the first of which is its name."""
    first = parts_of(spot, count)[0]
    if not first.is_text:
        refuse(first)
    return Item(kind, [spot], spot.line, spot.last, first.value)


def source_of(setup):
    """The items of a setup document."""
    word, version, catalogue, procedures, rows, *rest = parts_of(setup, 5, 6, 7)
    head, told, tables = parts_of(catalogue, 3)
    if (word.value, head.value) != ("setup", "catalogue"):
        refuse(setup)
    items = [item(TABLE, it, 3) for it in parts_of(tables)]
    if told.value != (2 if any(it.spots[0].value[1].is_list for it in items) else 1):
        items.insert(0, Item(CATALOGUE, [told], 1, 1))
    if rest or version.value != 1:
        items.insert(0, Item(HEADER, [version, *rest], 1, 1))
    items += [item(PROCEDURE, it, 4) for it in listed_after(procedures, "procs")]
    for it in listed_after(rows, "rows"):
        found = item(ROWS, it, 3)
        if items and items[-1].kind == ROWS and items[-1].name == found.name:
            items[-1].spots.append(it)
        else:
            items.append(found)
    return Source(items)
