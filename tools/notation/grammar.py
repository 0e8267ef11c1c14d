"""The parser: from a source in the notation to its items. docs/notation.md has the grammar."""
from spots import Mistake, Spot
from tree import CATALOGUE, DIGESTS, HEADER, PROCEDURE, ROWS, TABLE, Item, Source, listed
from words import END, LINE_END, NAME, NUMBER, QUOTED, RESERVED, SIGN, TEXT, words_of

# How deep brackets and blocks may be nested together. A setup may nest 24 of each.
DEEPEST = 120
OPERATORS = {"==": "=", "!=": "<>", "<": "<", "<=": "<="}
TYPES = ("int", "text")


# As many operators as may follow each other in one expression. An expression may be 24 deep.
LONGEST = 100
STATEMENTS = "`let`, `insert`, `delete`, `if`, `for`, `each`, `abort`, `reply` or `TABLE[KEY].COLUMN = ..`"


def shown(word):
    """A word as it is told of."""
    if word.kind in (LINE_END, END):
        return f"the {word.kind}"
    text = f'"{word.text}"' if word.kind == TEXT else str(word.text)
    return f"`{text if len(text) <= 40 else text[:40] + '..'}`"


class Parser:
    def __init__(self, source):
        self.words, self.comments = words_of(source)
        self.place = self.depth = 0
        self.blocks = []  # the lines on which blocks begin that aren't closed yet

    # ---- words

    @property
    def word(self):
        return self.words[self.place]

    def next(self):
        word = self.word
        self.place += word.kind != END
        return word

    def refuse(self, wanted):
        raise Mistake(f"{wanted} is due in place of {shown(self.word)}", self.word.line, self.word.column)

    def at(self, *texts):
        return self.word.kind in (NAME, SIGN) and self.word.text in texts

    def comes(self, *texts):
        """Whether the word after this one is one of these."""
        after = self.words[min(self.place + 1, len(self.words) - 1)]
        return after.kind in (NAME, SIGN) and after.text in texts

    def take(self, text):
        """Takes this word, where it is the next one, and says whether it did."""
        if self.at(text):
            self.place += 1
            return True
        return False

    def expect(self, text):
        word = self.word
        if not self.take(text):
            self.refuse(f"`{text}`")
        return word

    def skip_lines(self):
        while self.word.kind == LINE_END:
            self.place += 1

    def spot(self, value, word):
        return Spot(value, word.line, word.column)

    def name(self, what):
        word = self.word
        if word.kind == NAME and word.text in RESERVED:
            raise Mistake(f"`{word.text}` is a word of the notation: as {what} it is in backquotes", word.line, word.column)
        if word.kind not in (NAME, QUOTED):
            self.refuse(what)
        self.place += 1
        return self.spot(word.text, word)

    def number(self, what="a number"):
        sign = self.word if self.at("-") else None
        if sign:
            self.place += 1
        word = self.word
        if word.kind != NUMBER or sign and (word.line, word.column) != (sign.line, sign.column + 1):
            if sign and word.kind in (NAME, QUOTED):
                raise Mistake(f"a minus sign stands before digits: write `0 - {word.text}`", sign.line, sign.column)
            self.refuse(what)
        self.place += 1
        return self.spot(-word.text if sign else word.text, sign or word)

    def separated(self, closing, part):
        """Parts between commas, up to a closing sign, which is taken; lines may end around them."""
        parts = []
        self.skip_lines()
        while not self.take(closing):
            if parts:
                if not self.take(","):
                    self.refuse(f"`,` or `{closing}`")
                self.skip_lines()
            parts.append(part())
            self.skip_lines()
        return parts

    def deeper(self, part):
        if self.depth >= DEEPEST:
            raise Mistake("too many brackets or blocks within each other", self.word.line, self.word.column)
        self.depth += 1
        try:
            return part()
        finally:
            self.depth -= 1

    # ---- items

    def source(self):
        items = []
        self.skip_lines()
        while self.word.kind != END:
            items.append(self.item(items))
            if self.word.kind not in (LINE_END, END) and not self.at(";"):
                self.refuse("the end of the line")
            while self.word.kind == LINE_END or self.at(";"):
                self.place += 1
        return items

    def item(self, before):
        readers = {HEADER: self.header, CATALOGUE: self.catalogue, TABLE: self.table, PROCEDURE: self.procedure, ROWS: self.rows}
        begin = self.word
        if begin.kind != NAME or begin.text not in readers:
            self.refuse("`setup`, `catalogue`, `table`, `proc` or `rows`")
        if begin.text in (HEADER, CATALOGUE) and any(it.kind == begin.text for it in before):
            raise Mistake(f"`{begin.text}` stands here a second time", begin.line, begin.column)
        self.place += 1
        spots, name = readers[begin.text](begin)
        return Item(begin.text, spots, begin.line, self.words[self.place - 1].line, name)

    def header(self, _):
        """setup VERSION [retries N [digest rows | digest partitions]]"""
        spots = [self.number("the setup's version")]
        if self.take("retries"):
            spots.append(self.number("how often a stale call is tried again"))
            if self.take("digest"):
                if not self.at(*DIGESTS):
                    self.refuse("`rows` or `partitions`")
                spots.append(self.spot(self.word.text, self.next()))
        return spots, None

    def catalogue(self, _):
        return [self.number("the catalogue's version")], None

    def typed(self, what):
        name = self.name(what)
        if not self.at(*TYPES):
            self.refuse("`int` or `text`")
        return listed(name, self.spot(self.word.text, self.next()), at=name)

    def table(self, _):
        """table NAME (COLUMN TYPE, ..) [partitions N | bounds [N, ..]]"""
        name = self.name("a table's name")
        open_sign = self.expect("(")
        columns = self.spot(self.separated(")", lambda: self.typed("a column's name")), open_sign)
        split = Spot(1, name.line, name.column)
        if self.take("partitions"):
            split = self.number("how many partitions there are")
        elif self.at("bounds"):
            head = self.next()
            self.expect("[")
            split = listed("bounds", *self.separated("]", self.number), at=self.spot(None, head))
        return [listed(name, split, columns, at=name)], name.value

    def procedure(self, _):
        """proc NAME (PARAMETER TYPE, ..) [recon | reads ENTRY, .. writes ENTRY, ..] { .. }"""
        name = self.name("a procedure's name")
        open_sign = self.expect("(")
        parameters = self.spot(self.separated(")", lambda: self.typed("a parameter's name")), open_sign)
        footprint = self.footprint()
        self.skip_lines()
        body = self.block()
        return [listed(name, parameters, footprint, body, at=name)], name.value

    def footprint(self):
        begin = self.place
        self.skip_lines()
        head = self.word
        if self.take("recon"):
            return listed("recon", at=self.spot(None, head))
        entries = []
        while self.at("reads", "writes"):
            right = self.next()
            entries.append(self.entry(right))
            while self.take(","):
                self.skip_lines()
                if self.at("reads", "writes"):
                    raise Mistake(f"no comma is due before `{self.word.text}`", self.word.line, self.word.column)
                entries.append(self.entry(right))
            begin = self.place
            self.skip_lines()
        self.place = begin
        return listed("declared", *entries, at=self.spot(None, head))

    def entry(self, word):
        """What a right is for: database, TABLE, TABLE/PART, TABLE[KEY] or TABLE[LOW..HIGH]"""
        right, begin = self.spot(word.text[0], word), self.word
        if self.take("database"):
            return listed("db", right, at=self.spot(None, begin))
        table = self.name("`database` or a table's name")
        if self.take("/"):
            return listed("part", right, table, self.operand(), at=table)
        if not self.take("["):
            return listed("table", right, table, at=table)
        low = self.inside()
        if self.take(".."):
            self.skip_lines()
            high = self.inside()
            self.expect("]")
            return listed("rows", right, table, low, high, at=table)
        self.expect("]")
        return listed("row", right, table, low, at=table)

    def rows(self, _):
        """rows TABLE { KEY: VALUE, KEY: (VALUE, ..), .. }"""
        table, rows = self.name("a table's name"), []
        self.skip_lines()
        self.expect("{")
        self.skip_lines()
        while not self.take("}"):
            key = self.number("a row's key")
            self.expect(":")
            values = self.values()
            row = Spot([Spot(table.value, table.line, table.column), key, values], key.line, key.column)
            row.last = self.words[self.place - 1].line
            rows.append(row)
            if not self.at("}") and not self.at(",") and self.word.kind != LINE_END:
                self.refuse("`,` or `}`")
            while self.at(",") or self.word.kind == LINE_END:
                self.place += 1
        return rows, table.value

    def values(self):
        begin = self.word
        if self.take("("):
            return self.spot(self.separated(")", self.value), begin)
        return self.spot([self.value()], begin)

    def value(self):
        if self.word.kind == TEXT:
            word = self.next()
            return self.spot(word.text, word)
        return self.number("a number or a text")

    # ---- statements

    def block(self):
        return self.deeper(self.block_here)

    def block_here(self):
        begin, statements = self.expect("{"), []
        self.blocks.append(begin.line)
        while True:
            while self.word.kind == LINE_END or self.at(";"):
                self.place += 1
            if self.at("}"):
                block = self.spot(statements, begin)
                block.last = self.next().line
                self.blocks.pop()
                return block
            self.refuse_items()
            statement = self.statement()
            statement.last = self.words[self.place - 1].line
            statements.append(statement)
            if not self.at("}", ";") and self.word.kind != LINE_END:
                self.refuse("the end of the statement")

    def refuse_items(self):
        """Refuses an item, or the end of the file, where a block isn't closed."""
        after = self.words[min(self.place + 1, len(self.words) - 1)]
        is_item = self.at(TABLE, PROCEDURE, ROWS) and after.kind in (NAME, QUOTED)
        if is_item or self.word.kind == END:
            raise Mistake(f"the `{{` of line {self.blocks[-1]} isn't closed", self.word.line, self.word.column)

    def statement(self):
        readers = {
            "let": self.let, "insert": self.insert, "delete": self.delete, "if": self.choice, "for": self.loop,
            "each": self.each, "abort": self.abort, "reply": self.reply,
        }
        begin = self.word
        if begin.kind == NAME and begin.text in readers:
            self.place += 1
            return readers[begin.text](self.spot(begin.text, begin))
        if begin.kind not in (NAME, QUOTED):
            self.refuse("a statement")
        return self.put()

    def put(self):
        """TABLE[KEY].COLUMN = VALUE"""
        table = self.name("a statement")
        if self.at("="):
            raise table.mistake(f"a variable is given its value by `let {table.value} = ..`")
        if not self.at("["):
            raise table.mistake(f"a statement is {STATEMENTS}")
        key = self.key()
        self.expect(".")
        column = self.name("a column's name")
        self.expect("=")
        return listed("put", table, key, column, self.after_a_sign(), at=table)

    def let(self, head):
        """let NAME = VALUE, or let NAME = TABLE[KEY].COLUMN"""
        name = self.name("a variable's name")
        self.expect("=")
        self.skip_lines()
        if self.word.kind in (NAME, QUOTED) and self.comes("["):
            table = self.name("a table's name")
            key = self.key()
            self.expect(".")
            head.value = "get"
            return listed(head, name, table, key, self.name("a column's name"), at=head)
        return listed(head, name, self.expression(), at=head)

    def insert(self, head):
        """insert TABLE[KEY] (VALUE, ..)"""
        table = self.name("a table's name")
        key, begin = self.key(), self.expect("(")
        return listed(head, table, key, self.spot(self.separated(")", self.expression), begin), at=head)

    def delete(self, head):
        return listed(head, self.name("a table's name"), self.key(), at=head)

    def choice(self, head):
        """if CONDITION { .. } [else { .. } | else if ..]"""
        condition, first = self.expression(), self.block()
        before = self.place
        self.skip_lines()
        if not self.take("else"):
            self.place = before
            return listed(head, condition, first, Spot([], head.line, head.column), at=head)
        if self.at("if"):
            begin = self.next()
            second = self.deeper(lambda: self.choice(self.spot("if", begin)))
            second.last = self.words[self.place - 1].line
            return listed(head, condition, first, self.spot([second], begin), at=head)
        return listed(head, condition, first, self.block(), at=head)

    def loop(self, head):
        """for NAME in LOW..HIGH { .. }"""
        name = self.name("a variable's name")
        self.expect("in")
        low = self.expression()
        self.expect("..")
        return listed(head, name, low, self.expression(), self.block(), at=head)

    def each(self, head):
        """each NAME in TABLE/PART { .. }"""
        name = self.name("a variable's name")
        self.expect("in")
        table = self.partitioned()
        return listed(head, name, table, self.operand(), self.block(), at=head)

    def partitioned(self):
        """The table of TABLE/PART, and the sign after it."""
        table = self.name("a table's name")
        if not self.take("/"):
            self.refuse(f"a partition, as `{table.value}/0`,")
        return table

    def abort(self, head):
        return listed(head, self.number("an abort code"), at=head)

    def reply(self, head):
        values = []
        if self.word.kind not in (LINE_END, END) and not self.at("}", ";"):
            values.append(self.expression())
            while self.take(","):
                values.append(self.after_a_sign())
        return listed(head, *values, at=head)

    # ---- expressions

    def key(self):
        self.expect("[")
        key = self.inside()
        self.expect("]")
        return key

    def inside(self):
        """An expression within brackets, around which lines may end."""
        self.skip_lines()
        found = self.expression()
        self.skip_lines()
        return found

    def after_a_sign(self):
        self.skip_lines()
        return self.expression()

    def expression(self):
        return self.deeper(lambda: self.chained(("or",), lambda: self.chained(("and",), self.negation)))

    def chained(self, signs, part):
        found, many = part(), 0
        while self.at(*signs):
            sign, many = self.next(), many + 1
            if many > LONGEST:
                raise Mistake("too many operators in one expression", sign.line, sign.column)
            self.skip_lines()
            found = listed(self.spot(sign.text, sign), found, part(), at=found)
        return found

    def negation(self):
        head = self.word
        if self.take("not"):
            return listed(self.spot("not", head), self.deeper(self.negation), at=self.spot(None, head))
        return self.comparison()

    def comparison(self):
        found = self.total()
        if self.at(*OPERATORS):
            sign = self.next()
            self.skip_lines()
            found = listed(self.spot(OPERATORS[sign.text], sign), found, self.total(), at=found)
            if self.at(*OPERATORS):
                raise Mistake("a comparison of a comparison is in brackets", self.word.line, self.word.column)
        if self.at("="):
            raise Mistake("two values are compared by `==`", self.word.line, self.word.column)
        return found

    def total(self):
        return self.chained(("+", "-"), lambda: self.chained(("*", "/", "%"), self.operand))

    def operand(self):
        word = self.word
        if word.kind == NUMBER or self.at("-"):
            return self.number("a number, a text, a variable or a bracket")
        if word.kind == TEXT:
            self.place += 1
            return listed("text", self.spot(word.text, word), at=self.spot(None, word))
        if self.take("("):
            found = self.inside()
            self.expect(")")
            return found
        if self.at("exists", "count", "sum") and self.comes("("):
            return self.of_rows(self.next())
        if self.at("exists"):
            raise Mistake("`exists` has its row in round brackets, as `exists(acct[1])`", word.line, word.column)
        if word.kind not in (NAME, QUOTED) or word.kind == NAME and word.text in RESERVED:
            self.refuse("a number, a text, a variable or a bracket")
        found = self.name("a variable")
        if self.at("["):
            raise found.mistake("a row is read by `let NAME = TABLE[KEY].COLUMN` alone")
        return found

    def of_rows(self, head):
        """exists(TABLE[KEY]), count(TABLE/PART) or sum(TABLE/PART, COLUMN)"""
        begin = self.spot(head.text, head)
        self.expect("(")
        if head.text == "exists":
            parts = [self.name("a table's name"), self.key()]
        else:
            parts = [self.partitioned(), self.deeper(self.operand)]
        if head.text == "sum":
            self.expect(",")
            parts.append(self.name("a column's name"))
        self.expect(")")
        return listed(begin, *parts, at=begin)


def parsed(text):
    """The source that a text is."""
    parser = Parser(text)
    lines = text.split("\n")
    return Source(parser.source(), parser.comments, [at for at, line in enumerate(lines, 1) if not line.strip()])
