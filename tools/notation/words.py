"""The words of the notation: names, numbers, texts, signs, the ends of lines, and the comments between them."""
import json
import re
from collections import namedtuple

from spots import Mistake

Word = namedtuple("Word", "kind text line column")
Comment = namedtuple("Comment", "text line column is_alone")

NAME, NUMBER, TEXT, SIGN, LINE_END, END = "name", "number", "text", "sign", "end of line", "end of the file"
QUOTED = "name in backquotes"

# A name that is one of these is written in backquotes.
RESERVED = frozenset(
    "abort and database delete each else exists for if in insert let not or recon reply reads writes".split()
)

PATTERN = re.compile(
    r"""(?P<space>[ \t\r]+)
      | (?P<comment>\#[^\n]*)
      | (?P<newline>\n)
      | (?P<name>[A-Za-z_][A-Za-z0-9_]*)
      | (?P<quoted>`[^`\n]*`)
      | (?P<number>[0-9]+)
      | (?P<text>"(?:[^"\\\n]|\\.)*")
      | (?P<sign>\.\.|==|!=|<=|[-+*/%<=()\[\]{},:;.])""",
    re.VERBOSE,
)


# What is written in the notation in place of a character that it doesn't have.
IN_PLACE = {
    ">": "turn the operands and write `<`",
    "!": "write `not` or `!=`",
    "&": "write `and`",
    "|": "write `or`",
    "'": "texts are in double quotes",
    "\ufeff": "it is a byte order mark, at the begin of the file",
}


def meaningless(sign):
    shown = f"`{sign}`" if sign.isprintable() and sign != "`" else f"U+{ord(sign):04X}"
    return f"the character {shown} has no meaning here" + (f": {IN_PLACE[sign]}" if sign in IN_PLACE else "")


def number_of(text, line, column):
    if len(text) > 1 and text.startswith("0"):
        raise Mistake("a number doesn't begin with 0", line, column)
    if len(text) > 300:
        raise Mistake("a number of too many digits", line, column)
    return int(text)


def text_of(text, line, column):
    try:
        value = json.loads(text)
        value.encode()
    except ValueError:
        raise Mistake("a text is written as in JSON", line, column) from None
    return value


def words_of(source):
    """The words of a source, the last of which is its end, and its comments."""
    words, comments, place, line, begin, depth = [], [], 0, 1, 0, 0
    while place < len(source):
        found, column = PATTERN.match(source, place), place - begin + 1
        if found is None:
            is_text = source[place] == '"'
            raise Mistake("a text that doesn't end on its line" if is_text else meaningless(source[place]), line, column)
        kind, text = found.lastgroup, found.group()
        if kind == "comment":
            is_alone = not source[begin:place].strip()
            comments.append(Comment(text.rstrip(), line, column, is_alone))
        elif kind == "newline":
            if depth == 0:
                words.append(Word(LINE_END, "", line, column))
            line, begin = line + 1, found.end()
        elif kind == "name":
            words.append(Word(NAME, text, line, column))
        elif kind == "quoted":
            words.append(Word(QUOTED, text[1:-1], line, column))
        elif kind == "number":
            words.append(Word(NUMBER, number_of(text, line, column), line, column))
        elif kind == "text":
            words.append(Word(TEXT, text_of(text, line, column), line, column))
        elif kind == "sign":
            words.append(Word(SIGN, text, line, column))
            # (lines end nothing within round and square brackets; a block has none of them open)
            depth = 0 if text in "{}" else max(0, depth + (text in "([") - (text in ")]"))
        place = found.end()
    words.append(Word(END, "", line, place - begin + 1))
    return words, comments
