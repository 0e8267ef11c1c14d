"""Lines of a log, from calls as people write them."""
import json

from grammar import Parser
from spots import Mistake, at_path
from words import NAME, QUOTED


class CallFault(Exception):
    """What is wrong with a call."""


def line_of_call(setup, call):
    """The line of a log for a call of a procedure of the setup, as `pay(1, 2, 30)`, or for `cut`."""
    try:
        parser = Parser(call)
        parser.skip_lines()
        if parser.word.kind not in (NAME, QUOTED):
            parser.refuse("a procedure's name")
        name = parser.next().text
        if name == "cut" and parser.word.kind not in ("sign",):
            parser.skip_lines()
            line = ["cut"]
        else:
            parser.expect("(")
            line = ["call", name, [it.value for it in parser.separated(")", parser.value)]]
            parser.skip_lines()
        if parser.word.kind != "end of the file":
            parser.refuse("the end of the call")
    except Mistake as mistake:
        what = mistake.message.replace("the end of the file", "the end of the call")
        raise CallFault(f"`{call}`, character {mistake.column}: {what}") from None
    if line[0] == "call":
        refuse_unfit(setup, call, name, line[2])
    return json.dumps(line, ensure_ascii=False, separators=(",", ":")) + "\n"


def refuse_unfit(setup, call, name, values):
    """Refuses a call of no procedure, or with other values than the procedure's parameters want."""
    procedures = {it.value[0].value: it.value[1].value for it in at_path(setup, [3, 2]).value}
    if name not in procedures:
        raise CallFault(f"`{call}`: the setup has no procedure `{name}`")
    for value in values:
        if isinstance(value, str) and len(value.encode()) > 64:
            raise CallFault(f"`{call}`: a text of more than 64 bytes")
        if isinstance(value, int) and not -(2**63) <= value < 2**63:
            raise CallFault(f"`{call}`: a number outside -9223372036854775808 to 9223372036854775807")
    kinds = [it.value[1].value for it in procedures[name]]
    given = ["text" if isinstance(it, str) else "int" for it in values]
    if kinds != given:
        wanted = ", ".join(f"{it.value[0].value} {it.value[1].value}" for it in procedures[name])
        raise CallFault(f"`{call}`: `{name}` takes ({wanted})")
