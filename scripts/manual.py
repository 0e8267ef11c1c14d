#!/usr/bin/env python3
"""Writes the manual's page docs/calvin.1 and bash's completions docs/calvin.bash from the help of the program that is built:

    scripts/manual.py [--check] [PROGRAM]      PROGRAM is crates/cli/out/cli where none is named

With --check nothing is written; it ends with status 1 where one of the two files is not what it would write.
"""
import re
import subprocess
import sys
from dataclasses import dataclass
from pathlib import Path

TOP = Path(__file__).resolve().parent.parent
ITEM = re.compile(r"^ {2,6}(?:(-\w), )?(\S.*?) {2,}(\S.*)$")


@dataclass
class Help:
    """What the help of a command says: each section's lines, by its heading."""

    about: str
    usage: str
    sections: dict

    def items(self, heading):
        """The items of a section: a short name or none, the name, and what is said of it."""
        return [ITEM.match(line).groups() for line in self.sections.get(heading, []) if ITEM.match(line)]


def help_of(program, *words):
    text = subprocess.run([program, *words, "--help"], capture_output=True, text=True, check=False).stderr
    about, _, rest = text.partition("\n")
    sections, heading = {}, ""
    for line in rest.splitlines():
        found = re.match(r"^([A-Z][a-z ]+):(?: (.*))?$", line)
        if found:
            heading = found[1]
            sections[heading] = [found[2]] if found[2] else []
        elif heading:
            sections[heading].append(line)
    return Help(about, sections["Usage"][0], sections)


def roff(text):
    """A text as roff prints it."""
    text = text.replace("\\", "\\e").replace("-", "\\-")
    return "\\&" + text if text.startswith((".", "'")) else text


def tagged(items):
    for short, name, said in items:
        yield ".TP"
        yield f".B {roff(f'{short}, {name}' if short else name)}"
        yield roff(said)


def example(lines):
    while lines and not lines[-1]:
        lines = lines[:-1]
    return [".PP", ".nf", *map(roff, lines), ".fi"]


def manual(top, commands):
    yield ".TH CALVIN 1"
    yield ".SH NAME"
    yield f"calvin \\- {roff(top.about[0].lower() + top.about[1:])}"
    yield ".SH SYNOPSIS"
    for number, shown in enumerate(commands.values()):
        if number:
            yield ".br"
        yield f".B {roff(shown.usage)}"
    yield ".SH COMMANDS"
    for name, shown in commands.items():
        yield f".SS {name}"
        yield roff(shown.about) + "."
        yield from tagged(shown.items("Arguments"))
        yield from tagged(shown.items("Options"))
        yield from example(shown.sections.get("Example") or shown.sections.get("Examples", []))
    yield ".SH EXIT STATUS"
    for line in top.sections["Exit status"]:
        if line.strip():
            status, said = line.split(maxsplit=1)
            yield from (".TP", f".B {status}", roff(said))
    yield ".SH SEE ALSO"
    yield "docs/language.md has all rules of setups, logs and reports, docs/faults.md all faults."


def completions(top, commands):
    names = " ".join(commands)
    general = " ".join(name for item in top.items("Options") for name in item[:2] if name)
    yield "# Completions of calvin for bash, made by scripts/manual.py from the program's help."
    yield "_calvin() {"
    yield '    local word=${COMP_WORDS[COMP_CWORD]} options='
    yield "    case ${COMP_WORDS[1]-} in"
    for name, shown in commands.items():
        options = " ".join(word for short, long, _ in shown.items("Options") for word in (short, long.split()[0]) if word)
        yield f"        {name}) options='{options}' ;;"
    yield "    esac"
    yield "    if ((COMP_CWORD == 1)); then"
    yield f"        mapfile -t COMPREPLY < <(compgen -W '{names} help {general}' -- \"$word\")"
    yield "    elif [[ $word == -* ]]; then"
    yield "        mapfile -t COMPREPLY < <(compgen -W \"$options\" -- \"$word\")"
    yield "    else"
    yield "        mapfile -t COMPREPLY < <(compgen -f -- \"$word\")"
    yield "    fi"
    yield "}"
    yield "complete -o filenames -F _calvin calvin"


def main(*words):
    checks = "--check" in words
    program = next((word for word in words if word != "--check"), TOP / "crates/cli/out/cli")
    top = help_of(program)
    commands = {name: help_of(program, name) for _, name, _ in top.items("Commands") if name != "help"}
    status = 0
    for page, lines in ("calvin.1", manual(top, commands)), ("calvin.bash", completions(top, commands)):
        text, file = "\n".join(lines) + "\n", TOP / "docs" / page
        if not checks:
            file.write_text(text)
        elif not file.exists() or file.read_text() != text:
            print(f"docs/{page} is not what scripts/manual.py writes")
            status = 1
    return status


if __name__ == "__main__":
    sys.exit(main(*sys.argv[1:]))
