"""The command `notation`: translates setups between JSON and the notation, lays them out, and tells where a fault is."""
import argparse
import os
import subprocess
import sys
import tempfile
from pathlib import Path

from calls import CallFault, line_of_call
from faults import MEANINGS, told
from formatter import laid_out
from json_reader import document, source_of
from json_writer import written
from kinds import told_of
from grammar import parsed
from places import place_of
from spots import Mistake
from tree import setup_of

TOP = Path(__file__).resolve().parent.parent.parent
BUILT = TOP / "crates/cli/out/cli"
OF_TYPE = 15


def is_json(path):
    return not str(path).endswith(".calvin")


def text_of(path):
    data = Path(path).read_bytes()
    try:
        return data.decode()
    except UnicodeDecodeError as error:
        before = data[: error.start].decode()
        raise Mistake("bytes that are no UTF-8", before.count("\n") + 1, len(before) - before.rfind("\n")) from None


def source_in(path):
    """The source in a file of either form."""
    return source_of(document(Path(path).read_bytes())) if is_json(path) else parsed(text_of(path))


def setup_in(path):
    """The setup document in a file of either form."""
    return document(Path(path).read_bytes()) if is_json(path) else setup_of(parsed(text_of(path)))


def show(path, line, column, message):
    """Says where something is wrong, with the line of the file and a mark under the place."""
    print(f"{path}:{line}:{column}: {message}", file=sys.stderr)
    lines = Path(path).read_bytes().decode(errors="replace").split("\n")
    if line <= len(lines):
        text = lines[line - 1].rstrip("\r")
        first = max(0, column - 60)
        print("    " + text[first : first + 100], file=sys.stderr)
        space = "".join("\t" if it == "\t" else " " for it in text[first : column - 1])
        print("    " + space.ljust(column - 1 - first) + "^", file=sys.stderr)


def answer_of(program, path):
    """What the executor's `check` says of the setup at a path: its status and its two texts."""
    found = subprocess.run([program, "check", path], stdin=subprocess.DEVNULL, stdout=subprocess.PIPE, stderr=subprocess.PIPE)
    return found.returncode, found.stdout.decode(), found.stderr.decode(errors="replace")


def meaning_of(setup, fault, path):
    """What a fault says in words."""
    return (fault == OF_TYPE and told_of(setup, path)) or MEANINGS[fault]


def check(path, program):
    """Has the executor check a setup in either form, and says where its first fault is."""
    if is_json(path):
        status, out, err = answer_of(program, path)
        setup = setup_in(path) if status in (0, 1) else None
    else:
        setup = setup_in(path)
        with tempfile.TemporaryDirectory() as room:
            file = Path(room, "setup.json")
            file.write_text(written(setup), encoding="utf-8")
            status, out, err = answer_of(program, str(file))
    fault = told(err)
    if fault and setup:
        spot = place_of(setup, *fault)
        show(path, spot.line, spot.column, f"fault {fault[0]}: {meaning_of(setup, *fault)}")
    else:
        sys.stdout.write(out)
        sys.stderr.write(err)
    return status


def write(text):
    sys.stdout.buffer.write(text.encode())


def format_file(path, is_tried):
    """Lays out a file, or says with `--check` that it isn't laid out."""
    try:
        before = text_of(path)
        after = laid_out(parsed(before))
    except Mistake as mistake:
        show(path, mistake.line, mistake.column, mistake.message)
        return 1
    if before == after:
        return 0
    if is_tried:
        print(f"{path} is not laid out: `notation format {path}` does so", file=sys.stderr)
        return 1
    Path(path).write_bytes(after.encode())
    return 0


def words_of_command():
    reader = argparse.ArgumentParser(prog="notation", description="Setups in a notation that people write.")
    words = reader.add_subparsers(dest="word", required=True, metavar="WORD")
    one = words.add_parser("json", help="print the JSON of a setup in the notation")
    one.add_argument("file")
    one = words.add_parser("text", help="print the notation of a setup in JSON")
    one.add_argument("file")
    one = words.add_parser("format", help="lay out a setup in the notation, with its comments")
    one.add_argument("--check", action="store_true", help="change nothing; end with 1 where a file is not laid out")
    one.add_argument("file", nargs="+")
    one = words.add_parser("check", help="say where the first fault of a setup is")
    one.add_argument("--program", default=os.environ.get("CALVIN"), help="the executor (or by the environment's CALVIN)")
    one.add_argument("file")
    one = words.add_parser("call", help="print lines of a log for calls such as 'pay(1, 2, 30)', and for 'cut'")
    one.add_argument("file")
    one.add_argument("call", nargs="+")
    return reader


def run(words):
    if words.word == "json":
        write(written(setup_in(words.file)))
        return 0
    if words.word == "text":
        write(laid_out(source_in(words.file)))
        return 0
    if words.word == "check":
        if not words.program and not BUILT.exists():
            print("the program isn't built: `./calvin check` builds it, or --program names one", file=sys.stderr)
            return 1
        return check(words.file, words.program or str(BUILT))
    if words.word == "call":
        source = source_in(words.file)
        laid_out(source)  # refuses what is no setup
        lines = [line_of_call(setup_of(source), call) for call in words.call]
        write("".join(lines))
        return 0
    return max([format_file(file, words.check) for file in words.file])


def main():
    sys.setrecursionlimit(10_000)
    words = words_of_command().parse_args()
    path = words.file
    try:
        return run(words)
    except Mistake as mistake:
        show(path, mistake.line, mistake.column, mistake.message)
        return 1
    except CallFault as fault:
        print(fault, file=sys.stderr)
        return 1
    except OSError as error:
        print(f"cannot read {error.filename}", file=sys.stderr)
        return 4
