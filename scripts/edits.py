#!/usr/bin/env python3
"""Tries the edits that the prover must refuse, many in one check:

    scripts/edits.py together [CRATE ..]  those in crates/NAME/must-fail/together/, as a step of the gate
    scripts/edits.py more [CRATE ..]      those in crates/NAME/must-fail/more/, which it leaves out
    scripts/edits.py unedited [CRATE ..]  the functions that all of these change, as they are: each must be proved
    scripts/edits.py form                 says only which edits, of the gate and of the others, cannot be made

Those that are tried in one check change functions of their own each. An edit is refused where the check says of each
function that it changes that a goal of its own is open: at its line in the source, or in the file of its proof. Where
an edit changes a function that another's calls, the goals of that other are tried in a later check. What isn't refused
so is tried alone: then an open goal in one of the functions that it changes refuses it, and where it changes a
definition or a proof, any in the whole crate.

What a function calls is known to its proof by contracts alone. So the copy that is checked assumes of each function
that no edit changes that it meets its contract, in place of its proof, and the goals of those that are changed are all
that is tried. `unedited` makes that check without the edits: no function has an open goal then. All checks are made on
copies of the crate; nothing in the checkout changes. A check takes over what the checks of the same crate before it have
kept of what is still the same; the first one begins with nothing. What the crate depends on is built first where it
isn't. The crates are tried side by side, the last first: they have the dearest proofs. It ends with how many were
refused and how many not, and with status 1 where an edit isn't refused.
"""
import importlib.machinery
import importlib.util
import os
import re
import shutil
import subprocess
import sys
import tempfile
from concurrent.futures import ThreadPoolExecutor
from functools import cache, cached_property
from itertools import takewhile
from pathlib import Path

IMPL = re.compile(r"impl\b(.*)")
HEAD = re.compile(r"( *)(?:pub(?:\(\w+\))? )?(?:const )?(?:unsafe )?(?:extern \"C\" )?fn (\w+)")
TYPE = re.compile(r"^(?:pub(?:\(\w+\))? )?(?:struct|enum|union) (\w+)", re.MULTILINE)
CYCLE = re.compile(r"#\[cycle\((\w+)\)\]")
SAID = re.compile(r"^fn (\S+): ", re.MULTILINE)
OPEN = re.compile(r"^fn (\S+): no proof: expected answers in \S*/\w+/Answers", re.MULTILINE)
OPEN_AT = re.compile(r"^note: (src/\S+):(\d+):\d+: (?:it is not proved |`search` found no proof )", re.MULTILINE)
NOT_READ = re.compile(
    r"^(?:\./)?proofs/(\S+)/(?:Answers|Invariants|Proof)\.antt:\d+:\d+: error: "
    r"(?:`(?:(?:decreases|invariant)-(?=\w+[-`])|(?=\w+-))(\w+))?", re.MULTILINE
)
WAITING = re.compile(r"^fn (\S+): no proof: it calls ", re.MULTILINE)
VERDICT = re.compile(r"logic=not-proved|only=\d+ proved=\d+$")


# What checks keep for those of the same crate after them, in a folder for each crate.
KEPT = tempfile.TemporaryDirectory(prefix="edits-")


@cache
def toolchain():
    """The module that `rt` is, which has what `rt ci` tries an edit by."""
    page = subprocess.run(["rt", "doc"], check=True, capture_output=True, text=True).stdout
    loader = importlib.machinery.SourceFileLoader("rt", str(Path(page.strip()).parent / "bin" / "rt"))
    rt = importlib.util.module_from_spec(importlib.util.spec_from_loader("rt", loader))
    loader.exec_module(rt)
    # The sum of a crate's sources is asked for along each way down to it, of which there are thousands.
    rt.rtlib.Crate.stamp = cache(rt.rtlib.Crate.stamp)
    # The checks end with this process; that sets a signal's handler, which the main thread alone may.
    rt.rtlib.guarded()
    return rt


def owner_of(header):
    """What an `impl` is in the name of its functions: the type, the trait and what it is made from."""
    made_from = re.findall(r"From<(\w+)", header)
    while re.search("<[^<>]*>", header):
        header = re.sub("<[^<>]*>", "", header)
    name, _, kind = header.removesuffix("{").strip().rpartition(" for ")[::-1]
    return "".join(part.rpartition("::")[2] for part in [name, kind, *made_from])


def functions_of(file, text):
    """The first line, the last line and the name of each function of a file: its owner or its module, and itself."""
    functions, first, indent, owner = [], None, "", ""
    for number, line in enumerate(text.split("\n"), 1):
        header, head = IMPL.match(line), HEAD.match(line)
        if header:
            owner = owner_of(header[1])
        if head and (first is None or len(head[1]) <= len(indent)):
            first, indent, name = number, head[1], f"{owner if head[1] else Path(file).stem}::{head[2]}"
        elif first and line in (indent + "}", indent + "{}"):
            functions.append((first, number, name))
            first = None
    return functions


def attributes_of(text, first):
    """The lines with the attributes of the function that begins at this line of a text, the last first."""
    return list(takewhile(lambda line: line.lstrip().startswith("#["), reversed(text.split("\n")[: first - 1])))


def cycles_of(folder, texts):
    """The names that sources of a crate, with these texts, give to cycles of functions: a function that calls itself
    alone needs none."""
    files = [path.relative_to(folder) for path in Path(folder, "src").rglob("*.rt")]
    return {name for file in files for name in CYCLE.findall(texts.get(str(file)) or Path(folder, file).read_text())}


def named_in(output, said):
    """The functions of which a check says this; what it says of a closure it says of its function."""
    names = [re.sub(r"::fn::(\w+)::.*", r"::\1", name) for name in said.findall(output)]
    # (a function of the crate's root is named by the crate and itself)
    places = [["lib", *name.split("::")[1:]][-2:] for name in names]
    return {re.sub(r"\+[^:]*", "", "::".join(place)) for place in places}


def opened_in(folder, texts, output):
    """The functions of a crate with these texts of which a check says that a goal of their own is open: by its line in
    the source, by the file of the proof that doesn't prove it, or by the function's name."""
    found = named_in(output, OPEN)
    for file, line in OPEN_AT.findall(output):
        text = texts.get(file) or Path(folder, file).read_text()
        # What is said of a whole function is said where its attributes begin.
        for first, last, name in functions_of(file, text):
            if first - len(attributes_of(text, first)) <= int(line) <= last:
                found.add(name)
    cycles = cycles_of(folder, texts)
    for proof, goal in NOT_READ.findall(output):
        *_, owner, function = ["lib", *proof.split("/")]
        # Where a cycle has more than one function, a goal names its own.
        is_of_cycle = function.startswith("+") and function[1:] in cycles
        function = goal if goal and is_of_cycle else function.lstrip("+")
        found.add(f"{owner.partition('+')[0]}::{function}")
    return found


class Edit:
    """An edit of a crate: lines that take the place of others in files of `src/`, `specs/` or `proofs/`."""

    def __init__(self, path):
        self.path, self.changes = path, []
        self.crate = path.parents[2]
        file = old = None
        for line in path.read_text().split("\n"):
            word, _, text = line.partition(": ")
            if word == "file":
                file = text
            elif word == "old":
                old = text
            elif word == "new":
                self.changes.append((file, old, text))

    def __str__(self):
        return f"{self.crate.name}/{self.path.stem}"

    def made_on(self, texts):
        """The texts of the files with this edit, `None` where a file is missing or one of its old texts isn't there
        exactly once."""
        texts = dict(texts)
        for file, old, new in self.changes:
            if file not in texts and not (self.crate / file).is_file():
                return None
            text = texts.get(file) or (self.crate / file).read_text()
            if not old or text.count(old) != 1:
                return None
            texts[file] = text.replace(old, new)
        return texts if self.changes else None

    @cached_property
    def touched(self):
        """The names of the functions that it changes, and `None` among them where it changes something else, too."""
        found = set()
        for file, text in self.made_on({}).items():
            before = (self.crate / file).read_text()
            functions = functions_of(file, before)
            for number, (old, new) in enumerate(zip(before.split("\n"), text.split("\n")), 1):
                if old != new:
                    found.add(next((name for first, last, name in functions if first <= number <= last), None))
        return found

    def functions(self):
        """The names of the functions that it changes, where all that it changes is code, and `None` else."""
        is_code = all(file.startswith("src/") for file, _, _ in self.changes)
        return self.touched - {None} if is_code else None

    def is_apart(self):
        """Whether it changes functions alone, so that it can be tried beside others."""
        return bool(self.functions()) and None not in self.touched


# What takes the place of a proof that a check is to leave out: that the function meets its contract is assumed.
ASSUMED = """use Rattle.{crate}.proofs.{statement}.{{statement}}

axiom pub {function}_spec : {{M : Type 1}} → statement M
"""
PROOF_FILES = {"Answers.antt", "Invariants.antt", "Proof.antt"}


def modules_of(source):
    """The modules that lead to the items of a file, by its place in `src/`."""
    return () if source.parts in (("lib.rt",), ("main.rt",)) else source.with_suffix("").parts


def proofs_of(crate):
    """The folders that have the proofs of a crate's functions, as far as its text says where, each with the names of
    the functions that are proved there. A method is in the module of its type; a cycle of functions has a folder with a
    plus before its name."""
    src = Path(crate.folder, "src")
    sources = {path.relative_to(src): path.read_text() for path in src.rglob("*.rt")}
    homes = {name: source for source, text in sources.items() for name in TYPE.findall(text)}
    folders = {}
    for source, text in sources.items():
        lines = text.split("\n")
        for first, last, name in functions_of(source, text):
            owner, _, function = name.partition("::")
            is_method = lines[first - 1].startswith(" ")
            here = [it for it, home in homes.items() if home == source and owner.startswith(it)]
            cycle = CYCLE.search("\n".join(attributes_of(text, first)))
            may_recur = re.search(rf"\b{function}\(", "\n".join(lines[first:last]))
            if is_method and owner not in homes and not here or may_recur and not cycle:
                continue
            proof = f"+{cycle[1]}" if cycle else function
            modules = modules_of(homes.get(owner, source) if is_method else source)
            folders.setdefault(Path("proofs", *modules, *([owner] if is_method else []), proof), set()).add(function)
    return folders


def proofs_beside(crate, functions):
    """The folders of the proofs of all functions of a crate but these."""
    names = {name.rpartition("::")[2] for name in functions}
    folders = proofs_of(crate)
    for file in Path(crate.folder, "proofs").rglob("*.antt"):
        if file.name in PROOF_FILES:
            folders.setdefault(file.parent.relative_to(crate.folder), {file.parent.name.lstrip("+")})
    return [folder for folder, proved in folders.items() if not proved & names]


def checked(crate, texts, flags, left_out):
    """A check of a copy of the crate with these texts in place of its own, which assumes what the proofs in these
    folders show."""
    rt = toolchain()
    with tempfile.TemporaryDirectory(prefix="edit-") as room:
        for part in rt.rtlib.PARTS:
            if Path(crate.folder, part).is_dir():
                shutil.copytree(Path(crate.folder, part), Path(room, part))
        for folder in left_out:
            for name in PROOF_FILES:
                Path(room, folder, name).unlink(missing_ok=True)
            Path(room, folder).mkdir(parents=True, exist_ok=True)
            statement = ".".join(folder.parts[1:]) + ("" if folder.name.startswith("+") else ".Statement")
            proof = ASSUMED.format(crate=crate.name, statement=statement, function=folder.name)
            Path(room, folder, "Proof.antt").write_text(proof)
        for path, text in texts.items():
            Path(room, path).write_text(text)
        kept = ["--incremental", str(Path(KEPT.name, crate.name))]
        words = crate.words(["--jobs", "1", *kept, *flags], keeps=False)
        # (a static library is checked as any other, since what it links is as it was)
        kind = words.index("--crate-type") if "--crate-type" in words else len(words)
        words = [rt.rtlib.RATTLE, "check", *words[:kind], *words[kind + 2 :]]
        how = {"stdin": subprocess.DEVNULL, "stdout": subprocess.PIPE, "stderr": subprocess.STDOUT, "errors": "replace"}
        return subprocess.run([*rt.rtlib.guarded(), *words], cwd=room, **how)


def whole_names(crate, functions):
    """These names of functions as a check takes them: where the folder of a type's proofs names the type's parameters,
    they are in the names of its methods."""
    owners = {it.name.partition("+")[0]: it.name for it in Path(crate.folder, "proofs").rglob("[!+]*+*") if it.is_dir()}
    parts = [name.removeprefix("lib::").split("::") for name in sorted(functions)]
    return ["::".join([owners.get(owner, owner) for owner in it[:-1]] + it[-1:]) for it in parts]


def check_of(crate, texts, functions, leaves_out=True):
    """A check of the crate with these texts. Where functions are given, it is of these alone, if each name fits one
    function; and it assumes that the others meet their contracts, unless it is told not to leave their proofs out."""
    only = [word for name in whole_names(crate, functions or ()) for word in ("--only", name)]
    left_out = proofs_beside(crate, functions) if functions and leaves_out else ()
    ran = checked(crate, texts, only, left_out)
    return checked(crate, texts, [], left_out) if only and ran.returncode == 2 else ran


def check(crate, texts, functions, leaves_out=True):
    """Whether the prover refuses the crate with these texts, the functions with an open goal of their own, and those
    whose goals it leaves untried until all that they call is proved."""
    rt, ran = toolchain(), check_of(crate, texts, functions, leaves_out)
    lines = ran.stdout.rstrip("\n").split("\n")
    is_read = not any(rt.unread(line, texts) for line in lines) and not rt.rtlib.STALE.search(ran.stdout)
    is_refused = is_read and ran.returncode == 1 and bool(VERDICT.match(lines[-1]))
    return is_refused, opened_in(crate.folder, texts, ran.stdout), named_in(ran.stdout, WAITING)


def group_of(edits):
    """Edits that can be made together, each in functions of its own, and the texts with all of them."""
    group, texts, taken = [], {}, set()
    for edit in edits:
        made = edit.made_on(texts) if not edit.functions() & taken else None
        if made is not None:
            group, texts, taken = [*group, edit], made, taken | edit.functions()
    return group, texts


def functions_in(edits):
    return set().union(*(edit.functions() for edit in edits))


def refused_together(crate, edits):
    """Tries edits of a crate that change functions alone, many in one check, and gives those that are refused so. Where
    one changes a function that another's calls, the other's goals are tried in a later check, without it."""
    left, refused = edits, []
    while left:
        group, texts = group_of(left)
        is_refused, opened, waiting = check(crate, texts, functions_in(group))
        told = [edit for edit in group if is_refused and edit.functions() <= opened]
        refused += told
        left = [edit for edit in left if edit not in group or told and edit not in told and edit.functions() & waiting]
    return refused


def is_refused_alone(crate, edit):
    """Tries one edit: an open goal in one of the functions that it changes refuses it, and where it changes something
    else, any in the crate. Where the check that leaves out the proofs of others shows none, it is tried once more with
    them."""
    functions = edit.functions()
    for leaves_out in (True, False) if functions else (False,):
        is_refused, opened, _ = check(crate, edit.made_on({}), functions, leaves_out)
        if is_refused and (functions & opened if functions else opened):
            return True
    return False


def not_refused(crate, edits):
    """Tries the edits of a crate, and gives back those that aren't refused."""
    together, failed = refused_together(crate, [edit for edit in edits if edit.is_apart()]), []
    for edit in edits:
        alone = edit not in together and is_refused_alone(crate, edit)
        print(f"{edit}: {'refused' if edit in together else 'refused, alone' if alone else 'NOT REFUSED'}", flush=True)
        failed += [] if alone or edit in together else [edit]
    return failed


def not_sound(crate, edits):
    """Checks the functions that edits change without an edit, and gives back the edits of those that have an open
    goal."""
    in_functions = [edit for edit in edits if edit.functions()]
    said = check_of(crate, {}, functions_in(in_functions)).stdout if in_functions else ""
    sound = named_in(said, SAID) - opened_in(crate.folder, {}, said) - named_in(said, WAITING)
    failed = [edit for edit in in_functions if not edit.functions() <= sound]
    for edit in failed:
        print(f"{edit}: ITS FUNCTION IS NOT PROVED WITHOUT IT", flush=True)
    return failed


def keeping_nothing(attempt, crate, edits):
    """Tries the edits of a crate in a way, and lets go of what its checks have kept."""
    try:
        return attempt(crate, edits)
    finally:
        shutil.rmtree(Path(KEPT.name, crate.name), ignore_errors=True)


def crates_with(edits, names):
    """The crates that have such edits, each with what it depends on built, by their names."""
    crates = toolchain().rtlib.crates_below(os.getcwd())
    # `rt ci` leaves the libraries that it built, without the stamps of those that other commands build.
    built = [Path(crate.rlib) for crate in crates if crate.makes_rlib()]
    is_after_the_gate = all(it.exists() and not (it.parent / "stamp").exists() for it in built)
    having = {edit.crate.name for edit in edits}
    crates = {crate.name: crate for crate in crates if crate.name in having and (not names or crate.name in names)}
    if not is_after_the_gate:
        for library in dict.fromkeys(below for crate in crates.values() for below in crate.below()):
            if library.build_rlib(["--jobs", "1"], anew=False):
                sys.exit(f"{library.name} is not proved")
    return crates


def all_edits(pattern):
    return [Edit(path) for path in sorted(Path("crates").glob(pattern))]


def main(word, *names):
    patterns = {"together": "*/must-fail/together/*.md", "more": "*/must-fail/more/*.md"}
    edits = {kind: all_edits(pattern) for kind, pattern in patterns.items()}
    bad = [edit for kind in edits for edit in edits[kind] if edit.made_on({}) is None]
    for edit in bad:
        print(f"{edit}: cannot be made")
    if bad or word == "form":
        return 1 if bad else 0
    is_unedited = word == "unedited"
    tried = edits["together"] + edits["more"] if is_unedited else edits[word]
    attempt = not_sound if is_unedited else not_refused
    crates = crates_with(tried, names)
    of_crate = {name: [edit for edit in tried if edit.crate.name == name] for name in crates}
    with ThreadPoolExecutor(len(os.sched_getaffinity(0))) as pool:
        ended = pool.map(lambda name: keeping_nothing(attempt, crates[name], of_crate[name]), reversed(crates))
        failed = sum(map(len, ended))
    done = sum(map(len, of_crate.values())) - failed
    print(f"{done} edits {'of functions that are proved' if is_unedited else 'refused'}, {failed} not")
    return 1 if failed else 0


if __name__ == "__main__":
    if sys.argv[1:2] not in (["together"], ["more"], ["unedited"], ["form"]):
        sys.exit(__doc__)
    sys.exit(main(*sys.argv[1:]))
