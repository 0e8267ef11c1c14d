#!/usr/bin/env python3
"""Checks the pages of the repository, its Markdown files beside those of `must-fail` folders, and words of comments:

    scripts/pages.py [--check]

- A page with a limit has at most as many words; what a script writes into it between two marks is not counted.
- No page has a word of the list below, in place of which there is a plain one. Nor has a comment of the code, of the
  definitions, of a script or of the header for C.
- A link to a file of the repository leads to one that is there, and its anchor to a heading or an anchor of that page.
- A file or folder that a code span names is there: from the top, the page's folder, `crates/` or a crate's folder, or
  anywhere by its name alone. So is each file that a command in a code block begins with. What a build leaves in `out/`
  or `target/` is passed over, and so is a name with a placeholder, as NAME, N or `*`.
- A name of code that a code span has, as `crate::item` or `Type::method`, is there: each of its parts is a word of that
  crate's sources, or of any source.

Without `--check` it also prints how many words each page with a limit has. A last line says what came of it. The status
is 1 where something is wrong.
"""
import os
import re
import sys
from functools import cached_property
from pathlib import Path

TOP = Path(__file__).resolve().parent.parent
LIMITS = {
    "README.md": 700,
    "CONTRIBUTING.md": 900,
    "docs/architecture.md": 2000,
    "docs/trust.md": 2500,
    "docs/definitions.md": 1500,
    "docs/DECISIONS.md": 3000,
    "docs/verification.md": 1500,
    "docs/embedding.md": 1500,
    "docs/replication.md": 1200,
    "docs/performance.md": 900,
}
# Each word that no page is to have, and what is written in its place.
WORDS = {
    r"behind": "after",
    r"stands?(?!-)": "is",
    r"so many": "n",
    r"hangs? on": "depends on",
    r"memory (?:is|was) refused": "allocation fails",
    r"shown? to nobody": "not copied",
}
# The files whose comments are looked at for these words, and what a comment is, by the end of a file's name.
SOURCES = re.compile(r"crates/[^/]+/(?:src|specs)/|(?:scripts|bindings|tools|bench|workloads|include)/")
COMMENTS = {
    ".rt": r"//.*",
    ".rs": r"//.*",
    ".antt": r"(?<!\S)--(?= |$).*",
    ".py": r"(?<!\S)# .*|^[ \t]*\"{3}[\s\S]*?\"{3}",
    ".sh": r"(?<!\S)# .*",
    ".c": r"//.*|/\*[\s\S]*?\*/",
    ".h": r"//.*|/\*[\s\S]*?\*/",
}
SOURCE_ENDS = (".rt", ".antt", ".rs", ".py", ".c", ".h")
MARKS = re.compile(r"^[ \t]*(?://[/!]?|--|#|/?\*+)", re.MULTILINE)

MADE = re.compile(r"<!-- (figures|definitions|crates) -->.*?<!-- end of \1 -->", re.DOTALL)
FENCE = re.compile(r"^(`{3,}).*?^\1`*$", re.DOTALL | re.MULTILINE)
SPAN = re.compile(r"(`+)(?!`)(.+?)(?<!`)\1(?!`)", re.DOTALL)
LINK = re.compile(r"\]\(([^()\s]+)\)")
HEADING = re.compile(r"^#+ +(.*?) *#*$", re.MULTILINE)
ANCHOR = re.compile(r"<a id=\"([^\"]+)\"")
ELSEWHERE = re.compile(r"[a-z][a-z+.-]*:")
KINDS = "md|py|sh|rt|rs|antt|c|h|calvin|json|log|report|svg|txt|toml|bash|1|edit"
FILE = re.compile(rf"(?:\./)?[\w.-]+(?:/[\w.-]+)*(?:/|\.(?:{KINDS}))")
CODE = re.compile(r"([A-Za-z_]\w*)((?:::[A-Za-z_]\w*)+)")
WORD = re.compile(r"[A-Za-z_]\w*")
PLACEHOLDER = re.compile(r"(?<![A-Za-z])(?:NAME|N|X|SET|FOLDER|PREFIX|PROGRAM|VERSION)(?![A-Za-z])|\.\.|[*<>{}$]")
PASSED_OVER = {"out", "target", ".git", "__pycache__"}


def without(pattern, text):
    """The text with blanks in the place of what the pattern finds, line for line."""
    return pattern.sub(lambda found: re.sub(r"[^\n]", " ", found[0]), text)


def comments(text, kind):
    """The text with blanks in the place of all but its comments, line for line; and of their marks and code spans."""
    kept, at = [], 0
    for it in re.finditer(COMMENTS[kind], text, re.MULTILINE):
        kept += [re.sub(r"[^\n]", " ", text[at : it.start()]), without(re.compile("`[^`\n]*`"), without(MARKS, it[0]))]
        at = it.end()
    return "".join(kept)


def line_of(text, place):
    return text.count("\n", 0, place) + 1


def count_words(text):
    """The words of a page, but for those that a script writes."""
    return len(MADE.sub(" ", text).split())


def anchors(text):
    """What a link to a page may name after `#`: its headings, as they are written in links, and its anchors."""
    found = set(ANCHOR.findall(text))
    for heading in HEADING.findall(without(FENCE, text)):
        heading = re.sub(r"\[([^\]]*)\]\([^)]*\)", r"\1", heading)
        name = re.sub(r"[^\w\- ]", "", heading.lower()).replace(" ", "-")
        again = 0
        while (name if not again else f"{name}-{again}") in found:
            again += 1
        found.add(name if not again else f"{name}-{again}")
    return found


class Repository:
    """The files below a folder, and what its pages say of them."""

    def __init__(self, top):
        self.top, self.words = Path(top), {}

    @cached_property
    def files(self):
        """The path of each file and folder from the top, but for what a build leaves."""
        found = set()
        for folder, below, names in os.walk(self.top):
            below[:] = sorted(set(below) - PASSED_OVER)
            here = os.path.relpath(folder, self.top)
            found |= {os.path.normpath(os.path.join(here, name)) for name in [*below, *names]}
        return found

    @cached_property
    def names(self):
        """The name of each file and folder, without the folders that it is in."""
        return {os.path.basename(path) for path in self.files}

    @cached_property
    def in_crates(self):
        """The path of each file and folder of a crate, from the crate's folder."""
        return {path.split("/", 2)[2] for path in self.files if path.startswith("crates/") and path.count("/") > 1}

    @cached_property
    def pages(self):
        """The text of each page, by its path."""
        paths = [it for it in self.files if it.endswith(".md") and "must-fail" not in it.split("/")]
        return {path: (self.top / path).read_text() for path in sorted(paths)}

    @cached_property
    def sources(self):
        """The comments of each source that has some, by its path."""
        paths = sorted(it for it in self.files if SOURCES.match(it) and Path(it).suffix in COMMENTS)
        return {path: comments((self.top / path).read_text(), Path(path).suffix) for path in paths}

    def is_there(self, page, name):
        """Whether a page may speak of a file or folder by this name."""
        path = os.path.normpath(name)
        if PASSED_OVER & set(path.split("/")):
            return True
        roots = ["", os.path.dirname(page), "crates"]
        if any(os.path.normpath(os.path.join(root, path)) in self.files for root in roots):
            return True
        return path in (self.names if "/" not in path else self.in_crates)

    def too_long(self, page, text):
        words = count_words(text)
        most = LIMITS.get(page, words)
        if words > most:
            yield f"{page}: {words:,} words, and it may have {most:,}"

    def listed_words(self, page, text):
        found = []
        for word, plain in WORDS.items():
            pattern = rf"\b{word}\b".replace(" ", r"\s+")
            for it in re.finditer(pattern, text, re.IGNORECASE):
                found.append((line_of(text, it.start()), " ".join(it[0].split()), plain))
        for line, word, plain in sorted(found):
            yield f"{page}:{line}: `{word}`, where `{plain}` is plainer"

    def dead_links(self, page, text):
        prose = without(SPAN, without(FENCE, text))
        for it in LINK.finditer(prose):
            path, _, anchor = it[1].partition("#")
            if ELSEWHERE.match(it[1]):
                continue
            target = os.path.normpath(os.path.join(os.path.dirname(page), path)) if path else page
            if target not in self.files:
                yield f"{page}:{line_of(text, it.start())}: a link to {it[1]}, which is not there"
            elif anchor and anchor not in anchors(self.pages.get(target, "")):
                yield f"{page}:{line_of(text, it.start())}: a link to {it[1]}, and that page has no such heading"

    def files_that_are_not_there(self, page, text):
        spans = [(it.start(), it[2].split()) for it in SPAN.finditer(without(FENCE, text))]
        for block in FENCE.finditer(text):
            for it in re.finditer(r"^.*$", block[0], re.MULTILINE):
                first = [word for word in it[0].split()[:1] if "/" in word and re.search("[a-z]$", word)]
                spans.append((block.start() + it.start(), first))
        for place, words in spans:
            for word in words:
                name = word.strip(",;:()")
                if FILE.fullmatch(name) and not PLACEHOLDER.search(name) and not self.is_there(page, name):
                    yield f"{page}:{line_of(text, place)}: `{name}` is not there"

    def words_of(self, start):
        """The words of the sources whose paths begin so."""
        if start not in self.words:
            files = [it for it in self.files if it.startswith(start) and it.endswith(SOURCE_ENDS)]
            self.words[start] = {word for it in files for word in WORD.findall((self.top / it).read_text())}
        return self.words[start]

    def names_that_are_not_there(self, page, text):
        for it in SPAN.finditer(without(FENCE, text)):
            for first, rest in CODE.findall(it[2]):
                is_crate = f"crates/{first}" in self.files
                words = self.words_of(f"crates/{first}/" if is_crate else "")
                wrong = [part for part in rest.split("::")[1:] if part not in words]
                if wrong and (is_crate or first in words):
                    yield f"{page}:{line_of(text, it.start())}: `{first}{rest}`: no source has the word `{wrong[0]}`"

    def findings(self):
        """What is wrong, page by page."""
        for page, text in self.pages.items():
            yield from self.too_long(page, text)
            yield from self.listed_words(page, without(LINK, without(SPAN, without(FENCE, text))))
            yield from self.dead_links(page, text)
            yield from self.files_that_are_not_there(page, text)
            yield from self.names_that_are_not_there(page, text)
        for path, text in self.sources.items():
            yield from self.listed_words(path, text)
        for page in sorted(LIMITS.keys() - self.pages.keys()):
            yield f"{page}: there is no such page"


def main(*words):
    if words not in [(), ("--check",)]:
        print("usage: scripts/pages.py [--check]", file=sys.stderr)
        return 2
    repository = Repository(TOP)
    if not words:
        for page in sorted(LIMITS.keys() & repository.pages.keys()):
            print(f"{page}: {count_words(repository.pages[page]):,} words of {LIMITS[page]:,}")
    found = list(repository.findings())
    for it in found:
        print(it)
    files = {it.partition(":")[0] for it in found}
    looked_at = f"{len(repository.pages)} pages and the comments of {len(repository.sources)} sources"
    if found:
        print(f"{len(found)} findings in {len(files)} files, of {looked_at}: each line above names one")
    else:
        print(f"{looked_at} are in order: no page is too long, and no link and no name is dead")
    return 1 if found else 0


if __name__ == "__main__":
    sys.exit(main(*sys.argv[1:]))
