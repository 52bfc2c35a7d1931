#!/usr/bin/env python3
"""Reads README.md and docs/*.md. It fails (status 1) where they name what does not exist, and where a rewritten page is over its budget
of words or has a banned phrase. CHANGES.md is left out, since it may name what is gone.

What is looked for, by the form in which a page names it:
- `name` of `crate`, `name` in `crate`: a word or a file of crates/CRATE or plants/CRATE
- `crate::module::name`: each part, in that crate
- `some/path`, [text](some/path): a file or a folder, from the top, from crates/, from a crate or from the page; .rt and .antt may be missing
- `name`, `name.field`, `name(..)`: each part is a word of some file of the tree that is no document
- `page.md`, "Heading": the start of a heading, or of bold words at the start of a line, of that page
- in commands and blocks: a word that begins with ./, checks/, plants/, examples/, docs/, crates/ or .ci/ is a path

Passed over are placeholders (a part in capitals, as CRATE), names with `..` inside, what is in double quotes (a message of the toolchain),
and paths below out/ and build/, which a run makes. Shell lines that begin with ./isotope are listed for a later run, and not run here.
"""
import os
import re
import sys

TOP = os.path.dirname(os.path.dirname(os.path.abspath(__file__)))

# the most words of a page, whether it is there yet or not
BUDGETS = {
    "README.md": 1300,
    "docs/guide.md": 1550,
    "docs/script.md": 3900,
    "docs/image.md": 2400,
    "docs/stores.md": 2600,
    "docs/threads.md": 2350,
    "docs/library.md": 2400,
    "docs/sqlite.md": 600,
    "docs/promises.md": 4900,
    "docs/developing.md": 2400,
    "docs/toolchain-notes.md": 2500,
    "docs/DECISIONS.md": 3500,
}

# pages that have been rewritten: budget and banned phrases are failures there, and elsewhere only counted
REWRITTEN = ["README.md", "docs/guide.md", "docs/script.md", "docs/library.md", "docs/developing.md", "docs/toolchain-notes.md",
    "docs/DECISIONS.md", "docs/image.md", "docs/stores.md", "docs/threads.md", "docs/promises.md"]

# outside of code and of double quotes
BANNED = ["so many", "beside each other", "behind", "stands", "tells", "the same of", "does so"]

IDENTIFIER = r"[A-Za-z_][\w-]*"
NAME = re.compile(rf"^{IDENTIFIER}(?:(?:::|\.){IDENTIFIER})*(?:\([^()]*\))?$")
FILE = re.compile(r"^[\w-]+\.(?:md|rt|antt|sh|py|c|h|cases|script|replies|txt)$")
PATH = re.compile(r"^[\w./+-]*/[\w./+-]*$")
NUMBER_TYPE = re.compile(r"^[iuf]\d+$")
SPAN = re.compile(r"`([^`]+)`")
LINK = re.compile(r"\]\(([^)#\s]+)")
BLOCK = re.compile(r"^```.*?^```", re.S | re.M)
# a quote that is not part of a name; names are kept as group 1
QUOTED = re.compile(r'(`[^`]+`)|"[^"]{1,300}"')
HEADING = re.compile(r'(?:([\w/-]+\.md)`?\)?|\b(README)), "([^"]+)"')
WORD_OF_COMMAND = re.compile(r"(?<![\w./-])(?:\./|(?:crates|docs|checks|plants|examples|c|python|\.ci)/)[\w./-]+")
# a list of names, "of" or "in", and a list of crates
LIST = r"`[^`]+`(?:(?:, | and |, and )`[^`]+`)*"
PAIR = re.compile(rf"({LIST}),? (?:of|in) ({LIST})")


def files_of(folder):
    """The files below a folder, but for what a run has left there."""
    for here, folders, files in os.walk(os.path.join(TOP, folder)):
        folders[:] = [name for name in folders if name not in ("out", "__pycache__")]
        yield from (os.path.join(here, name) for name in files)


def words_of(paths):
    """The words of files and of their paths; of a word with dashes also its parts."""
    words = set()
    for path in paths:
        for part in os.path.relpath(path, TOP).split(os.sep):
            words.update([part, part.split(".")[0]])
        with open(path, encoding="utf-8", errors="ignore") as file:
            words.update(re.findall(IDENTIFIER, file.read()))
    return words.union(*(word.split("-") for word in words if "-" in word))


class Tree:
    """The words of the tree and of each crate."""

    def __init__(self):
        self.crates = {
            name: words_of([*files_of(f"crates/{name}"), *files_of(f"plants/{name}")])
            for name in os.listdir(os.path.join(TOP, "crates"))
        }
        others = [os.path.join(TOP, name) for name in ("crates.txt", "isotope", "HANDLES")]
        for folder in ("plants", "checks", "examples", "c", "python", ".ci"):
            others += files_of(folder)
        self.words = words_of(path for path in others if os.path.isfile(path)).union(*self.crates.values())

    def has_path(self, path, page):
        """Whether a path leads to something, or to what a run makes."""
        path = path.rstrip("/.")
        if {"out", "build"} & set(path.split("/")):
            return True
        bases = ["", os.path.dirname(page), "crates", *(f"crates/{crate}" for crate in self.crates)]
        return any(os.path.exists(os.path.join(TOP, base, path) + end) for base in bases for end in ("", ".rt", ".antt"))

    def lacks(self, span, page):
        """What of a name does not exist, or None."""
        if ".." in span.replace("(..)", "") or re.search(r"\b[A-Z]{2,}\b", span) or span.startswith("_"):
            return None
        if PATH.match(span):
            return None if self.has_path(span, page) else span
        if FILE.match(span):
            return None if span in self.words or self.has_path(span, page) else span
        if not NAME.match(span):
            return next((path for path in WORD_OF_COMMAND.findall(span) if not self.has_path(path, page)), None)
        parts = re.split(r"::|\.", span.split("(")[0])
        words = self.crates.get(parts[0], self.words) if "::" in span else self.words
        return next((part for part in parts if part not in words and not NUMBER_TYPE.match(part)), None)

    def lacks_in(self, name, crate):
        """Whether a name is none of a crate of the tree. One that begins with a crate is looked for there instead."""
        if name.split("::")[0] in self.crates:
            return False
        last = re.split(r"::|/", name.split("(")[0])[-1]
        last = last if FILE.match(last) else last.split(".")[-1]
        is_name = FILE.match(last) or re.match(rf"^{IDENTIFIER}$", last)
        return bool(is_name) and crate in self.crates and last not in self.crates[crate]


def has_heading(page, heading):
    """Whether a page has a heading, or bold words at the start of a line, that begin so."""
    for path in (os.path.join(TOP, page), os.path.join(TOP, "docs", page)):
        if os.path.isfile(path):
            with open(path, encoding="utf-8") as file:
                return re.search(rf"^(?:#+ |(?:- )?\*\*){re.escape(heading)}", file.read(), re.M) is not None
    return False


def blank(found):
    """Only the line ends of what was found, so that lines keep their numbers."""
    return "\n" * found[0].count("\n")


def missing(tree, page, whole):
    """Places in the text of a page and the name there that does not exist."""
    text = BLOCK.sub(blank, whole)
    for found in HEADING.finditer(re.sub(r"\s", " ", text)):
        cited = found[1] or "README.md"
        if not has_heading(cited, found[3]):
            yield text.count("\n", 0, found.start()), f'{cited}, "{found[3]}"'
    for block in BLOCK.finditer(whole):
        for path in WORD_OF_COMMAND.finditer(block[0]):
            if not tree.has_path(path[0], page):
                yield whole.count("\n", 0, block.start() + path.start()), path[0]
    text = QUOTED.sub(lambda found: found[1] or blank(found), text)
    for found in SPAN.finditer(text):
        lacking = tree.lacks(" ".join(found[1].split()), page)
        if lacking:
            yield text.count("\n", 0, found.start()), lacking
    for found in LINK.finditer(text):
        if "://" not in found[1] and not tree.has_path(found[1], page):
            yield text.count("\n", 0, found.start()), found[1]
    for found in PAIR.finditer(re.sub(r"\s", " ", text)):
        for crate in SPAN.findall(found[2]):
            for name in SPAN.findall(found[1]):
                if tree.lacks_in(name, crate):
                    yield text.count("\n", 0, found.start()), f"{name} of {crate}"


def counts(page, whole):
    """Prints the words of a page and its banned phrases, and gives what fails of them."""
    words, budget = len(whole.split()), BUDGETS.get(page)
    prose = " ".join(QUOTED.sub("", BLOCK.sub("", whole)).lower().split())
    banned = {phrase: len(re.findall(rf"\b{phrase}\b", prose)) for phrase in BANNED}
    banned = {phrase: count for phrase, count in banned.items() if count}
    print(f"{page}: {words} words" + (f" of {budget}" if budget else "") + "".join(f", {phrase!r} {count}" for phrase, count in banned.items()))
    if page not in REWRITTEN:
        return []
    over = [f"{page}: {words} words, {words - budget} over its budget"] if budget and words > budget else []
    return over + [f"{page}: {phrase!r} {count} times" for phrase, count in banned.items()]


def main():
    """Looks at each page, and says what fails."""
    tree = Tree()
    pages = ["README.md"] + sorted(f"docs/{name}" for name in os.listdir(os.path.join(TOP, "docs")) if name.endswith(".md"))
    failures = [f"{page} is listed as rewritten, and is not there" for page in REWRITTEN if page not in pages]
    to_run = []
    for page in pages:
        with open(os.path.join(TOP, page), encoding="utf-8") as file:
            whole = file.read()
        failures += [f"{page}:{line + 1}: {name} does not exist" for line, name in missing(tree, page, whole)]
        failures += counts(page, whole)
        to_run += [f"{page}:{number}: {line}" for number, line in enumerate(whole.splitlines(), 1) if line.startswith("./isotope")]
    print("to run:", *to_run, sep="\n  ")
    print(*failures, f"{len(failures)} failures", sep="\n")
    return 1 if failures else 0


if __name__ == "__main__":
    sys.exit(main())
