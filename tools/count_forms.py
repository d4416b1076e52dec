#!/usr/bin/env python3
"""Counts the places of docs/DESIGN-PASS.md in crates/*/src: forms of an older Rattle for which today's language has better ones.

usage: tools/count_forms.py [--list] [FOLDER]

FOLDER is a checkout (the current folder where none is named). With --list each place is printed, as FILE:LINE and what stands there.
The script goes by text: it finds what to look at, and a reader judges.
"""

import argparse
import collections
import pathlib
import re
import sys
from typing import Callable, Iterable, NamedTuple


class Place(NamedTuple):
    """Where something stands, and what."""

    file: str
    line: int
    text: str


class Function(NamedTuple):
    """A function: where it begins, its name, its head with the clauses, and its body."""

    file: str
    line: int
    name: str
    head: str
    body: str


Sources = dict[str, str]

FUNCTION = re.compile(r"^ *(?:pub )?(?:extern \"C\" )?fn (\w+)", re.M)
WORDS = re.compile(r"[A-Za-z_]\w*|\d\w*|b?'[^']*'|b?\"[^\"]*\"")
KEPT = {"fn", "let", "mut", "if", "else", "while", "for", "in", "match", "return", "loop", "pub", "self", "Self", "as", "true", "false", "result"}


def sources(top: pathlib.Path) -> Sources:
    """The text of each .rt file of crates/*/src, comments blanked."""
    found = {}
    for path in sorted(top.glob("crates/*/src/**/*.rt")):
        text = re.sub(r"//[^\n]*", "", path.read_text())
        found[str(path.relative_to(top))] = text
    return found


def lines(files: Sources, pattern: str) -> list[Place]:
    """The lines in which the pattern is found."""
    want = re.compile(pattern)
    return [
        Place(name, number, line.strip())
        for name, text in files.items()
        for number, line in enumerate(text.split("\n"), 1)
        if want.search(line)
    ]


def closing(text: str, at: int) -> int:
    """Where the bracket that opens at `at` closes."""
    depth = 0
    for i in range(at, len(text)):
        depth += text[i] == "{"
        depth -= text[i] == "}"
        if depth == 0:
            return i
    return len(text)


def functions(files: Sources) -> list[Function]:
    """Every function of the files. A body begins at a bracket that stands alone, or that ends the line of the name."""
    found = []
    for name, text in files.items():
        for start in FUNCTION.finditer(text):
            opening = re.compile(r"(?:^ *|(?<=[)>\w] ))\{$", re.M).search(text, start.start())
            if opening is None:
                continue
            body = opening.end() - 1
            line = text.count("\n", 0, start.start()) + 1
            found.append(Function(name, line, start[1], text[start.start():body], text[body:closing(text, body) + 1]))
    return found


def enums(files: Sources) -> list[Place]:
    """Enums of two variants of which one holds nothing or a refusal alone: the shape of Option and Result."""
    found = []
    for name, text in files.items():
        for start in re.finditer(r"^(?:pub )?enum (\w+)[^{]*\{", text, re.M):
            inside = text[start.end():closing(text, start.end() - 1)]
            variants = re.findall(r"^    (\w+)(.*)", inside, re.M)
            if len(variants) == 2 and any(rest == "," or "efus" in kind for kind, rest in variants) and any(rest != "," for _, rest in variants):
                found.append(Place(name, text.count("\n", 0, start.start()) + 1, f"enum {start[1]}"))
    return found


def twins(files: Sources) -> list[Place]:
    """Functions of the same crate or of two whose texts differ in names, types and numbers alone."""
    groups = collections.defaultdict(list)
    for f in functions(files):
        names: dict[str, str] = {}
        body = WORDS.sub(lambda w: w[0] if w[0] in KEPT else names.setdefault(w[0], f"#{len(names)}"), f.body)
        shape = re.sub(r"\s+", " ", body)
        if len(shape) > 60:
            groups[shape].append(f)
    return [
        Place(f.file, f.line, f"{f.name}, as {', '.join(g.name for g in group if g is not f)}")
        for group in groups.values() if len(group) > 1
        for f in group
    ]


def loops(files: Sources) -> list[Place]:
    """Loops that count an index: `while` over one, and `for` over a range whose body indexes by it."""
    found = lines(files, r"^ *while ")
    for name, text in files.items():
        for start in re.finditer(r"^ *for (\w+) in [\w:]+\.\.[^{]*\{", text, re.M):
            if re.search(rf"\[[^\]]*\b{start[1]}\b", text[start.end():closing(text, start.end() - 1)]):
                found.append(Place(name, text.count("\n", 0, start.start()) + 1, start[0].strip()))
    return found


def facts(files: Sources) -> list[Place]:
    """Facts that stand in the `requires` of three or more functions, once each."""
    at = collections.defaultdict(list)
    for f in functions(files):
        for clause in re.findall(r"requires \w* ?\{ (.*) \}", f.head):
            for part in clause.split(" × "):
                fact = re.sub(r"\b\w+\.(now|old)\b", r"_.\1", part.strip("() "))
                if fact:
                    at[fact].append(f)
    return [Place(fs[0].file, fs[0].line, f"{len(fs)} times: {fact}") for fact, fs in sorted(at.items()) if len(fs) >= 3]


def together(files: Sources) -> list[Place]:
    """Functions of eight parameters or more."""
    found = []
    for f in functions(files):
        count = len(re.findall(r"[(,]\s*(?:&mut |mut |&)?\w+(?:: )", f.head.split(" -> ")[0].split("requires")[0].split("ensures")[0]))
        if count >= 8:
            found.append(Place(f.file, f.line, f"{f.name}: {count} parameters"))
    return found


Finder = Callable[[Sources], Iterable[Place]]

POINTS: dict[str, Finder] = {
    "1 enums of the shape of Option or Result": enums,
    "1 flags or lengths with a value beside": lambda s: lines(s, r"^\s+(?:pub )?(?:known|there|locked|number|until|row|first|length|keeps|accepted): (?:bool|u8|u32|usize),"),
    "1 numbers for kinds and refusals": lambda s: lines(
        s, r"const (?:NO|MOVHI|WORD|BAD_\w+|NO_DAMAGE): |\b(?:stop|number|field|item|what|damage|change|choice|symbol|minus|refusal): (?:u8|u16|u64|usize)\b|"
        r"kind_number\(|kind_at\(|refusal::number\(|return 8;|=> 16,$"),
    "2 twins": twins,
    "3 loops over an index": loops,
    "4 copies field by field, conversions and comparisons by hand": lambda s: lines(
        s, r"^\s+(\w+): (?:self|state|ran|answer|request)\.\1,$|fn (?:lesser|least|above|one_less|wide|byte|word|equal|kind_number|kind_at|number|board_number|board_of|refusal_of)\(|"
        r"std::num::wrapping|= (?:ran|done|turned|loaded|saved|backed|fed|raised|usage|answer)\.\w+;$"),
    "5 facts in three contracts or more": facts,
    "5 functions of eight parameters or more": together,
    "6 buffers with a length beside, packed numbers": lambda s: lines(
        s, r"\.bytes\[\.\.|names: &\[usize\]|table: &mut \[usize\]|bytes: \[u8; CAPACITY\]|3 \* (?:first\.)?labels|rows: &\[u8\]|&\w+\[[^\]]*\.\.\w+\.count\]"),
    "7 a switch on which step to run": lambda s: lines(s, r"by_table: bool|if by_table|^\s+(?:by_table|true|false)(?:, .*)?,$|keeps: bool|if !?keeps"),
}


def main() -> int:
    """Prints the counts."""
    parser = argparse.ArgumentParser(description=__doc__, formatter_class=argparse.RawDescriptionHelpFormatter)
    parser.add_argument("folder", nargs="?", default=".", type=pathlib.Path)
    parser.add_argument("--list", action="store_true", help="print each place")
    options = parser.parse_args()
    files = sources(options.folder)
    if not files:
        print(f"no crates/*/src below {options.folder}", file=sys.stderr)
        return 1
    for point, find in POINTS.items():
        places = list(find(files))
        print(f"{len(places):5}  {point}")
        if options.list:
            for place in places:
                print(f"       {place.file}:{place.line}: {place.text}")
    answers = sum(len(re.findall(r"^pub \S+ : goal", p.read_text(), re.M)) for p in options.folder.glob("crates/*/proofs/**/Answers.antt"))
    print(f"{answers:5}  8 answers in proofs/*/Answers.antt")
    return 0


if __name__ == "__main__":
    sys.exit(main())
