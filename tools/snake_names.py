#!/usr/bin/env python3
"""Gives this repository's own definitions and lemmas the spelling of today's Rattle: snake case for words, camel case for facts.

usage: snake_names.py

Run once, at the top of the repository, right after /opt/rattle/port/port.py. It reads which names the .antt files declare, and rewrites
them in .antt and .rt files (not in strings; in comments only where the old name is no English word), in must-fail edits, and in
backticks in README.md and docs/. Two names that would fall together are told apart by CHOSEN, or else the one with a dash gets `_lem`.
"""

import collections
import os
import re
from collections.abc import Iterator

# Names whose snake form is taken or would fall together with another of ours. A row that is the rule's own answer keeps that name from `_lem`.
CHOSEN: dict[str, str] = {
    "afterRun": "after_one_run",
    "freePart": "free_part_of",
    "goOn": "go_on_with",
    "goesOn": "goes_on_at",
    "lineTaken": "line_taken_by",
    "noPlace": "no_place_at",
    "oneMore": "one_more_of",
    "byTable": "by_the_table",
    "by-rules": "through_rules",
    "by-table": "through_table",
    "noJournal": "no_journal_of",
    "after-set": "after_setting",
    "after-raise": "after_raising",
    "after-back": "after_going_back",
    "labelInside": "LabelInside",
    "bit-or": "bit_or_lem",
    "by-kind": "by_kind_lem",
    "in-range": "stays_in_range",
    "put-back": "put_back_lem",
    "unit-of": "unit_of_lem",
    "word-at": "word_at_lem",
    "getD-within": "get_or_within",
    "host-step": "host_step",
    "aRegister": "one_register",
    "a-register": "a_register",
    "no-journal": "no_journal",
    "zero-divisor": "by_zero_divisor",
    "by-control": "through_control",
    "data-part": "the_data_part",
    "program-part": "the_program_part",
}
DECLARED = re.compile(r"(?m)^(\s*)((?:pub|abbrev|unfoldable|record|data|opaque) )*([^\s(){}\[\]:.,;@\"]+)((?: [^\s(){}\[\]:.,;@\"→=]+)*) :(?= |$)([^\n]*)")
TYPES = re.compile(r"(?m)^\s*(?:pub )?(?:record|data) ([^\s(){}]+)")
TOKEN = re.compile(r"\"(?:[^\"\\\n]|\\.)*\"|[^\s(){}\[\].,;@\"«»]+")


def files(*endings: str) -> Iterator[str]:
    """The files of the crates with one of these endings, in order."""
    for folder, dirs, names in os.walk("crates"):
        dirs[:] = sorted(d for d in dirs if d != "out")
        for name in sorted(names):
            if name.endswith(endings):
                yield os.path.join(folder, name)


def read(path: str) -> str:
    """The text of a file."""
    with open(path, encoding="utf-8") as f:
        return f.read()


def snake(name: str) -> str:
    """camelCase to snake_case; a run of capitals that ends a part is one word."""
    name = re.sub(r"(?<=[a-z0-9])([A-Z]+)(?=$|[-_'0-9])", lambda m: "_" + m[1].lower(), name)
    return re.sub(r"(?<=[a-z0-9])([A-Z])", lambda m: "_" + m[1].lower(), name)


def names() -> dict[str, str]:
    """What each name that the .antt files declare, and that is not spelled so yet, is called."""
    declared: set[str] = set()
    types: set[str] = set()
    for path in files(".antt"):
        text = read(path)
        types |= set(TYPES.findall(text))
        for m in DECLARED.finditer(text):
            if not re.match(r"\s*(tie\.)?Need-", m[5]):
                declared |= {m[3], *m[4].split()}
    new: dict[str, str] = {}
    for name in declared - types:
        if not re.match(r"[a-z]", name) or name.endswith(("-Inv-loop",)):
            continue
        to = snake(name) if re.search("[a-z0-9][A-Z]", name) else name
        if all(re.fullmatch(r"[a-z0-9_']+", part) for part in to.split("-")):
            to = to.replace("-", "_")
        if to != name:
            new[name] = to
    together = collections.Counter(list(new.values()))
    for name, to in list(new.items()):
        if name in CHOSEN:
            new[name] = CHOSEN[name]
        elif "-" in name and together[to] > 1:
            new[name] = to + "_lem"
    return new


def main() -> None:
    """Rewrites the files."""
    new = names()
    camel = {a: b for a, b in new.items() if re.search("[a-z0-9][A-Z]", a) and "-" not in a}

    def word(m: re.Match[str]) -> str:
        return new.get(m[0], m[0])

    def comment(text: str) -> str:
        text = re.sub(r"(?<![\w-])[a-z]\w*[A-Z]\w*(?![\w-])", lambda m: camel.get(m[0], m[0]), text)
        return re.sub(r"`([^`\s]+)`", lambda m: "`" + TOKEN.sub(word, m[1]) + "`", text)

    def line(text: str, mark: str) -> str:
        at = re.search(r"(^|\s)--(\s|$)" if mark == "--" else r"//", text)
        cut = at.start() if at else len(text)
        return TOKEN.sub(word, text[:cut]) + comment(text[cut:])

    for path in files(".antt", ".rt", ".edit"):
        text = read(path)
        mark = "--" if path.endswith(".antt") else "//"
        if path.endswith(".edit"):
            antt = re.search(r"(?m)^file:.*\.antt\s*$", text)
            rows = [(line(r, "--" if antt else "//") if r.startswith(("old:", "new:")) else comment(r)) for r in text.split("\n")]
        else:
            rows = [line(r, mark) for r in text.split("\n")]
        turned = "\n".join(rows)
        if turned != text:
            with open(path, "w", encoding="utf-8") as f:
                f.write(turned)
    for path in ["README.md"] + [os.path.join(d, n) for d, _, ns in os.walk("docs") for n in ns if n.endswith(".md")]:
        text = read(path)
        turned = re.sub(r"`([^`\n]+)`", lambda m: "`" + TOKEN.sub(word, m[1]) + "`", text)
        if turned != text:
            with open(path, "w", encoding="utf-8") as f:
                f.write(turned)
    print(len(new), "names have today's spelling")


if __name__ == "__main__":
    main()
