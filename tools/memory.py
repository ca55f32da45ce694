"""Looks for values that could keep a `Memory`, the word that an allocation failed, and give it back in a later call.

    python3 tools/memory.py

A `Memory` is `Copy`, and its type carries the fact. So a contract `-> Result<_, Memory>` says that an allocation failed, and
not that it failed in this call: that holds because no value keeps one. This reads the sources of all crates. It passes the
errors of KEPT, which are on their way out, and fails at every other field of a struct, variant of an enum, `static`, `const`,
type alias or change of name that names `Memory`. The same of a type argument, but for the error of a `Result` and for `From`.
"""

from __future__ import annotations

import glob
import os
import re
import sys
from typing import Iterator, NamedTuple

TOP = os.path.dirname(os.path.dirname(os.path.abspath(__file__)))

# the variants that have a `Memory`, and why they may
KEPT = {
    "velo_check Failure::Memory": "an error on its way out: a command ends with it",
    "velo_runtime RunError::Memory": "an error on its way out: a program with threads ends with it",
}

OPEN = "([{<"
CLOSED = ")]}>"


class Place(NamedTuple):
    """A mention of `Memory`: what mentions it, and at which place of the text."""

    what: str
    at: int


def bare(text: str) -> str:
    """The text with blanks in the place of comments, texts and characters, as long as before."""

    def blank(found: re.Match[str]) -> str:
        return re.sub(r"[^\n]", " ", found.group())

    kinds = r'//[^\n]*|/\*.*?\*/|b?"(?:\\.|[^"\\])*"|b?\'(?:\\[^\']+|[^\'\\])\''
    return re.sub(kinds, blank, text, flags=re.DOTALL)


def names_memory(text: str) -> bool:
    """Whether a type is named; `Fate::Memory` and a path that goes on behind it are others."""
    return any(
        not re.search(r"\b[A-Z]\w*\s*::\s*$", text[: found.start()])
        for found in re.finditer(r"\bMemory\b(?!\s*::)", text)
    )


def end_of(text: str, start: int) -> int:
    """The place behind the bracket that closes the one at `start`, or the end of the text."""
    depth = 0
    for at in range(start, len(text)):
        is_arrow = text[at] == ">" and text[at - 1] in "-="
        if text[at] in OPEN:
            depth += 1
        elif text[at] in CLOSED and not is_arrow:
            depth -= 1
        if depth == 0:
            return at + 1
    return len(text)


def parts_of(text: str, start: int, end: int) -> Iterator[tuple[int, str]]:
    """What stands between commas, each with its place; commas inside brackets part nothing."""
    begin = at = start
    while at < end:
        if text[at] in "([{" or (text[at] == "<" and re.match(r"\w", text[at - 1])):
            at = end_of(text, at)
        elif text[at] == ",":
            yield begin, text[begin:at]
            at += 1
            begin = at
        else:
            at += 1
    yield begin, text[begin:end]


def members_of(text: str) -> Iterator[Place]:
    """The fields and variants that name `Memory`. Ghost members are no values."""
    for found in re.finditer(r"\b(struct|enum|union)\s+(\w+)[^;{(]*([{(])", text):
        kind, name = found[1], found[2]
        end = end_of(text, found.start(3)) - 1
        for at, part in parts_of(text, found.end(), end):
            member = re.sub(r"#\s*\[.*?\]", lambda it: " " * len(it.group()), part, flags=re.DOTALL)
            word = re.search(r"\b(?!pub\b|crate\b)\w+", member)
            if word is None or word.group() == "ghost":
                continue
            is_tuple = kind != "enum" and found[3] == "("
            held = member if is_tuple else member[word.end() :]
            if names_memory(held):
                where = "a field" if is_tuple else word.group()
                joint = "::" if kind == "enum" else "."
                yield Place(f"{name}{joint}{where}", at + word.start())


def items_of(text: str) -> Iterator[Place]:
    """The statics, constants, aliases and changes of name that name `Memory`."""
    for found in re.finditer(r"\b(static|const)\s+(?:mut\s+)?(\w+)\s*:([^=;]*)", text):
        if names_memory(found[3]):
            yield Place(f"{found[1]} {found[2]}", found.start())
    for found in re.finditer(r"\btype\s+(\w+)[^=;]*=([^;]*);", text):
        if names_memory(found[2]):
            yield Place(f"type {found[1]}", found.start())
    for found in re.finditer(r"\bMemory\s+as\s+(\w+)", text):
        yield Place(f"{found[1]}, a name in the place of Memory", found.start())


def arguments_of(text: str) -> Iterator[Place]:
    """The type arguments that are `Memory` or have one, but for the error of a `Result` and `From`."""
    for found in re.finditer(r"\b(\w+)\s*(?:::\s*)?<(?![<=\s])", text):
        start = found.end() - 1
        parts = list(parts_of(text, start + 1, end_of(text, start) - 1))
        if found[1] == "Result":
            parts = [part for part in parts if part[1].strip() != "Memory"]
        for at, part in parts:
            if found[1] != "From" and part.strip() == "Memory":
                yield Place(f"an argument of {found[1]}", at)


def places_in(crate: str, text: str) -> Iterator[tuple[str, int, bool]]:
    """Each mention in a file of a crate: what it is, on which line, and whether it may stand."""
    plain = bare(text)
    for find in (members_of, items_of, arguments_of):
        for place in find(plain):
            name = f"{crate} {place.what}"
            yield name, plain.count("\n", 0, place.at) + 1, name in KEPT


def main() -> int:
    """Tells of each mention that may not stand, and of each of KEPT that is gone."""
    passed, failed = 0, 0
    met: set[str] = set()
    for path in sorted(
        glob.glob(os.path.join(TOP, "crates", "*", "src", "**", "*.rt"), recursive=True)
    ):
        shown = os.path.relpath(path, TOP)
        with open(path, encoding="utf-8") as source:
            mentions = list(places_in(shown.split(os.sep)[1], source.read()))
        wrong = {line: name for name, line, may_stand in reversed(mentions) if not may_stand}
        for line, name in sorted(wrong.items()):
            print(f"{shown}:{line}: {name} keeps a Memory")
        met.update(name for name, _, may_stand in mentions if may_stand)
        failed += bool(wrong)
        passed += not wrong
    for name in sorted(KEPT.keys() - met):
        print(f"{name} is in the table, and in no source")
        failed += 1
    print(f"{passed} passed, {failed} failed")
    return 1 if failed or not passed else 0


if __name__ == "__main__":
    sys.exit(main())
