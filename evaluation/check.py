#!/usr/bin/env python3
"""Makes the manifest of the programs' headers, compiles all, and sees each wrong result."""

from __future__ import annotations

import argparse
import json
import os
import re
import subprocess
import sys
import threading
from concurrent.futures import ThreadPoolExecutor
from typing import Dict, List, NamedTuple, Optional, Tuple

HERE = os.path.dirname(os.path.abspath(__file__))
PROGRAMS = os.path.join(HERE, "programs")
SCENE = os.path.join(HERE, "include", "scene.h")
OUT = os.path.join(HERE, "out")
KINDS = ("atomicity", "deadlock", "right")
FIELDS = ("kind", "source", "function", "variable")
FLAGS = [
    "-Wall",
    "-Wextra",
    "-Werror",
    "-pthread",
    "-O1",
    "-g",
    "-I",
    os.path.dirname(SCENE),
]
# the mistake shows, and a program that hangs ends soon
SHOWN = ("-DPROVOKE", "-DHANG_SECONDS=5")
DEADLOCK_STATUS = 97
WRONG_STATUS = 1
TRIES = 5
SECONDS = 60
JOBS = 2


class Program(NamedTuple):
    """A program, and what its header says. Lines count from 1, and are 0 in a right program."""

    name: str
    file: str
    kind: str
    source: str
    function: str
    variable: str
    first: int
    second: int


class Bad(Exception):
    """A header or a program is not as it has to be."""


def marked(lines: List[str], mark: str) -> int:
    """The number of the line that ends with the comment `mark`, 0 if there is none."""
    found = [number for number, text in enumerate(lines, 1) if text.endswith(f"// {mark}")]
    if len(found) > 1:
        raise Bad(f"two lines are marked {mark}")
    return found[0] if found else 0


def program(file: str) -> Program:
    """Reads the header of a program. Raises Bad."""
    with open(os.path.join(PROGRAMS, file), encoding="utf-8") as text:
        lines = text.read().splitlines()
    fields: Dict[str, str] = {}
    name = ""
    for line in lines[: lines.index(" */")]:
        match = re.match(r"(?:/\*| \*) (" + "|".join(FIELDS) + r"): (.+)", line)
        name = match.group(1) if match else name
        fields[name] = match.group(2) if match else f"{fields[name]} {line[len(' * ') :]}"
    if fields.get("kind") not in KINDS or not fields.get("source"):
        raise Bad(f"{file}: no kind or no source")
    first, second = marked(lines, "first"), marked(lines, "second")
    wrong = fields["kind"] != "right"
    if wrong != all((first, second, fields.get("function"), fields.get("variable"))):
        raise Bad(f"{file}: what is wrong is not said whole")
    return Program(
        os.path.splitext(file)[0],
        file,
        fields["kind"],
        fields["source"],
        fields.get("function", ""),
        fields.get("variable", ""),
        first,
        second,
    )


def programs() -> List[Program]:
    """All programs, by name. Raises Bad."""
    return [program(file) for file in sorted(os.listdir(PROGRAMS)) if file.endswith((".c", ".cpp"))]


def versions(of: Program) -> Tuple[str, ...]:
    """What a program is compiled as."""
    return ("repaired",) if of.kind == "right" else ("wrong", "repaired")


def compile_one(
    of: Program,
    version: str,
    folder: str,
    compilers: Optional[Dict[str, str]] = None,
    extra: Tuple[str, ...] = (),
) -> str:
    """Compiles one version into `folder`, and gives its path. Raises Bad."""
    name = os.path.splitext(of.file)[1]
    standard = "-std=c11" if name == ".c" else "-std=c++17"
    compiler = (compilers or {".c": "gcc", ".cpp": "g++"})[name]
    os.makedirs(folder, exist_ok=True)
    path = os.path.join(folder, f"{of.name}.{version}")
    beside = f"{path}.{threading.get_ident()}"
    words = [compiler, standard, *FLAGS, *extra]
    words += ["-DREPAIRED"] if version == "repaired" else []
    words += [os.path.join(PROGRAMS, of.file), "-o", beside]
    done = subprocess.run(words, stderr=subprocess.PIPE, text=True)
    if done.returncode:
        raise Bad(f"{of.name}, {version}: it does not compile\n{done.stderr}")
    os.replace(beside, path)
    return path


def wrong_status(of: Program) -> int:
    """The status of the wrong version where its mistake shows."""
    return DEADLOCK_STATUS if of.kind == "deadlock" else WRONG_STATUS


def tested(of: Program) -> str:
    """Compiles and runs the versions of a program with its delay. What is wrong in words, or ''."""
    try:
        for version in versions(of):
            path = compile_one(of, version, os.path.join(OUT, "check"), extra=SHOWN)
            seen: List[int] = []
            for _ in range(TRIES if version == "wrong" else 1):
                seen.append(
                    subprocess.run([path], stdout=subprocess.DEVNULL, timeout=SECONDS).returncode
                )
                if seen[-1] == wrong_status(of):
                    break
            expected = wrong_status(of) if version == "wrong" else 0
            if seen[-1] != expected:
                return f"{of.name}, {version}: status {seen}, and not {expected}"
    except (Bad, subprocess.TimeoutExpired) as reason:
        return str(reason)
    return ""


def write_manifest(of: List[Program]) -> None:
    """Writes what the headers say into one file."""
    with open(os.path.join(HERE, "manifest.json"), "w", encoding="utf-8") as file:
        json.dump([one._asdict() for one in of], file, indent=1)
        file.write("\n")


def main() -> int:
    """The command: status 0 if all is as it has to be."""
    asked = argparse.ArgumentParser(description=__doc__)
    asked.add_argument("names", nargs="*", help="only these programs")
    names = asked.parse_args().names
    try:
        all_of_them = programs()
    except Bad as reason:
        print(f"check.py: {reason}", file=sys.stderr)
        return 1
    write_manifest(all_of_them)
    chosen = [one for one in all_of_them if not names or one.name in names]
    with ThreadPoolExecutor(JOBS) as pool:
        wrong = [words for words in pool.map(tested, chosen) if words]
    for words in wrong:
        print(words)
    print(f"{len(chosen)} programs, {len(wrong)} not as they have to be")
    return 1 if wrong else 0


if __name__ == "__main__":
    sys.exit(main())
