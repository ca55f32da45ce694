"""The Java programs of the recorder's tests, and what Velodrome says of them: a part of the page."""

from __future__ import annotations

import json
import os
import re
import shutil
import subprocess
from typing import Any, Dict, Iterator, List, NamedTuple, Optional, Sequence, Tuple

import check
import tools
from tools import Asked

RECORDER = os.path.join(os.path.dirname(check.HERE), "recorder", "java")
AGENT = os.path.join(RECORDER, "out", "velodrome.jar")
TESTS = os.path.join(RECORDER, "tests")
MISTAKES = os.path.join(TESTS, "mistakes.json")
# what only calls the methods that are wrong, and is no block
CALLERS = os.path.join(TESTS, "callers.txt")
UNSTEERED = os.path.join(check.HERE, "include", "Turns.java")
FOLDER = os.path.join(check.OUT, "java")
FILE = os.path.join(check.OUT, "java.json")
REASONS = os.path.join(check.HERE, "shortfalls.json")
UNKNOWN = "the reason is not known"

# of a virtual machine that lives for a second
QUICK = ("-XX:TieredStopAtLevel=1", "-XX:+UseSerialGC")
# what a copy of a collection of the JDK needs
COPIED = ("--add-exports", "java.base/jdk.internal.util=ALL-UNNAMED")
ASM = ":".join(f"/usr/share/java/{name}.jar" for name in ("asm", "asm-tree", "asm-commons"))

# each column, and the options of velodrome-record
WAYS: Tuple[Tuple[str, Tuple[str, ...]], ...] = (
    (tools.NOISE_RUNS, ("-n", str(tools.RUNS), "--noise", str(tools.NOISE))),
    (tools.PREDICT, ()),
)
BROKEN, REPAIRED = "broken", "repaired"
# what a cell says of the sections of a report, the first that is there; of none, and of no report
LIKELY = "likely"
SECTIONS = ((LIKELY, "found"), ("by_design", "by design"), ("folded", "folded"))
NOTHING, NOT_RUN = "nothing", "-"

INTRODUCTION = """\
The [programs](../recorder/java/tests/programs) of the tests of the recorder for Java, with nothing \
that steers their threads. Two threads do each mistake once; all of a file run in one process. \
There is no column of another tool: ThreadSanitizer, helgrind and drd do not know Java, and no \
peer for it can be run here. *Found*: the method is a likely mistake, not first in the list but \
anywhere in it; *by design* and *folded* it is told, but less; with noise only what happened \
counts. *Repaired* is of both ways together. What only calls the methods was no block. A first run \
showed that one repair was none (`Lazy.get` read its value again outside of the lock): it was \
bettered, and all run anew (the first found 4 with noise, and 3)."""


class Mistake(NamedTuple):
    """A row of the tests' mistakes: its file, the methods that it may be told of, and its words."""

    program: str
    methods: List[str]
    mistake: str

    def name(self) -> str:
        """The class and the method."""
        return ".".join(re.split(r"[.$]", self.methods[0])[-2:])

    def is_of(self, function: str) -> bool:
        """Whether a finding of this function is about it."""
        return any(tools.is_function(function, method) for method in self.methods)


class Listed(NamedTuple):
    """A finding: where the report put it, and whether it happened in one of the runs."""

    function: str
    section: str
    seen: bool


class Recording(NamedTuple):
    """What was said of one file in one way, and the load then; or why nothing can be said."""

    program: str
    version: str
    column: str
    load: float
    findings: List[Listed]
    failed: str


def mistakes() -> List[Mistake]:
    """All rows."""
    with open(MISTAKES, encoding="utf-8") as file:
        return [Mistake(**one) for one in json.load(file)]


def missing() -> Optional[str]:
    """What cannot be done without."""
    if not shutil.which("javac"):
        return "a JDK (openjdk-17-jdk-headless)"
    return None if os.path.exists(AGENT) else "the recorder for Java (make -C recorder/java)"


# ---- what is run


def compiled() -> str:
    """The folder of the classes: the programs, and the JDK's collections in a copy. Raises Bad."""
    classes = os.path.join(FOLDER, "classes")
    sources = [os.path.join(TESTS, "programs", f"{name}.java") for name in programs(mistakes())]
    quick = [f"-J{option}" for option in QUICK]
    copier = os.path.join(TESTS, "copier", "Copier.java")
    for words in (
        ["java", *QUICK, "-cp", ASM, copier, classes],
        ["javac", *quick, "-g", "--release", "11", "-cp", classes, "-d", classes]
        + [UNSTEERED, *sources],
    ):
        done = subprocess.run(words, stderr=subprocess.PIPE, text=True)
        if done.returncode:
            raise check.Bad(f"java: it does not compile\n{done.stderr}")
    return classes


def programs(of: Sequence[Mistake]) -> List[str]:
    """Their files, in the order of the rows."""
    return list(dict.fromkeys(one.program for one in of))


def recorded(asked: Asked) -> Iterator[Recording]:
    """Each file in each version and way, once. Raises Bad."""
    shutil.rmtree(FOLDER, ignore_errors=True)
    classes = compiled()
    record = tools.prepare(asked, os.path.join(FOLDER, "bin"), ("--not-blocks", CALLERS))
    java = ["java", f"-javaagent:{AGENT}", *QUICK, *COPIED, "-cp", classes]
    for program in programs(mistakes()):
        for version in (BROKEN, REPAIRED):
            for column, options in WAYS:
                runs = os.path.join(FOLDER, f"{program}.{version}.{len(options)}")
                words = [record, "-o", runs, "--seed", "1", *options, "--", *java]
                ended = tools.command(
                    [*words, f"cases.{program}", version], FOLDER, tools.found_by(asked)
                )
                load = round(os.getloadavg()[0], 1)
                yield Recording(program, version, column, load, *listed(ended))


def listed(ended: tools.Ended) -> Tuple[List[Listed], str]:
    """The findings of a report in JSON, or why there is none."""
    report = tools.answer(ended)
    if report is None:
        return [], ended.err.strip()[-tools.WORDS_KEPT :] or "no answer"
    if not all(run["looked_at"] for run in report["runs"]):
        return [], "not every run was looked at"
    findings: List[Dict[str, Any]] = report["findings"]
    return [
        Listed(one["function"]["name"], one["section"], bool(one["seen"])) for one in findings
    ], ""


# ---- what is told


def told(asked: Asked) -> List[str]:
    """The part of the page. What was seen before is taken, as the rest of the page."""
    if not os.path.exists(FILE):
        lacking = missing()
        if lacking:
            return [f"not run: it needs {lacking}"]
        try:
            seen = list(recorded(asked))
        except check.Bad as reason:
            return [f"not run: {reason}"]
        with open(FILE, "w", encoding="utf-8") as file:
            json.dump(seen, file, indent=1)
    with open(FILE, encoding="utf-8") as file:
        kept = [
            Recording(program, version, column, load, [Listed(*one) for one in findings], failed)
            for program, version, column, load, findings, failed in json.load(file)
        ]
    return part(mistakes(), kept)


def part(rows: List[Mistake], kept: List[Recording]) -> List[str]:
    """The words and the table."""
    load = max(one.load for one in kept)
    lines = [f"{INTRODUCTION} One repetition, on a machine with a load of up to {load:.0f}.", ""]
    columns = [column for column, _ in WAYS]
    names = ["Method", "Mistake", *columns, "Repaired"]
    lines += ["| " + " | ".join(names) + " |", "|---" * len(names) + "|"]
    cells = [
        [*(cell(one, kept, column) for column in columns), repaired(one, kept)] for one in rows
    ]
    for one, of in zip(rows, cells):
        lines.append(f"| {one.name()} | {one.mistake} | {' | '.join(of)} |")
    sums = (str(sum(of[n] == SECTIONS[0][1] for of in cells)) for n in range(len(columns) + 1))
    lines.append(f"| **found, of {len(rows)}** | | {' | '.join(sums)} |")
    return [*lines, "", *others(rows, kept), *failures(kept)]


def cell(of: Mistake, kept: List[Recording], column: str) -> str:
    """What was said of the wrong version."""
    runs = [one for one in kept if (one.program, one.version) == (of.program, BROKEN)]
    return said(of, [one for one in runs if one.column == column])


def repaired(of: Mistake, kept: List[Recording]) -> str:
    """What was said of the repaired version by all ways together."""
    return said(of, [one for one in kept if (one.program, one.version) == (of.program, REPAIRED)])


def said(of: Mistake, runs: List[Recording]) -> str:
    """What these recordings say of a mistake: of one that was broken off nothing is said."""
    if not runs or any(one.failed for one in runs):
        return NOT_RUN
    sections = {each.section for one in runs for each in counted(one) if of.is_of(each.function)}
    return next((words for section, words in SECTIONS if section in sections), NOTHING)


def counted(of: Recording) -> List[Listed]:
    """The findings that count: of ten runs those that happened."""
    return [one for one in of.findings if one.seen or of.column == tools.PREDICT]


def others(rows: List[Mistake], kept: List[Recording]) -> List[str]:
    """The likely mistakes that no row is about, and why they are, where that is known."""
    with open(REASONS, encoding="utf-8") as file:
        reasons: Dict[str, str] = json.load(file)
    lines: List[str] = []
    for version in (BROKEN, REPAIRED):
        likely = {
            each.function
            for one in kept
            if one.version == version
            for each in counted(one)
            if each.section == LIKELY
        }
        rest = sorted(one for one in likely if not any(row.is_of(one) for row in rows))
        names = "; ".join(f"`{one}`: {reasons.get(one, UNKNOWN)}" for one in rest) or "nothing"
        lines.append(f"- Likely in the {version} versions beside these methods: {names}.")
    return lines


def failures(kept: List[Recording]) -> List[str]:
    """Why some say nothing."""
    return [
        f"- {one.program}, {one.version}, {one.column}: {one.failed}" for one in kept if one.failed
    ]
