"""The tools: how a program is run by each, and what it said, judged by the program's header."""

from __future__ import annotations

import json
import os
import re
import shlex
import shutil
import signal
import subprocess
import threading
from typing import Any, Callable, Dict, List, NamedTuple, Optional, Sequence, Tuple

import check
from check import Program

# A command that takes longer hangs. Programs that hang end by themselves long before.
MOST_SECONDS = 1800
RUNS = 10
NOISE = 5
ENDED_BY_KILL = -1
# that it does not know fences is for its run to show
SANITIZED = ("-fsanitize=thread", "-Wno-tsan")
WORDS_KEPT = 200

PLAIN = "plain"
ONE_RUN = "Velodrome, one run"
NOISE_RUNS = "Velodrome, ten runs with noise"
PREDICT = "Velodrome, predict of one run"
SERIAL = "Velodrome, serial by seed"
SANITIZER = "ThreadSanitizer"
HELGRIND = "helgrind"
DRD = "drd"
# the columns of the tables, in their order
COLUMNS = (PLAIN, ONE_RUN, NOISE_RUNS, PREDICT, SERIAL, SANITIZER, HELGRIND, DRD)

# what a finding of Velodrome is called that is about a mistake of this kind
NOT_ATOMIC = ("not_atomic", "stale_write")
DEADLOCK = ("deadlock", "deadlock_possible")


class Asked(NamedTuple):
    """Where the tools are: a folder, and two programs."""

    recorder: str
    report: str
    checker: str


class Seen(NamedTuple):
    """What one tool said of one run.

    `named`: the mistake is first in Velodrome's list, or is in the words of another tool; of the
    plain program: its own test failed. `said`: anything that is not folded away. `told` is its
    first finding in a few words, `failed` why nothing can be said.
    """

    named: bool
    said: bool
    seconds: float
    told: str = ""
    failed: str = ""


class Ended(NamedTuple):
    """How a command ended: its status, all that it printed, its processor time in seconds."""

    status: int
    out: str
    err: str
    seconds: float


# What a way of running a program gives, by column. One run may say something for two columns.
Measured = Dict[str, Seen]
Measure = Callable[[Asked, Program, str, int], Measured]


def command(words: List[str], folder: str, extra: Optional[Dict[str, str]] = None) -> Ended:
    """Runs a command to its end; one that hangs is ended with all that it started."""
    started = subprocess.Popen(
        words,
        cwd=folder,
        env={**os.environ, **(extra or {})},
        stdin=subprocess.DEVNULL,
        stdout=subprocess.PIPE,
        stderr=subprocess.PIPE,
        start_new_session=True,
    )
    # set before the kill: the timer's thread may still be there when the command is not
    ended_by_kill = threading.Event()
    hangs = threading.Timer(MOST_SECONDS, _kill_group, (started.pid, ended_by_kill))
    hangs.start()
    printed: List[bytes] = [b"", b""]
    assert started.stdout is not None and started.stderr is not None
    other = threading.Thread(target=_read, args=(started.stderr, printed, 1))
    other.start()
    _read(started.stdout, printed, 0)
    other.join()
    _, status, usage = os.wait4(started.pid, 0)
    started.returncode = os.waitstatus_to_exitcode(status)
    hangs.cancel()
    out, err = (part.decode("utf-8", "replace") for part in printed)
    return Ended(
        ENDED_BY_KILL if ended_by_kill.is_set() else started.returncode,
        out,
        err,
        usage.ru_utime + usage.ru_stime,
    )


def _read(stream: Any, printed: List[bytes], place: int) -> None:
    with stream:
        printed[place] = stream.read()


def _kill_group(pid: int, ended_by_kill: threading.Event) -> None:
    ended_by_kill.set()
    try:
        os.killpg(pid, signal.SIGKILL)
    except ProcessLookupError:
        pass


def compiled(
    of: Program,
    version: str,
    folder: str,
    compilers: Optional[Dict[str, str]] = None,
    extra: Tuple[str, ...] = (),
) -> str:
    """The program, compiled if it is not there or older than its source. Raises check.Bad."""
    path = os.path.join(folder, f"{of.name}.{version}")
    sources = [os.path.join(check.PROGRAMS, of.file), check.SCENE]
    if os.path.exists(path):
        if os.path.getmtime(path) > max(os.path.getmtime(source) for source in sources):
            return path
    return check.compile_one(of, version, folder, compilers, extra)


def compiled_plain(of: Program, version: str) -> str:
    """The program alone. Raises check.Bad."""
    return compiled(of, version, os.path.join(check.OUT, "plain"))


def compiled_sanitized(of: Program, version: str) -> str:
    """The program by ThreadSanitizer of the C compiler. Raises check.Bad."""
    return compiled(of, version, os.path.join(check.OUT, "tsan"), extra=SANITIZED)


def compiled_recorded(asked: Asked, of: Program, version: str) -> str:
    """The program by the recorder's compilers. Raises check.Bad."""
    compilers = {".c": "velodrome-cc", ".cpp": "velodrome-c++"}
    compilers = {end: os.path.join(asked.recorder, name) for end, name in compilers.items()}
    return compiled(of, version, os.path.join(check.OUT, "velodrome"), compilers)


# ---- Velodrome


def velodrome(options: List[str], seen: str, possible: str = "") -> Measure:
    """Velodrome with these options of velodrome-record.

    What happened counts for the column `seen`, what could have happened for `possible`, too.
    """

    def run(asked: Asked, of: Program, version: str, repetition: int) -> Measured:
        path = compiled_recorded(asked, of, version)
        folder = os.path.dirname(path)
        runs = os.path.join(folder, f"runs.{of.name}.{version}.{threading.get_ident()}")
        shutil.rmtree(runs, ignore_errors=True)
        seed = str(1 + repetition * RUNS)
        record = [RECORDER, "-o", runs, "--seed", seed]
        ended = command([*record, *options, "--", path], folder, found_by(asked))
        found = {seen: judged(of, ended, False)}
        if possible:
            found[possible] = judged(of, ended, True)
        shutil.rmtree(runs, ignore_errors=True)
        return found

    return run


def found_by(asked: Asked) -> Dict[str, str]:
    """The variables by which the parts of Velodrome find each other."""
    path = (asked.recorder, os.path.dirname(asked.report), os.environ.get("PATH", ""))
    return {"PATH": os.pathsep.join(path), "VELODROME": asked.checker}


RECORDER = os.path.join(check.OUT, "bin", "velodrome-record")


def prepare(
    asked: Asked, folder: str = os.path.dirname(RECORDER), options: Sequence[str] = ()
) -> str:
    """Makes velodrome-record in `folder`, with a report beside it that prints JSON: its path.

    So a run is reported once, and its processor time is that of a user's call. `options` are
    more of the report.
    """
    os.makedirs(folder, exist_ok=True)
    report = os.path.join(folder, "velodrome-report")
    words = shlex.join([asked.report, "--format", "json", *options])
    with open(report, "w", encoding="utf-8") as file:
        file.write(f'#!/bin/sh\nexec {words} "$@"\n')
    os.chmod(report, 0o755)
    recorder = os.path.join(folder, "velodrome-record")
    shutil.copy(os.path.join(asked.recorder, "velodrome-record"), recorder)
    return recorder


def answer(ended: Ended) -> Optional[Dict[str, Any]]:
    """The report in JSON that a command printed, behind what the program printed."""
    try:
        report: Dict[str, Any] = json.loads(ended.out.rstrip("\n").rpartition("\n")[2])
    except ValueError:
        return None
    return report


def judged(of: Program, ended: Ended, predicted: bool) -> Seen:
    """What a report in JSON says of a program; with `predicted` what could have happened, too."""
    report = answer(ended)
    if report is None:
        return Seen(False, False, ended.seconds, failed=_short(ended.err) or "no answer")
    findings = [one for one in report["findings"] if predicted or one["seen"]]
    likely = [one for one in findings if one["section"] == "likely"]
    looked_at = any(run["looked_at"] for run in report["runs"])
    return Seen(
        bool(likely) and is_mistake(of, likely[0]),
        bool(likely),
        ended.seconds,
        "; ".join(told(one) for one in [*likely, *(f for f in findings if f not in likely)][:3]),
        "" if looked_at else "nothing was looked at",
    )


def told(finding: Dict[str, Any]) -> str:
    """A finding in a few words."""
    section = "" if finding["section"] == "likely" else f" [{finding['section']}]"
    return f"{finding['kind']} {finding['function']['name']}{section}"


def is_mistake(of: Program, finding: Dict[str, Any]) -> bool:
    """Whether a finding is about the mistake of a program.

    A deadlock is one that is at the function, or at one of the two lines. A function that looks
    and waits in two steps hangs because it is not atomic: that names the mistake, too.
    """
    if finding["kind"] in DEADLOCK:
        return of.kind == "deadlock" and (names(json.dumps(finding), of) or is_at(of, finding))
    return (
        of.kind in ("atomicity", "deadlock")
        and finding["kind"] in NOT_ATOMIC
        and is_function(finding["function"]["name"], of.function)
    )


def is_at(of: Program, finding: Dict[str, Any]) -> bool:
    """Whether an event of a finding is at one of the two lines that are wrong."""
    places = [event["at"] for event in finding["witness"]["events"] if event["at"]]
    return any(place["line"] in (of.first, of.second) for place in places)


def is_function(name: str, function: str) -> bool:
    """Whether a full name, as `ns::Pool::acquire()` or `take, before its wait`, is that of it."""
    return re.search(rf"(?:^|::|\s){re.escape(function)}(?:[(,]|$)", name) is not None


# ---- other tools


def plain(_: Asked, of: Program, version: str, __: int) -> Measured:
    """The program alone: whether its own test sees a wrong result."""
    ended = command([compiled_plain(of, version)], check.OUT)
    wrong = ended.status != 0
    return {PLAIN: Seen(wrong, wrong, ended.seconds, f"status {ended.status}" if wrong else "")}


def thread_sanitizer(_: Asked, of: Program, version: str, __: int) -> Measured:
    """ThreadSanitizer of the C compiler."""
    path = compiled_sanitized(of, version)
    ended = command([path], check.OUT, {"TSAN_OPTIONS": "detect_deadlocks=1"})
    found = re.findall(r"WARNING: ThreadSanitizer: (.*)", ended.err)
    if "FATAL: ThreadSanitizer" in ended.err or ended.status == ENDED_BY_KILL:
        return {SANITIZER: Seen(False, False, ended.seconds, failed=_why_not(ended))}
    return {SANITIZER: _of_words(of, ended, found[0] if found else "")}


def valgrind(tool: str) -> Measure:
    """A tool of valgrind."""

    def run(_: Asked, of: Program, version: str, __: int) -> Measured:
        path = compiled_plain(of, version)
        ended = command(["valgrind", f"--tool={tool}", path], check.OUT)
        counts = re.findall(r"ERROR SUMMARY: (\d+) errors", ended.err)
        if not counts or ended.status == ENDED_BY_KILL:
            return {tool: Seen(False, False, ended.seconds, failed=_why_not(ended))}
        said = f"{counts[-1]} errors" if int(counts[-1]) else ""
        return {tool: _of_words(of, ended, said)}

    return run


def _of_words(of: Program, ended: Ended, said: str) -> Seen:
    found = bool(said)
    return Seen(found and names(ended.err, of), found, ended.seconds, said)


def names(said: str, of: Program) -> bool:
    """Whether the words name the function that is wrong."""
    return bool(of.function) and re.search(rf"\b{re.escape(of.function)}\b", said) is not None


def _why_not(ended: Ended) -> str:
    return "it did not end" if ended.status == ENDED_BY_KILL else _short(ended.err) or "no answer"


def _short(words: str) -> str:
    return words.strip()[-WORDS_KEPT:]


# ---- all of them

# the columns that each way fills, and the way
MEASURES: Tuple[Tuple[Tuple[str, ...], Measure], ...] = (
    ((PLAIN,), plain),
    ((SANITIZER,), thread_sanitizer),
    ((ONE_RUN, PREDICT), velodrome([], ONE_RUN, PREDICT)),
    ((HELGRIND,), valgrind("helgrind")),
    ((DRD,), valgrind("drd")),
    ((NOISE_RUNS,), velodrome(["-n", str(RUNS), "--noise", str(NOISE)], NOISE_RUNS)),
    ((SERIAL,), velodrome(["--mode", "serial"], SERIAL)),
)
