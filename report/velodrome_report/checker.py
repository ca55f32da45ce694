"""Calls the checker and the recorder's `velodrome-log`, side by side on all cores."""

from __future__ import annotations

import os
import shutil
import subprocess
import sys
from dataclasses import dataclass
from typing import List, Optional, Sequence, Set

HERE = os.path.dirname(os.path.abspath(__file__))
# where they are in the repository, from this folder
CHECKER_BUILT = os.path.join(HERE, "..", "..", "crates", "velodrome", "out", "velodrome")
LOG_BUILT = os.path.join(HERE, "..", "..", "recorder", "out", "bin", "velodrome-log")
# statuses of the checker with an answer: nothing found, something found
ANSWERED = (0, 3)
LONGEST_WORDS = 300

# what runs now, to end it if the call is interrupted
_running: Set["subprocess.Popen[str]"] = set()


@dataclass(frozen=True)
class Done:
    """What a program printed, and `why` it gave no answer, None if it did."""

    status: int
    out: str
    why: Optional[str]


@dataclass
class Programs:
    """Where the programs are; None for one that is missing."""

    checker: Optional[str]
    log: Optional[str]


def programs(checker: Optional[str]) -> Programs:
    """Finds both: the one that is named, that of VELODROME, on the path, as built."""
    return Programs(
        _program(checker or os.environ.get("VELODROME"), "velodrome", CHECKER_BUILT),
        _program(None, "velodrome-log", LOG_BUILT),
    )


def _program(named: Optional[str], name: str, built: str) -> Optional[str]:
    if named:
        return shutil.which(named)
    beside = os.path.join(os.path.dirname(os.path.realpath(sys.argv[0])), name)
    return shutil.which(beside) or shutil.which(name) or shutil.which(built)


def call(words: Sequence[str], answered: Sequence[int] = ANSWERED) -> Done:
    """Runs a program to its end. It never raises: what goes wrong is in `why`."""
    try:
        started = subprocess.Popen(
            list(words),
            stdin=subprocess.DEVNULL,
            stdout=subprocess.PIPE,
            stderr=subprocess.PIPE,
            encoding="utf-8",
            errors="replace",
        )
    except OSError as reason:
        return Done(-1, "", f"{os.path.basename(words[0])}: {reason.strerror}")
    _running.add(started)
    out, said = started.communicate()
    _running.discard(started)
    if started.returncode in answered:
        return Done(started.returncode, out, None)
    return Done(started.returncode, out, _why(words[0], started.returncode, said))


def end_all() -> None:
    """Ends what is still running, where nobody wants the answer any more."""
    for started in list(_running):
        started.kill()


def _why(program: str, status: int, said: str) -> str:
    name = os.path.basename(program)
    if status < 0:
        return f"{name} was ended by signal {-status}"
    words = "; ".join(line.strip() for line in said.splitlines() if line.strip())
    return f"{name}: {words[:LONGEST_WORDS]}" if words else f"{name} ended with status {status}"


def cores() -> int:
    """How many processors this process may use."""
    try:
        return max(1, len(os.sched_getaffinity(0)))
    except AttributeError:
        return os.cpu_count() or 1


def asked(
    checker: str,
    command: str,
    log: str,
    names: Optional[str],
    sites: Optional[str],
    more: Sequence[str] = (),
) -> Done:
    """The answer of `velodrome COMMAND LOG --format json`."""
    words: List[str] = [checker, command, log, "--format", "json"]
    if names:
        words += ["--names", names]
    if sites:
        words += ["--sites", sites]
    return call(words + list(more))
