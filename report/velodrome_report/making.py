"""Makes the log of a trace by `velodrome-log`, or takes the one that is there.

What `velodrome-record` made while the program was the one that ran is taken as it is: its names
are those of the run, whatever became of the program since.
"""

from __future__ import annotations

import os
import re
import tempfile
from dataclasses import dataclass
from typing import List, Optional, Sequence, Tuple

from . import beside, checker, deadlocks
from .beside import Wait

# what velodrome-log prints first
PRINTED = re.compile(
    r"records (\d+)(?P<stopped> \(stopped\))? events (?P<events>\d+)(?P<cut> \(cut\))?"
    r" threads (?P<threads>\d+) .*?dropped (?P<dropped>\d+)\)"
    r"(?:.*? odd (?P<odd>\d+) late (?P<late>\d+) lost (?P<lost>\d+))?"
)
# velodrome-log made a log, and cannot name its functions
CANNOT_NAME = 4
STOPPED = "its trace ended before the program did"
CUT = "its log was cut off: it has too many events"
EMPTY = "there is no event in its trace: was it cut off?"


@dataclass
class Made:
    """A log, or why there is none."""

    log: Optional[str] = None
    # why nothing can be said of what is in it
    reasons: Tuple[str, ...] = ()
    events: int = 0
    threads: int = 0
    counts: Tuple[Tuple[str, int], ...] = ()
    waits: Tuple[Wait, ...] = ()
    # whether all variables are in it, not only those that race
    all_variables: bool = True
    # where it is if it could not stay beside its trace; deleted with it
    folder: Optional["tempfile.TemporaryDirectory[str]"] = None


def make(program: Optional[str], trace: str, options: Sequence[str]) -> Made:
    """The log of a trace. Raises `OSError` where a file fails."""
    if not options and _is_recorded(trace):
        return Made(trace + ".log")
    if program is None:
        return Made(reasons=("velodrome-log was not found: put the recorder on the path",))
    folder = _folder_beside(trace)
    try:
        made = _make_in(folder.name, program, trace, options)
        if made.log is None or os.path.dirname(folder.name) != _folder_of(trace):
            made.folder = folder
            return made
        for name in os.listdir(folder.name):
            os.replace(os.path.join(folder.name, name), os.path.join(_folder_of(trace), name))
        made.log = trace + ".log"
        return made
    finally:
        if os.path.dirname(folder.name) == _folder_of(trace):
            folder.cleanup()


def _is_recorded(trace: str) -> bool:
    """Whether the recorder made a log with all variables when the run ended."""
    log = trace + ".log"
    try:
        newer = os.stat(log).st_mtime_ns >= os.stat(trace).st_mtime_ns
    except OSError:
        return False
    return newer and beside.read(log).notes.all_variables


def _folder_of(trace: str) -> str:
    return os.path.dirname(os.path.abspath(trace))


def _folder_beside(trace: str) -> "tempfile.TemporaryDirectory[str]":
    """A folder to make the log in: beside the trace, so that it can stay there."""
    where = _folder_of(trace)
    inside = where if os.access(where, os.W_OK) else None
    return tempfile.TemporaryDirectory(prefix=".velodrome-", dir=inside)


def _make_in(folder: str, program: str, trace: str, options: Sequence[str]) -> Made:
    """Makes the log: with all variables if they fit, else with those that race."""
    log = os.path.join(folder, os.path.basename(trace) + ".log")
    words: List[str] = [program, trace, log, "--tried", log + ".tried", *options]
    made = Made(log)
    done = checker.call([*words, "--all-variables"], (0, CANNOT_NAME))
    said = PRINTED.search(done.out)
    if done.why is None and said and (said["cut"] or said["dropped"] != "0"):
        made.all_variables = False
        done = checker.call(words, (0, CANNOT_NAME))
        said = PRINTED.search(done.out)
    if done.why is not None:
        return Made(reasons=(done.why,))
    if done.status == CANNOT_NAME:
        why = beside.read(log).notes.cannot_name or "its functions cannot be named"
        return Made(reasons=(why,))
    made.waits = deadlocks.printed(done.out)
    if said:
        made.events, made.threads = int(said["events"]), int(said["threads"])
        made.counts = tuple(
            (name, int(said[name] or 0)) for name in ("dropped", "odd", "late", "lost")
        )
        reasons = [
            EMPTY if made.events == 0 else "",
            STOPPED if said["stopped"] else "",
            CUT if said["cut"] else "",
        ]
        made.reasons = tuple(reason for reason in reasons if reason)
    return made
