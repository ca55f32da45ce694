"""Finds what is to be looked at: recordings, runs, traces, logs, answers."""

from __future__ import annotations

import glob
import json
import os
import re
from dataclasses import dataclass, field
from enum import Enum
from typing import Any, Dict, List, Optional, Tuple

RECORDINGS = "velodrome.runs"
DESCRIPTION = "run.json"
TRACE_BEGINS = b"vltrace"


class SourceKind(str, Enum):
    """What an operand turned out to be."""

    TRACE = "trace"
    LOG = "log"
    ANSWER = "answer"


class NotFound(Exception):
    """An operand names nothing that can be looked at; its words say why. Status 5."""


@dataclass
class Source:
    """One thing to look at, of one run."""

    name: str
    kind: SourceKind
    path: str
    # where the program ran, and so perhaps its sources; None where it is not known
    folder: Optional[str] = None
    description: Dict[str, Any] = field(default_factory=dict)
    # why it cannot be looked at
    reason: Optional[str] = None


@dataclass
class Found:
    """All there is to look at, and why there is nothing."""

    sources: List[Source] = field(default_factory=list)
    reasons: List[str] = field(default_factory=list)


def find(operands: List[str]) -> Found:
    """What the operands mean; without any the newest recording. Raises `NotFound`."""
    found = Found()
    if not operands:
        if not os.path.isdir(RECORDINGS):
            found.reasons.append(
                f"nothing was recorded here: there is no {RECORDINGS}/."
                " Record first: velodrome-record -- ./program"
            )
            return found
        operands = [RECORDINGS]
    for operand in operands:
        _find(operand, found)
    for source in found.sources:
        source.name = _from_here(source.name)
    return found


def _from_here(path: str) -> str:
    """The path as it is said from the current folder, where that is shorter."""
    relative = os.path.relpath(path)
    return relative if len(relative) < len(path) and not relative.startswith("..") else path


def _find(operand: str, found: Found) -> None:
    if os.path.isdir(operand):
        _folder(operand, found)
    elif os.path.exists(operand):
        found.sources.append(_file(operand))
    else:
        traces = _traces_by_prefix(operand)
        if not traces:
            raise NotFound(f"{operand}: there is no such file, folder or trace")
        found.sources.extend(_trace(trace, trace) for trace in traces)


def _traces_by_prefix(prefix: str) -> List[str]:
    """The traces of what VELODROME_OUT was: PREFIX.PID, oldest first."""
    names = glob.glob(glob.escape(prefix) + ".*")
    numbered = [name for name in names if re.fullmatch(r"\.\d+", name[len(prefix) :])]
    return sorted(numbered, key=_age)


def _age(path: str) -> Tuple[int, str]:
    try:
        return os.stat(path).st_mtime_ns, path
    except OSError:
        return 0, path


# ---- folders


def _folder(folder: str, found: Found) -> None:
    """A run, a recording, all recordings, or a folder with traces."""
    runs = _runs_of(folder)
    if runs is None:
        inner = [path for path in _folders_in(folder) if _runs_of(path) is not None]
        if inner:
            runs = _runs_of(inner[-1])
    if runs is not None:
        for run in runs:
            _run(run, found)
        return
    traces = _traces_in(folder)
    if not traces:
        found.reasons.append(f"{folder}: there is no recording in this folder")
    found.sources.extend(_trace(trace, trace) for trace in traces)


def _runs_of(folder: str) -> Optional[List[str]]:
    """The folders of runs that this one is or has; None if it is neither."""
    if os.path.isfile(os.path.join(folder, DESCRIPTION)):
        return [folder]
    runs = [path for path in _folders_in(folder) if os.path.isfile(os.path.join(path, DESCRIPTION))]
    return runs or None


def _folders_in(folder: str) -> List[str]:
    """The folders in this one, numbers in their names as numbers."""
    try:
        with os.scandir(folder) as entries:
            inner = [entry.path for entry in entries if entry.is_dir()]
    except OSError as reason:
        raise NotFound(f"{folder}: {reason.strerror}") from None
    return sorted(inner, key=_by_numbers)


def _by_numbers(path: str) -> List[Tuple[int, int, str]]:
    parts = re.split(r"(\d+)", os.path.basename(path))
    return [(0, int(part), "") if part.isdigit() else (1, 0, part) for part in parts]


def _traces_in(folder: str) -> List[str]:
    """The files with maps beside them."""
    maps = glob.glob(os.path.join(glob.escape(folder), "*.maps"))
    return sorted((path[: -len(".maps")] for path in maps), key=_by_numbers)


def _run(folder: str, found: Found) -> None:
    description, reason = _description(os.path.join(folder, DESCRIPTION))
    where = description.get("folder")
    traces = _traces_in(folder)
    logs = [path for path in glob.glob(os.path.join(glob.escape(folder), "*.log"))]
    sources = [_trace(trace, folder if len(traces) == 1 else trace) for trace in traces]
    if not traces:
        made = [path for path in logs if os.path.isfile(path + ".names")]
        sources = [Source(folder, SourceKind.LOG, path) for path in sorted(made)]
    if not sources:
        words = "it has no trace: was the program linked by velodrome-cc?"
        sources = [Source(folder, SourceKind.TRACE, folder, reason=words)]
    for source in sources:
        source.description = description
        source.folder = where if isinstance(where, str) else None
        source.reason = source.reason or reason
    found.sources.extend(sources)


def _description(path: str) -> Tuple[Dict[str, Any], Optional[str]]:
    try:
        with open(path, encoding="utf-8", errors="replace") as opened:
            value = json.load(opened)
    except (OSError, ValueError):
        return {}, None
    return (value if isinstance(value, dict) else {}), None


# ---- files


def _trace(path: str, name: str) -> Source:
    source = Source(name, SourceKind.TRACE, path, folder=os.path.dirname(path) or ".")
    if not os.path.isfile(path):
        source.reason = f"there is no trace beside {path}.maps"
    elif not os.path.isfile(path + ".maps"):
        source.reason = f"{path}.maps is missing: copy it with the trace"
    return source


def _file(path: str) -> Source:
    """What a file is, by how it begins."""
    try:
        with open(path, "rb") as opened:
            begins = opened.read(64)
    except OSError as reason:
        raise NotFound(f"{path}: {reason.strerror}") from None
    folder = os.path.dirname(path) or "."
    if os.path.isfile(path + ".maps") or begins.startswith(TRACE_BEGINS):
        return _trace(path, path)
    if begins.startswith(b"vlog "):
        return Source(path, SourceKind.LOG, path, folder=folder)
    if begins.lstrip()[:1] == b"{":
        return Source(path, SourceKind.ANSWER, path, folder=folder)
    return Source(path, SourceKind.LOG, path, folder=folder, reason=_unlike(path, begins))


def _unlike(path: str, begins: bytes) -> str:
    """Why a file is none of those that can be looked at."""
    if not begins:
        return "it is empty"
    for start, words in (
        (b"\x1f\x8b", f"it is gzip: gzip -d {path}"),
        (b"\xfd7zXZ", f"it is xz: xz -d {path}"),
        (b"BZh", f"it is bzip2: bzip2 -d {path}"),
        (b"vsites ", "it is a file of sites: give the log beside it"),
        (b"\x7fELF", "it is a program: record it, velodrome-record -- PROGRAM"),
    ):
        if begins.startswith(start):
            return words
    return "it is no trace, no log and no answer of velodrome"
