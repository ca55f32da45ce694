"""Lines of source: as they were when the program ran, or none.

A file that is newer than the run, or than the program that ran, may be another one than that which
was compiled. So the files of a recording's findings are copied into it when it is first reported,
and later reports show their lines from there.
"""

from __future__ import annotations

import json
import os
import shutil
from typing import Dict, Iterable, List, Optional, Sequence, Tuple

from .model import Place, Run
from .runs import DESCRIPTION

# A larger file is no source that a person wrote.
LARGEST_FILE = 16_777_216
# where a recording keeps the files of its findings
COPIES = "sources"


class Sources:
    """Reads files of source once, and gives their lines.

    A place of the recorder has the last two parts of a path. So a file is looked for in each
    folder by all its parts, and then without its first ones.
    """

    def __init__(self, folders: Sequence[str] = (), runs: Iterable[Run] = ()) -> None:
        self._folders = list(folders)
        self._runs = {run.name: _Kept(run) for run in runs}
        self._files: Dict[Tuple[str, str], List[str]] = {}
        # the files that are not as they were when a run was: of each the run, and whether it is
        # known how it was
        self.changed: Dict[str, Tuple[str, bool]] = {}

    def lines(self, file: str, run: str = "") -> List[str]:
        """The lines of a file as a run had it, without their ends; none where it is not found."""
        if (file, run) not in self._files:
            self._files[(file, run)] = self._read(file, run)
        return self._files[(file, run)]

    def line(self, place: Optional[Place], run: str = "") -> Optional[str]:
        """The line at a place without the blanks around it, None where it is not found."""
        if place is None or place.line == 0:
            return None
        lines = self.lines(place.file, run)
        if place.line > len(lines):
            return None
        return lines[place.line - 1].strip() or None

    def _read(self, file: str, run: str) -> List[str]:
        today = next((path for path in self._paths(file) if _is_source(path)), None)
        kept = self._runs.get(run)
        if kept is None:
            return [] if today is None else _lines(today)
        copy = kept.copy(file)
        if copy is not None and _is_source(copy):
            lines = _lines(copy)
            if today is not None and _lines(today) != lines:
                self.changed.setdefault(file, (run, True))
            return lines
        if today is None:
            return []
        if kept.is_older_than(today):
            self.changed.setdefault(file, (run, False))
            return []
        if copy is not None:
            _keep(today, copy)
        return _lines(today)

    def _paths(self, file: str) -> List[str]:
        if os.path.isabs(file):
            return [file]
        parts = file.split("/")
        shorter = ["/".join(parts[first:]) for first in range(len(parts))]
        return [os.path.join(folder, name) for folder in self._folders for name in shorter]


class _Kept:
    """What is known of the sources of a run: how old they are, and where copies are."""

    def __init__(self, run: Run) -> None:
        path = run.trace or run.log
        folder = os.path.dirname(os.path.abspath(path)) if path else ""
        self._copies: Optional[str] = None
        times = [_time(path)] if path else []
        description = os.path.join(folder, DESCRIPTION)
        if path and os.path.isfile(description):
            self._copies = os.path.join(os.path.dirname(folder), COPIES)
            times.append(_time(_program(description)))
        known = [time for time in times if time is not None]
        self._time = min(known) if known else None

    def is_older_than(self, path: str) -> bool:
        """Whether the file was written after the run, or after its program."""
        time = _time(path)
        return self._time is not None and time is not None and time > self._time

    def copy(self, file: str) -> Optional[str]:
        """Where the copy of a file is, or is to be; None where there can be none."""
        if self._copies is None or os.path.isabs(file) or ".." in file.split("/"):
            return None
        return os.path.join(self._copies, file)


def _program(description: str) -> str:
    try:
        with open(description, encoding="utf-8", errors="replace") as opened:
            return str(json.load(opened)["program"])
    except (OSError, ValueError, KeyError, TypeError):
        return ""


def _time(path: str) -> Optional[int]:
    """When a file was written, in nanoseconds; None where there is none."""
    try:
        return os.stat(path).st_mtime_ns
    except (OSError, ValueError):
        return None


def _is_source(path: str) -> bool:
    try:
        return os.path.isfile(path) and os.path.getsize(path) <= LARGEST_FILE
    except (OSError, ValueError):
        return False


def _lines(path: str) -> List[str]:
    try:
        with open(path, encoding="utf-8", errors="replace") as opened:
            return [_printable(line) for line in opened]
    except OSError:
        return []


def _keep(path: str, copy: str) -> None:
    """Copies a file; a recording that nothing can be written into is none the worse."""
    try:
        os.makedirs(os.path.dirname(copy), exist_ok=True)
        shutil.copyfile(path, copy + ".new")
        os.replace(copy + ".new", copy)
    except (OSError, ValueError):
        pass


def _printable(line: str) -> str:
    """The line without its end, each control character of it a blank."""
    line = line.rstrip("\r\n").replace("\t", "    ")
    return "".join(char if char.isprintable() else " " for char in line)
