"""What is known and left out: a list as the checker takes it, by --known FILE.

A line of it may also be a name as a report prints it, short: it stands for every function of the
log with this short name.
"""

from __future__ import annotations

import tempfile
from typing import Dict, List

from .names import plain, without_parameters

LONGEST_NAME = 200


class BadList(Exception):
    """The file is no list of what is known; its words say why."""


class Known:
    """A list, and the files that are made of it for logs; `close` deletes these."""

    def __init__(self, path: str) -> None:
        """Raises `OSError` if the file cannot be read, `BadList` if it is no list."""
        with open(path, encoding="utf-8", errors="strict") as opened:
            try:
                self.lines = opened.read().split("\n")
            except UnicodeDecodeError:
                raise BadList(f"{path}: it is not UTF-8") from None
        for number, line in enumerate(self.lines, 1):
            if len(line.encode()) > LONGEST_NAME or any(ord(char) < 32 for char in line):
                raise BadList(f"{path}: line {number} is no name: {line[:60]!r}")
        self._folder = tempfile.TemporaryDirectory(prefix="velodrome-known-")

    def for_log(self, labels: Dict[int, str]) -> str:
        """The path of the list with what its short names stand for in a log."""
        listed = set(self.lines)
        more: List[str] = []
        for name in labels.values():
            if name not in listed and {plain(name), without_parameters(name)} & listed:
                more.append(name)
        descriptor, path = tempfile.mkstemp(suffix=".txt", dir=self._folder.name)
        with open(descriptor, "w", encoding="utf-8") as made:
            made.write("\n".join([*self.lines, *sorted(set(more))]).rstrip("\n") + "\n")
        return path

    def close(self) -> None:
        """Deletes the lists that were made."""
        self._folder.cleanup()
