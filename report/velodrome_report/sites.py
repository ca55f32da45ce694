"""The sites of a log: where each of its events stands in the source."""

from __future__ import annotations

from typing import List, Optional, Tuple

from .answers import site
from .model import Place


class Sites:
    """A file of sites, read as far as an event needs it. Without one every site is unknown."""

    def __init__(self, path: Optional[str], most: int) -> None:
        # of each event, in the order of the log, the number of its site; 0 where it is unknown
        self.numbers: List[int] = []
        self._texts: List[str] = []
        if path is not None:
            self._read(path, most)

    def number(self, position: int) -> int:
        """The number of the site of the event at this position, 0 where it is unknown."""
        return self.numbers[position] if position < len(self.numbers) else 0

    def at(self, position: int) -> Tuple[Optional[Place], Optional[str]]:
        """The place and the function of the event at this position."""
        number = self.number(position)
        if position < 0 or not 0 < number <= len(self._texts):
            return None, None
        return site(self._texts[number - 1])

    def _read(self, path: str, most: int) -> None:
        try:
            with open(path, encoding="utf-8", errors="replace") as opened:
                count = int(opened.readline().split()[2])
                self._texts = [opened.readline().rstrip("\n") for _ in range(count)]
                self.numbers = [int(line) for _, line in zip(range(most), opened)]
        except (OSError, ValueError, IndexError):
            # the checker says what is wrong with it
            self._texts, self.numbers = [], []
