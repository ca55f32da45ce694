"""Colours of a terminal: one for each thread, as far as they go."""

from __future__ import annotations

RESET = "\x1b[0m"
BOLD = "\x1b[1m"
DIM = "\x1b[2m"
YELLOW = "\x1b[33m"
# cyan, magenta, green, blue, red: by the number of the thread
THREADS = ("\x1b[36m", "\x1b[35m", "\x1b[32m", "\x1b[34m", "\x1b[31m")


class Colours:
    """Paints text, or leaves it as it is."""

    def __init__(self, on: bool) -> None:
        self.on = on

    def bold(self, text: str) -> str:
        """What was found."""
        return self._painted(BOLD, text)

    def dim(self, text: str) -> str:
        """What is said beside it."""
        return self._painted(DIM, text)

    def warn(self, text: str) -> str:
        """What weakens the answer."""
        return self._painted(YELLOW, text)

    def thread(self, number: int, text: str) -> str:
        """What a thread does, in its colour."""
        return self._painted(THREADS[number % len(THREADS)], text)

    def _painted(self, start: str, text: str) -> str:
        return f"{start}{text}{RESET}" if self.on and text else text
