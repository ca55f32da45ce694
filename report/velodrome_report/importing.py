"""The command `velodrome-import`: a log of a trace in the text format of the RAPID tools."""

from __future__ import annotations

import argparse
import gzip
import os
import sys
import zlib
from collections import Counter
from typing import BinaryIO, Dict, Iterator, List, NamedTuple, NoReturn, Optional, Sequence, Tuple

THREADS_MOST = 64
VARIABLES_MOST = 65_535
LOCKS_MOST = 4_096
OPEN_BLOCKS_MOST = 32
EVENTS_MOST = 16_777_216
SITES_MOST = 1_000_000
SITE_BYTES_MOST = 1_000
NAME_BYTES_MOST = 200
SHOWN_MOST = 80
GZIP = b"\x1f\x8b"
ACCESSES = ("r", "w")
NEEDS_TARGET = frozenset(("r", "w", "acq", "rel", "fork", "join"))
OPERATIONS = NEEDS_TARGET | {"begin", "end"}
REFUSED, USAGE, FILES, INTERRUPTED = 1, 2, 5, 130

DESCRIPTION = "Makes LOG of TRACE, with LOG.names and LOG.sites beside it."
EPILOG = """\
A line of a std trace is THREAD|OPERATION(TARGET)|LOCATION. The operations are
r w acq rel fork join begin end. A begin may have a name: begin(deposit). TRACE
may be compressed by gzip. The first line's thread is the first thread.

--mend forks a thread before its first event by the first thread, ends blocks
and gives locks back where their thread ends or another one takes the lock,
leaves out what cannot happen, and counts each of these.

status: 0 LOG is written, 1 TRACE has a wrong line or cannot be a run,
2 wrong usage, 5 a file cannot be read or written
"""


class Refused(Exception):
    """TRACE or the call is wrong: the words, and the status."""

    def __init__(self, words: str, status: int = REFUSED) -> None:
        super().__init__(words)
        self.status = status


class Step(NamedTuple):
    """An event of the trace. `line` counts from 1."""

    line: int
    thread: str
    operation: str
    target: str
    location: str


class Numbers:
    """Numbers names from 0 on, in the order in which they come.

    Raises Refused where there are more than `most`.
    """

    def __init__(self, kind: str, most: int) -> None:
        self.kind = kind
        self.most = most
        self.of: Dict[str, int] = {}

    def number(self, name: str) -> int:
        """The number of `name`, a new one if it has none."""
        known = self.of.get(name)
        if known is not None:
            return known
        if len(self.of) == self.most:
            raise Refused(f"more than {self.most:,} {self.kind}s, which is the most of a log")
        self.of[name] = len(self.of)
        return self.of[name]


def printable(text: str) -> str:
    """`text` with what a terminal would obey, or what is no character, as escapes."""
    if text.isprintable():
        return text
    return "".join(c if c.isprintable() else c.encode("unicode_escape").decode() for c in text)


def cut(text: str, most: int) -> str:
    """The first whole characters of `text`, at most `most` bytes of UTF-8."""
    return text.encode("utf-8", "replace")[:most].decode("utf-8", "ignore")


def parse(line: int, text: str) -> Step:
    """The event of one line. Raises Refused."""
    parts = text.split("|")
    if not 2 <= len(parts) <= 3:
        raise _wrong(line, text, "not THREAD|OPERATION(TARGET)|LOCATION")
    operation, bracket, target = parts[1].partition("(")
    if bracket and not target.endswith(")"):
        raise _wrong(line, text, "a bracket is open")
    target = target[:-1]
    if operation not in OPERATIONS:
        raise _wrong(line, text, "the operation is none of " + " ".join(sorted(OPERATIONS)))
    if not parts[0] or (operation in NEEDS_TARGET and not target):
        raise _wrong(line, text, "a name is missing")
    return Step(line, parts[0], operation, target, parts[2] if len(parts) == 3 else "")


def steps_of(file: BinaryIO) -> Iterator[Step]:
    """The events of a trace. Empty lines are none. Raises Refused."""
    for line, raw in enumerate(file, 1):
        text = raw.rstrip(b"\r\n").decode("utf-8", "replace")
        if text:
            yield parse(line, text)


def _wrong(line: int, text: str, reason: str) -> Refused:
    return Refused(f"line {line}: {printable(text[:SHOWN_MOST])}: {reason}")


class Importer:
    """Turns the steps of a trace into a log, one after the other.

    With `mend` what cannot happen is mended and counted in `mended`; without it `add` raises
    Refused. `last` has the line of each thread's last step.
    """

    def __init__(self, last: Dict[str, int], mend: bool = False) -> None:
        self.last = last
        self.mend = mend
        self.mended: Counter[str] = Counter()
        self.threads = Numbers("thread", THREADS_MOST)
        self.variables = Numbers("variable", VARIABLES_MOST)
        self.locks = Numbers("lock", LOCKS_MOST)
        self.labels = Numbers("label", 1 << 32)
        self.sites: Dict[str, int] = {}
        self.seen_at: Dict[Tuple[str, str], int] = {}
        self.events: List[str] = []
        self.site_of: List[int] = []
        self.site = 0
        self.written = 0
        self.values: Dict[str, int] = {}
        self.holder: Dict[str, str] = {}
        self.depth: Dict[str, int] = {}
        self.open: Dict[str, List[str]] = {}
        self.skipped: Dict[str, int] = {}
        self.forked: Dict[str, int] = {}
        self.joined: Dict[str, int] = {}

    def add(self, step: Step) -> None:
        """Adds the events of `step`. Raises Refused."""
        self._arrive(step)
        self.site = self._site(step)
        operation = step.operation
        if operation in ACCESSES:
            self._access(step)
        elif operation == "acq":
            self._acquire(step)
        elif operation == "rel":
            self._release(step)
        elif operation == "begin":
            self._begin(step)
        elif operation == "end":
            self._end(step)
        elif operation == "fork":
            self._fork(step)
        else:
            self._join(step)

    def _emit(self, thread: str, words: str) -> None:
        if len(self.events) == EVENTS_MOST:
            raise Refused(f"more than {EVENTS_MOST:,} events, which is the most of a log")
        self.events.append(f"{self.threads.of[thread]} {words}\n")
        self.site_of.append(self.site)

    def _impossible(self, step: Step, reason: str, remedy: str) -> None:
        """Counts the remedy, or refuses the step."""
        if not self.mend:
            text = f"{step.thread}|{step.operation}"
            text += f"({step.target})" if step.target else ""
            raise Refused(
                f"line {step.line}: {printable(text[:SHOWN_MOST])}: {printable(reason)}"
                f" (--mend: {remedy})"
            )
        self.mended[remedy] += 1

    def _arrive(self, step: Step) -> None:
        thread = step.thread
        if thread in self.open:
            return
        if not self.open:
            self.forked[thread] = step.line
            self.threads.number(thread)
        elif thread not in self.forked:
            self._impossible(step, f"{thread} is not forked before", "forked by the first thread")
            first = next(iter(self.threads.of))
            self.threads.number(thread)
            self.site = 0
            self.forked[thread] = step.line
            self._emit(first, f"fork {self.threads.of[thread]}")
        self.open[thread] = []

    def _site(self, step: Step) -> int:
        if not step.location:
            return 0
        blocks = self.open[step.thread]
        inside = blocks[-1] if blocks else step.thread
        key = (step.location, inside)
        if key not in self.seen_at:
            self.seen_at[key] = self._new_site(step.location, inside)
        return self.seen_at[key]

    def _new_site(self, location: str, inside: str) -> int:
        place = location if ":" in location else f"location:{location}"
        text = cut(printable(f"{place} {inside}"), SITE_BYTES_MOST)
        if text not in self.sites and len(self.sites) == SITES_MOST:
            return 0
        return self.sites.setdefault(text, len(self.sites) + 1)

    def _access(self, step: Step) -> None:
        number = self.variables.number(step.target)
        if step.operation == "w":
            self.written += 1
            self.values[step.target] = self.written
            self._emit(step.thread, f"wr {number} {self.written}")
        else:
            self._emit(step.thread, f"rd {number} {self.values.get(step.target, 0)}")

    def _acquire(self, step: Step) -> None:
        lock = step.target
        holder = self.holder.get(lock)
        if holder == step.thread:
            self.depth[lock] += 1
            return
        if holder is not None:
            self._impossible(step, f"{holder} holds {lock}", "locks given back")
            self._emit(holder, f"rel {self.locks.of[lock]}")
        self.holder[lock] = step.thread
        self.depth[lock] = 1
        self._emit(step.thread, f"acq {self.locks.number(lock)}")

    def _release(self, step: Step) -> None:
        lock = step.target
        if self.holder.get(lock) != step.thread:
            reason = f"{step.thread} does not hold {lock}"
            self._impossible(step, reason, "releases left out")
            return
        self.depth[lock] -= 1
        if not self.depth[lock]:
            del self.holder[lock]
            self._emit(step.thread, f"rel {self.locks.of[lock]}")

    def _begin(self, step: Step) -> None:
        blocks = self.open[step.thread]
        if len(blocks) == OPEN_BLOCKS_MOST:
            reason = f"{step.thread} has {OPEN_BLOCKS_MOST} open blocks, the most of a log"
            self._impossible(step, reason, "inner blocks left out")
            self.skipped[step.thread] = self.skipped.get(step.thread, 0) + 1
            return
        name = step.target or f"block at {step.location or '?'}"
        blocks.append(name)
        self._emit(step.thread, f"begin {self.labels.number(name)}")

    def _end(self, step: Step) -> None:
        if self.skipped.get(step.thread):
            self.skipped[step.thread] -= 1
            return
        blocks = self.open[step.thread]
        if not blocks:
            self._impossible(step, f"{step.thread} has no open block", "ends left out")
            return
        blocks.pop()
        self._emit(step.thread, "end")

    def _fork(self, step: Step) -> None:
        child = step.target
        if child in self.forked:
            reason = f"{child} began or was forked at line {self.forked[child]}"
            self._impossible(step, reason, "forks left out")
            return
        self.forked[child] = step.line
        self._emit(step.thread, f"fork {self.threads.number(child)}")

    def _join(self, step: Step) -> None:
        child = step.target
        reason = self._why_no_join(step)
        if reason:
            self._impossible(step, reason, "joins left out")
            return
        self._finish(child, step)
        self.joined[child] = step.line
        number = self.threads.of[child]
        self._emit(child, "exit")
        self._emit(step.thread, f"join {number}")

    def _why_no_join(self, step: Step) -> str:
        child = step.target
        if child not in self.forked:
            return f"{child} is not forked before"
        if child == next(iter(self.threads.of)):
            return f"{child} is the first thread"
        if child in self.joined:
            return f"{child} was joined at line {self.joined[child]}"
        if self.last.get(child, 0) >= step.line:
            return f"{child} still has an event at line {self.last[child]}"
        return ""

    def _finish(self, child: str, step: Step) -> None:
        """Ends what `child` has open."""
        held = [lock for lock, holder in self.holder.items() if holder == child]
        for lock in held:
            self._impossible(step, f"{child} still holds {lock}", "locks given back")
            del self.holder[lock]
            self._emit(child, f"rel {self.locks.of[lock]}")
        for name in self.open.get(child, []):
            self._impossible(step, f"{child} is still inside {name}", "blocks ended")
            self._emit(child, "end")
        self.open[child] = []

    def log(self) -> Iterator[str]:
        """The text of the log, in pieces."""
        counts = f"{max(1, len(self.threads.of))} {len(self.variables.of)} {len(self.locks.of)}"
        yield f"vlog 2 {counts}\n"
        yield "".join(self.events)

    def names(self) -> Iterator[str]:
        """The text of the names, in pieces."""
        for numbers in (self.threads, self.variables, self.locks, self.labels):
            for name, number in numbers.of.items():
                yield f"{numbers.kind} {number} {cut(printable(name), NAME_BYTES_MOST)}\n"

    def sites_text(self) -> Iterator[str]:
        """The text of the sites, in pieces."""
        yield f"vsites 1 {len(self.sites)} {len(self.events)}\n"
        yield "".join(f"{site}\n" for site in self.sites)
        yield "".join(f"{number}\n" for number in self.site_of)


def convert(steps: Sequence[Step], mend: bool = False) -> Importer:
    """The log of `steps`. Raises Refused."""
    last = {step.thread: step.line for step in steps}
    importer = Importer(last, mend)
    for step in steps:
        importer.add(step)
    return importer


def read(path: str) -> List[Step]:
    """The steps of the trace in the file `path`. Raises Refused and OSError."""
    with open(path, "rb") as file:
        packed = file.peek(len(GZIP))[: len(GZIP)] == GZIP
        try:
            if not packed:
                return list(steps_of(file))
            with gzip.open(file) as unpacked:
                return list(steps_of(unpacked))  # type: ignore[arg-type]
        except (EOFError, zlib.error, gzip.BadGzipFile) as reason:
            raise Refused(f"what gzip made of it cannot be read: {reason}") from None


def write(path: str, pieces: Iterator[str]) -> None:
    """Writes a whole file, or leaves the one that is there as it was. Raises OSError."""
    beside = f"{path}.{os.getpid()}.new"
    try:
        with open(beside, "w", encoding="utf-8", newline="\n") as file:
            file.writelines(pieces)
        os.replace(beside, path)
    except BaseException:
        if os.path.exists(beside):
            os.remove(beside)
        raise


class Parser(argparse.ArgumentParser):
    """Says what is wrong in one line, and where help is."""

    def error(self, message: str) -> NoReturn:
        raise Refused(f"{message}. velodrome-import --help has all options", USAGE)


def parser() -> argparse.ArgumentParser:
    """The options."""
    made = Parser(
        prog="velodrome-import",
        description=DESCRIPTION,
        epilog=EPILOG,
        formatter_class=argparse.RawDescriptionHelpFormatter,
        allow_abbrev=False,
    )
    made.add_argument("trace", metavar="TRACE", help="the trace of the other tool")
    made.add_argument("log", metavar="LOG", help="where the log goes")
    made.add_argument(
        "--from", dest="form", choices=["std"], required=True, help="the format of TRACE"
    )
    made.add_argument("--mend", action="store_true", help="mend what cannot be a run")
    return made


def _run(words: Optional[Sequence[str]]) -> int:
    asked = parser().parse_args(words)
    if os.path.exists(asked.log) and os.path.samefile(asked.trace, asked.log):
        raise Refused("TRACE and LOG are one file", USAGE)
    try:
        made = convert(read(asked.trace), asked.mend)
    except Refused as refused:
        raise Refused(f"{asked.trace}: {refused}", refused.status) from None
    beside: Tuple[Tuple[str, Iterator[str]], ...] = (
        (".names", made.names()),
        (".sites", made.sites_text()),
        ("", made.log()),
    )
    for ending, pieces in beside:
        write(asked.log + ending, pieces)
    _told(made)
    return 0


def _told(made: Importer) -> None:
    numbers = (made.threads, made.variables, made.locks, made.labels)
    counts = " ".join(f"{of.kind}s {len(of.of)}" for of in numbers)
    print(f"events {len(made.events)} {counts}")
    for remedy in sorted(made.mended):
        print(f"mended {made.mended[remedy]} {remedy}")


def _failed(words: str, status: int) -> int:
    try:
        sys.stderr.write(f"velodrome-import: {printable(words)}\n")
    except OSError:
        pass
    return status


def main(words: Optional[Sequence[str]] = None) -> int:
    """Runs the command, and gives its status. It never raises."""
    try:
        status = _run(words)
        sys.stdout.flush()
        return status
    except Refused as refused:
        return _failed(str(refused), refused.status)
    except BrokenPipeError:
        os.dup2(os.open(os.devnull, os.O_WRONLY), sys.stdout.fileno())
        return FILES
    except OSError as reason:
        return _failed(f"{reason.filename or 'output'}: {reason.strerror}", FILES)
    except KeyboardInterrupt:
        return _failed("interrupted", INTERRUPTED)
