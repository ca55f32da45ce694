"""Finds blocks of a program with threads or tasks that were meant to be atomic and were not, as its tests run.

    class Account:
        balance = velodrome.field(0)          # its reads and writes are events

        @velodrome.atomic
        def deposit(self, amount): ...

    with velodrome.session() as run:          # or pytest --velodrome: a session for each test
        ...
    assert run.outcome.clean, run.outcome.text

An alarm says that no serial order of the blocks has the accesses of this run in their order, which is proved of what was recorded.
Recorded are the accesses of `field` and `Var`, `Lock` and `RLock`, and the start and join of `Thread`; `patched()` puts the last
three in the place of threading's. A block that waits for another thread, by a join or a condition, is an alarm by definition.

A block is of who runs it: a thread, a task of asyncio (of any loop, eager or not), a greenlet, or a generator or coroutine that is
suspended by itself. For what else switches within a thread, `Actor` and `switch` say who acts.

Nothing here fails the program: what cannot be recorded makes the session `incomplete`, and the program goes on.
"""
from __future__ import annotations

import contextlib
import dataclasses
import functools
import inspect
import os
import shlex
import sys
import sysconfig
import threading
import typing
import warnings
from typing import Any, Callable, Iterable, Iterator, Literal, TypeVar, overload

from velodrome import _finding, _session
from velodrome._session import Actor, Lock, RLock, Var, field, switch

__all__ = [
    "Actor",
    "Alarm",
    "Block",
    "Incomplete",
    "IncompleteWarning",
    "Lock",
    "Outcome",
    "RLock",
    "Session",
    "Thread",
    "Var",
    "acting_as",
    "atomic",
    "field",
    "patched",
    "session",
    "switch",
    "watched",
]
__version__ = "0.2.0"

_Function = TypeVar("_Function", bound=Callable[..., Any])
_Decorated = TypeVar("_Decorated")  # a function or a class


class Alarm(AssertionError):
    """Blocks that were not atomic."""


class Incomplete(AssertionError):
    """A run that was not watched to its end, or of which nothing was recorded."""


class IncompleteWarning(UserWarning):
    """The same, where it is to be a warning only."""


_Verdict = Literal["clean", "alarm", "incomplete"]
_VERDICTS: dict[int, _Verdict] = {0: "clean", 3: "alarm"}


@dataclasses.dataclass(frozen=True)
class Outcome:
    """The outcome of a session. The text of an alarm says which blocks, by which events and where; that of an incomplete one, why."""

    verdict: _Verdict
    text: str

    @property
    def clean(self) -> bool:
        """Whether a serial order of the blocks explains all that was recorded, and something was."""
        return self.verdict == "clean"


# The most of each number that the environment may set.
_MOST = {
    "VELODROME_EVENTS": 16_777_216,
    "VELODROME_NOISE": 2**32 - 1,
    "VELODROME_SEED": 2**64 - 1,
}


def number_setting(name: str) -> int:
    """What the environment sets, else 0. Raises ValueError for what is no number, or one that is out of range."""
    text = os.environ.get(name, "")
    if not text:
        return 0
    if text.isascii() and text.isdigit() and int(text) <= _MOST[name]:
        return int(text)
    raise ValueError(f"{name} is {text!r}: it is a number, from 0 to {_MOST[name]}")


def incomplete_setting(asked: str | None = None) -> Literal["fail", "warn"]:
    """What becomes of an incomplete run: as asked, else as VELODROME_INCOMPLETE says, else 'fail'. Raises ValueError for other words."""
    word = asked or os.environ.get("VELODROME_INCOMPLETE") or "fail"
    if word in ("fail", "warn"):
        return typing.cast(Literal["fail", "warn"], word)
    source = "incomplete" if asked else "VELODROME_INCOMPLETE"
    raise ValueError(f"{source} is {word!r}: it is 'fail' or 'warn'")


_LETS_IT_PASS = "set VELODROME_INCOMPLETE=warn to let it pass with a warning"
_LONGEST_NAME = 200  # bytes of a log's name, which a file system takes with what comes behind it


def _log_path(folder: str, name: str) -> str:
    """Where the log of a test lies: without what is not for the name of a file."""
    plain = "".join("." if c in '/\\:*?"<>| \t\n\0' else c for c in name or "velodrome")
    short = os.fsencode(plain)[:_LONGEST_NAME].decode(errors="ignore")
    return os.path.join(folder, f"{short}.vlog")


class Session:
    """A run that is watched, in all threads of the program. Use `session()`; sessions nest."""

    def __init__(
        self,
        *,
        events: int | None = None,
        noise: int | None = None,
        seed: int | None = None,
        places: bool = True,
        ignore_variables: Iterable[str] = (),
        ignore_locks: Iterable[str] = (),
        ignore_labels: Iterable[str] = (),
    ) -> None:
        self._outcome: Outcome | None = None
        self._number = 0
        numbers = [
            number_setting(f"VELODROME_{key}") if asked is None else asked
            for key, asked in (("EVENTS", events), ("NOISE", noise), ("SEED", seed))
        ]
        self._before = _session.counts()
        ignored = [list(names) for names in (ignore_variables, ignore_locks, ignore_labels)]
        self._number = _session.open(numbers[0], numbers[1], numbers[2], places)
        for kind, names in enumerate(ignored if self._number else ()):
            for name in names:
                _session.ignore(self._number, kind, name)

    @property
    def outcome(self) -> Outcome:
        """What it came to; so far, without the text, while it is open."""
        return self._outcome or self._judged(_session.so_far(self._number), "")

    @property
    def used(self) -> bool:
        """Whether anything was recorded, or a block began, since it was opened."""
        return _session.counts() != self._before

    def _judged(self, verdict: int, text: str) -> Outcome:
        word: _Verdict = _VERDICTS.get(verdict, "incomplete")
        return Outcome(word, text or ("it could not be watched" if word == "incomplete" else ""))

    def save(self, path: str | os.PathLike[str]) -> bool:
        """PATH gets the log, PATH.names the names and PATH.sites the places: for `velodrome explain PATH --names PATH.names --sites
        PATH.sites`. False where they could not be written."""
        return _session.save(self._number, path)

    def close(self) -> Outcome:
        """Ends it; again is nothing."""
        if self._outcome is None:
            verdict, text, _ = _session.close(self._number, None, False)
            self._outcome = self._judged(verdict, text)
        return self._outcome

    def finish(
        self, name: str, *, folder: str | None = None, incomplete: str | None = None
    ) -> bool:
        """Ends it as a test. Returns whether the test fails: at an alarm, or where it is incomplete and that is no warning only.

        The log of a test that fails is kept in the folder (else VELODROME_LOGS, else the working directory) under this name, and the
        text says so. Where velodrome-report is on the path, the text of an alarm is what that says, with the lines of source.
        incomplete: 'fail' or 'warn' (else VELODROME_INCOMPLETE, else 'fail'). Raises ValueError for another word.
        """
        if self._outcome is not None:
            return False
        strict = incomplete_setting(incomplete) == "fail"
        path = _log_path(folder or os.environ.get("VELODROME_LOGS") or ".", name)
        if not self.outcome.clean:
            with contextlib.suppress(OSError):
                os.makedirs(os.path.dirname(path), exist_ok=True)
        verdict, text, saved = _session.close(self._number, path, strict and self.used)
        self._outcome = self._judged(verdict, text)
        fails = self._outcome.verdict == "alarm" or (strict and not self._outcome.clean)
        if saved:
            self._show_finding(path)
            quoted = shlex.quote(path)
            self._add(f"velodrome explain {quoted} --names {quoted}.names --sites {quoted}.sites\n")
        elif fails and self._outcome.verdict == "alarm":
            self._add(f"the log could not be written to {path}\n")
        return fails

    def check(
        self, name: str, *, folder: str | None = None, incomplete: str | None = None
    ) -> Outcome:
        """The same, and raises Alarm or Incomplete where the test fails; where incomplete is a warning only, it is IncompleteWarning.
        A session that has ended is judged, and no log is kept."""
        strict = incomplete_setting(incomplete) == "fail"
        self.finish(name, folder=folder, incomplete=incomplete)
        outcome = self.outcome
        if outcome.verdict == "alarm":
            raise Alarm(outcome.text)
        if strict and not outcome.clean:
            raise Incomplete(f"{outcome.text.rstrip()}\n{_LETS_IT_PASS}")
        if not outcome.clean:
            warnings.warn(IncompleteWarning(outcome.text), stacklevel=2)
        return outcome

    def _show_finding(self, path: str) -> None:
        if self._outcome and self._outcome.verdict == "alarm":
            shown = _finding.finding(path, self._outcome.text.partition("\n")[0])
            self._outcome = Outcome("alarm", shown or self._outcome.text)

    def _add(self, words: str) -> None:
        if self._outcome:
            self._outcome = Outcome(self._outcome.verdict, self._outcome.text + words)

    def __enter__(self) -> Session:
        return self

    def __exit__(self, *_: object) -> None:
        self.close()

    def __del__(self) -> None:
        self.close()


def session(
    *,
    events: int | None = None,
    noise: int | None = None,
    seed: int | None = None,
    places: bool = True,
    ignore_variables: Iterable[str] = (),
    ignore_locks: Iterable[str] = (),
    ignore_labels: Iterable[str] = (),
) -> Session:
    """Watches the program until the session is closed, as by `with velodrome.session() as run:`.

    events: the most in a stretch in which some block is open, up to 16,777,216 (0: 1,048,576); a longer one ends the recording.
    noise: one event in `noise` waits for up to 200 us, so that more schedules happen (0: none). seed: which ones.
    places: whether an event has its file and line, which costs a tenth of its time.
    What is not given is what VELODROME_EVENTS, VELODROME_NOISE and VELODROME_SEED say.
    ignore_variables, ignore_locks, ignore_labels: what has one of these names is left out, and so makes no alarm; a star in a name
    stands for any characters.

    A run of which nothing was recorded is incomplete. Raises ValueError for a number that is out of range, also of the environment.
    """
    return Session(
        events=events,
        noise=noise,
        seed=seed,
        places=places,
        ignore_variables=ignore_variables,
        ignore_locks=ignore_locks,
        ignore_labels=ignore_labels,
    )


class Block(_session.Block):
    """An atomic block: of a `with` statement, or of a function that it decorates.

    In a context manager of the program it is of the `with` statement of that one; elsewhere in a generator, of the generator: what its
    consumer does meanwhile is not in it. Where it cannot be known what is in a block, the session is incomplete.
    """

    def __call__(self, function: _Function) -> _Function:
        if isinstance(function, (staticmethod, classmethod)):
            return typing.cast(_Function, type(function)(self(function.__func__)))
        if inspect.isgeneratorfunction(function) or inspect.isasyncgenfunction(function):
            raise TypeError(
                f"{function.__qualname__} is a generator: what it does between its yields is not one block"
            )
        if inspect.iscoroutinefunction(function):

            @functools.wraps(function)
            async def coroutine(*args: Any, **keywords: Any) -> Any:
                with self:
                    return await function(*args, **keywords)

            return typing.cast(_Function, coroutine)

        @functools.wraps(function)
        def watched(*args: Any, **keywords: Any) -> Any:
            with self:
                return function(*args, **keywords)

        return typing.cast(_Function, watched)


@overload
def atomic(what: str) -> Block:
    ...


@overload
def atomic(what: _Function) -> _Function:
    ...


def atomic(what: Any) -> Any:
    """`with atomic('name'):`, `@atomic('name')`, or `@atomic` for a function, a method or a coroutine, which names the block.

    A coroutine's block is of its task. A generator is refused by TypeError.
    """
    if isinstance(what, str):
        return Block(what)
    if (
        not callable(what)
        and not isinstance(what, (staticmethod, classmethod))
        or isinstance(what, type)
    ):
        raise TypeError(f"atomic is for a function or the name of a block, not for {what!r}")
    code = getattr(inspect.unwrap(what), "__code__", None)
    place = f" ({os.path.basename(code.co_filename)}:{code.co_firstlineno})" if code else ""
    return Block(f'{getattr(what, "__qualname__", what)}{place}')(what)


@contextlib.contextmanager
def acting_as(actor: Actor) -> Iterator[None]:
    """What the thread, task or greenlet does within, it does as this actor."""
    before = switch(actor)
    try:
        yield
    finally:
        switch(before)


class Thread(threading.Thread):
    """threading.Thread, whose start and join are recorded."""

    _velodrome: tuple[int, int] | None = None

    def __init__(self, *args: Any, **keywords: Any) -> None:
        _REAL["Thread"].__init__(
            self, *args, **keywords
        )  # not super(): while patched, a threading.Timer comes here too
        _unwatch(self)

    def start(self) -> None:
        child = _session.fork()
        self.__dict__["run"] = functools.partial(_run, self, child, self.run)
        try:
            super().start()
        except BaseException:
            self.__dict__.pop("run", None)
            _session.exit(*child)
            raise
        self._velodrome = child

    def join(self, timeout: float | None = None) -> None:
        super().join(timeout)
        if self._velodrome and not self.is_alive():
            child, self._velodrome = self._velodrome, None
            _session.join(*child)


def _run(thread: Thread, child: tuple[int, int], body: Callable[[], None]) -> None:
    """What a thread does: its own `run`, recorded."""
    thread.__dict__.pop("run", None)  # else the thread would be a cycle
    _session.born(*child)
    try:
        body()
    finally:
        _session.exit(*child)


_REAL = {name: getattr(threading, name) for name in ("Lock", "RLock", "Thread")}
_OURS = {"Lock": Lock, "RLock": RLock, "Thread": Thread}


def _unwatch(thread: threading.Thread) -> None:
    """The event by which `start` waits for the thread is none of the program's: it is not recorded."""
    started = getattr(thread, "_started", None)
    if started and isinstance(getattr(started, "_cond", None), threading.Condition):
        started._cond = threading.Condition(_REAL["Lock"]())


_LIBRARY = tuple(
    os.path.join(os.path.normpath(sysconfig.get_path(name)), "")
    for name in ("stdlib", "platstdlib")
)
_PROGRAMS = (
    "site-packages",
    "dist-packages",
    "test",
    "tests",
)  # folders of the library's folder
_PACKAGE = os.path.join(os.path.dirname(os.path.abspath(__file__)), "")


def _is_library(file: str) -> bool:
    """Whether the code of this file is of Python's own library, or of this package."""
    if file.startswith(("<frozen ", _PACKAGE)):
        return True
    folder = next((f for f in _LIBRARY if file.startswith(f)), None)
    return folder is not None and file[len(folder) :].split(os.sep)[0] not in _PROGRAMS


_session.know(_is_library, threading.Condition.__init__.__code__)


@contextlib.contextmanager
def patched(*, library_locks: bool = False) -> Iterator[None]:
    """threading's Lock, RLock and Thread are ours meanwhile: for a program that is not changed.

    What is made meanwhile by their names in the modules stays watched. A module that took the names for its own keeps the old ones.
    The locks that Python's own library makes for itself, as a queue, a logger, an executor and an Event do, are none of the program's:
    they are recorded with `library_locks` alone. A Condition's lock is the program's.
    """
    before = {name: getattr(threading, name) for name in _OURS}
    told = _session.tell_library(library_locks)
    vars(threading).update(_OURS)
    try:
        yield
    finally:
        vars(threading).update(before)
        _session.tell_library(told)


@contextlib.contextmanager
def _watching(
    name: str, incomplete: str | None, library_locks: bool, options: dict[str, Any]
) -> Iterator[Session]:
    incomplete_setting(incomplete)  # a wrong one is told before a session is open
    run = session(**options)
    try:
        with patched(library_locks=library_locks):
            yield run
    except BaseException as failure:
        run.finish(name, incomplete=incomplete)
        if run.outcome.verdict == "alarm":
            _note(failure, run.outcome.text)
        raise
    run.check(name, incomplete=incomplete)


def _note(failure: BaseException, text: str) -> None:
    """Before Python 3.11 an exception has no notes."""
    add_note = getattr(failure, "add_note", None)
    if add_note:
        add_note(text)
    else:
        print(text, file=sys.stderr)


class Watched:
    """What `watched` gives."""

    def __init__(
        self,
        name: str | None,
        incomplete: str | None,
        library_locks: bool,
        options: dict[str, Any],
    ) -> None:
        self._name = name
        self._how = incomplete, library_locks, options
        self._entered = contextlib.ExitStack()

    def _watch(self, name: str) -> contextlib.AbstractContextManager[Session]:
        return _watching(self._name or name, *self._how)

    def __enter__(self) -> Session:
        return self._entered.enter_context(self._watch("velodrome"))

    def __exit__(self, *failure: Any) -> None:
        self._entered.__exit__(*failure)

    def __call__(self, what: _Decorated) -> _Decorated:
        if isinstance(what, type):
            for name in [name for name in dir(what) if name.startswith("test")]:
                setattr(what, name, self(getattr(what, name)))
            return typing.cast(_Decorated, what)
        function = typing.cast(Callable[..., Any], what)
        if inspect.iscoroutinefunction(function):

            @functools.wraps(function)
            async def coroutine(*args: Any, **keywords: Any) -> Any:
                with self._watch(_name_of(function, args)):
                    return await function(*args, **keywords)

            return typing.cast(_Decorated, coroutine)

        @functools.wraps(function)
        def test(*args: Any, **keywords: Any) -> Any:
            with self._watch(_name_of(function, args)):
                return function(*args, **keywords)

        return typing.cast(_Decorated, test)


def _name_of(function: Callable[..., Any], args: tuple[Any, ...]) -> str:
    """unittest has names of its own."""
    id_of = getattr(args[0], "id", None) if args else None
    return str(id_of()) if callable(id_of) else function.__qualname__


def watched(
    name: str | None = None,
    *,
    incomplete: str | None = None,
    library_locks: bool = False,
    **options: Any,
) -> Watched:
    """A test: a `with` statement, a function or coroutine that it decorates, or all tests of a unittest.TestCase that it decorates.

    At its end it raises Alarm or Incomplete, as `Session.check` does, and keeps the log under the name, else that of the test. What
    the test raises stays what it is, with an alarm as its note. The options are those of `session`; `patched` is in effect meanwhile.
    Raises ValueError as `session` and `Session.finish` do, before the test begins.
    """
    return Watched(name, incomplete, library_locks, options)
