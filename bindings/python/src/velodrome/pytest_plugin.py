"""pytest --velodrome: each test is watched, and fails where its blocks were not atomic. So are those that are marked `velodrome`.

A watched test that was not watched to its end fails too, as does one of which nothing was recorded; `--velodrome-incomplete warn` makes
it a warning. With --velodrome that goes for tests that use velodrome: how many do not is said in the summary.
"""
from __future__ import annotations

import contextlib
import dataclasses
import functools
import os
import sys
from typing import Any, Callable, Iterator

import pytest
from _pytest.runner import CallInfo, runtestprotocol

import velodrome

_HOW = "\nset --velodrome-incomplete warn, or mark the test velodrome(incomplete='warn'), to let it pass with a warning"


@dataclasses.dataclass
class _Plugin:
    """What was chosen for all tests, and which were watched."""

    logs: str
    incomplete: str | None
    patch: bool
    library_locks: bool
    switch: float | None
    watched: set[str] = dataclasses.field(default_factory=set)
    used: set[str] = dataclasses.field(default_factory=set)  # something of velodrome


@dataclasses.dataclass
class _Watch:
    """How a test is watched."""

    marked: bool
    repeat: int
    incomplete: str | None
    options: dict[str, Any]


def pytest_addoption(parser: pytest.Parser) -> None:
    group = parser.getgroup("velodrome", "atomic blocks (velodrome)")
    group.addoption(
        "--velodrome", action="store_true", help="watch the atomic blocks of every test"
    )
    group.addoption(
        "--velodrome-noise",
        type=int,
        metavar="N",
        help="one event in N waits, so that more schedules happen (else VELODROME_NOISE)",
    )
    group.addoption(
        "--velodrome-repeat",
        type=int,
        metavar="N",
        help="run each watched test up to N times, with fixtures of its own, until it fails",
        default=1,
    )
    group.addoption(
        "--velodrome-switch",
        type=float,
        metavar="SECONDS",
        help="switch threads so often (sys.setswitchinterval)",
    )
    group.addoption(
        "--velodrome-logs",
        metavar="FOLDER",
        help="folder for the logs of alarms (else VELODROME_LOGS, else .velodrome)",
    )
    group.addoption(
        "--velodrome-incomplete",
        choices=("warn", "fail"),
        help="for a test that was not watched to its end (else VELODROME_INCOMPLETE, else fail)",
    )
    parser.addini(
        "velodrome_patch",
        "watch threading.Lock, RLock and Thread in watched tests",
        type="bool",
        default=True,
    )
    parser.addini(
        "velodrome_library_locks",
        "watch also the locks that Python's own library makes for itself",
        type="bool",
        default=False,
    )


_PLUGIN = pytest.StashKey[_Plugin]()
_WATCH = pytest.StashKey[_Watch]()


def pytest_configure(config: pytest.Config) -> None:
    config.addinivalue_line(
        "markers",
        "velodrome(events, noise, seed, places, repeat, incomplete): watch the atomic blocks of this test",
    )
    config.stash[_PLUGIN] = _Plugin(
        logs=config.getoption("velodrome_logs")
        or os.environ.get("VELODROME_LOGS")
        or str(config.rootpath / ".velodrome"),
        incomplete=config.getoption("velodrome_incomplete"),
        patch=config.getini("velodrome_patch"),
        library_locks=config.getini("velodrome_library_locks"),
        switch=config.getoption("velodrome_switch"),
    )


def pytest_itemcollected(item: pytest.Item) -> None:
    marker = item.get_closest_marker("velodrome")
    if not marker and not item.config.getoption("velodrome"):
        return
    options: dict[str, Any] = {
        "noise": item.config.getoption("velodrome_noise"),
        "repeat": item.config.getoption("velodrome_repeat"),
        "incomplete": item.config.stash[_PLUGIN].incomplete,
        **(marker.kwargs if marker else {}),
    }
    repeat, incomplete = options.pop("repeat"), options.pop("incomplete")
    item.stash[_WATCH] = _Watch(marker is not None, repeat, incomplete, options)
    setattr(item, "runtest", functools.partial(_run, item, item.runtest))
    setattr(item, "repr_failure", functools.partial(_repr_failure, item.repr_failure))


def pytest_collection_modifyitems(items: list[pytest.Item]) -> None:
    """A setting that means nothing is told before the first test, and not by each."""
    watches = [item.stash[_WATCH] for item in items if _WATCH in item.stash]
    try:
        for watch in watches:
            velodrome.incomplete_setting(watch.incomplete)
        for name in ("VELODROME_EVENTS", "VELODROME_NOISE", "VELODROME_SEED") if watches else ():
            velodrome.number_setting(name)
    except ValueError as error:
        raise pytest.UsageError(str(error)) from None


@pytest.hookimpl(tryfirst=True)  # type: ignore[misc]
def pytest_runtest_protocol(item: pytest.Item, nextitem: pytest.Item | None) -> bool | None:
    """A test that is repeated has fixtures of its own each time, as if it were as many tests."""
    watch = item.stash.get(_WATCH, None)
    if watch is None or watch.repeat <= 1:
        return None
    item.ihook.pytest_runtest_logstart(nodeid=item.nodeid, location=item.location)
    for report in _reports(item, nextitem, watch.repeat):
        item.ihook.pytest_runtest_logreport(report=report)
    item.ihook.pytest_runtest_logfinish(nodeid=item.nodeid, location=item.location)
    return True


def _reports(
    item: pytest.Item, nextitem: pytest.Item | None, repeat: int
) -> list[pytest.TestReport]:
    """Those of the last run, or of the first that does not pass."""
    stays: Any = item.parent  # what is above the test stays for the next run of it
    for _ in range(repeat - 1):
        reports = runtestprotocol(item, nextitem=stays, log=False)
        if not all(report.passed for report in reports):
            end: Any = functools.partial(item.session._setupstate.teardown_exact, nextitem)
            ended = CallInfo.from_call(end, when="teardown")
            last = item.ihook.pytest_runtest_makereport(item=item, call=ended)
            return reports if last.passed else [*reports, last]
    return runtestprotocol(item, nextitem=nextitem, log=False)


def _run(item: pytest.Item, body: Callable[[], None]) -> None:
    """The test, watched."""
    plugin, watch = item.config.stash[_PLUGIN], item.stash[_WATCH]
    run = velodrome.session(**watch.options)
    plugin.watched.add(item.nodeid)
    patch = velodrome.patched(library_locks=plugin.library_locks)
    finish = functools.partial(
        run.finish, _name(item), folder=plugin.logs, incomplete=watch.incomplete
    )
    try:
        with _switching(plugin.switch), patch if plugin.patch else contextlib.nullcontext():
            body()
    except BaseException:
        if _counts(item, run):
            finish()
            if not run.outcome.clean:
                item.add_report_section("call", "velodrome", run.outcome.text)
        run.close()
        raise
    if not _counts(item, run):
        run.close()
        return
    fails = finish()
    if run.outcome.verdict == "alarm":
        raise velodrome.Alarm(run.outcome.text)
    if fails:
        raise velodrome.Incomplete(run.outcome.text.rstrip() + _HOW)
    if not run.outcome.clean:
        item.warn(velodrome.IncompleteWarning(run.outcome.text))


def _counts(item: pytest.Item, run: velodrome.Session) -> bool:
    """Whether this run of the test has to have been recorded: it is marked, or used velodrome."""
    if run.used:
        item.config.stash[_PLUGIN].used.add(item.nodeid)
    return run.used or item.stash[_WATCH].marked


def pytest_sessionfinish(session: pytest.Session, exitstatus: int) -> None:
    """A run that recorded nothing at all has not passed."""
    plugin = session.config.stash[_PLUGIN]
    if plugin.watched and not plugin.used and exitstatus == pytest.ExitCode.OK:
        session.exitstatus = pytest.ExitCode.TESTS_FAILED


def pytest_terminal_summary(terminalreporter: Any, config: pytest.Config) -> None:
    plugin = config.stash[_PLUGIN]
    unused = len(plugin.watched - plugin.used)
    if unused:
        terminalreporter.write_line(
            f"velodrome: {unused} of {len(plugin.watched)} watched tests used nothing of velodrome, so there was nothing to record"
        )


def _name(item: pytest.Item) -> str:
    # the id of a test outside pytest's root folder has no path: its log would be a hidden file
    return item.nodeid.lstrip("./:")


@contextlib.contextmanager
def _switching(seconds: float | None) -> Iterator[None]:
    before = sys.getswitchinterval()
    sys.setswitchinterval(seconds or before)
    try:
        yield
    finally:
        sys.setswitchinterval(before)


def _repr_failure(
    otherwise: Callable[..., Any],
    failure: pytest.ExceptionInfo[BaseException],
    *args: Any,
    **keywords: Any,
) -> Any:
    """An alarm is its text, and so is an incomplete run: where it was raised is of no interest."""
    own = failure.errisinstance((velodrome.Alarm, velodrome.Incomplete))
    return str(failure.value) if own else otherwise(failure, *args, **keywords)
