"""The command `velodrome-report`."""

from __future__ import annotations

import argparse
import os
import shutil
import sys
from concurrent.futures import ThreadPoolExecutor, as_completed
from dataclasses import replace
from typing import Any, Dict, List, NoReturn, Optional, Sequence

from . import VERSION, as_json, assemble, checker, judge, ranking, runs
from .forms import FILES, FORMATS, Settings
from .judge import Asked, Looked
from .known import BadList, Known
from .model import Finding, Report, Section, Status
from .runs import NotFound, Source
from .source import Sources

WIDTH = 80
INTERRUPTED = 130
DESCRIPTION = "One list of what is wrong in the recorded runs of a program."
EPILOG = """\
RUN is a folder that velodrome-record made; without an operand the newest
recording of velodrome.runs/ is taken. TRACE is what a run with VELODROME_OUT
wrote, or what VELODROME_OUT was. LOG is a log, with its names and sites beside
it. AUDIT.json is an answer of velodrome audit or predict --format json.

status: 0 nothing was found in what was looked at, 3 something was found,
4 nothing can be said, 2 wrong usage, 5 a file cannot be read or written
"""


class Refused(Exception):
    """The call cannot be answered: its words, and the status."""

    def __init__(self, words: str, status: int) -> None:
        super().__init__(words)
        self.status = status


class Parser(argparse.ArgumentParser):
    """Says what is wrong in one line, and where help is."""

    def error(self, message: str) -> NoReturn:
        raise Refused(f"{message}. velodrome-report --help has all options", Status.USAGE)


class Version(argparse.Action):
    """Prints the version, and the file BUILD of the package that the command is installed by."""

    def __init__(self, **given: Any) -> None:
        super().__init__(nargs=0, **given)

    def __call__(self, parser: argparse.ArgumentParser, *_: object) -> NoReturn:
        print(f"velodrome-report {VERSION}")
        beside = os.path.join(os.path.dirname(os.path.realpath(sys.argv[0])), os.pardir, "BUILD")
        try:
            with open(beside, encoding="utf-8") as build:
                print(build.read(), end="")
        except OSError:
            pass  # it is not installed by a package
        parser.exit()


def parser() -> argparse.ArgumentParser:
    """The options."""
    made = Parser(
        prog="velodrome-report",
        usage="%(prog)s [RUN|TRACE|LOG|AUDIT.json ..] [option]..",
        description=DESCRIPTION,
        epilog=EPILOG,
        formatter_class=argparse.RawDescriptionHelpFormatter,
        allow_abbrev=False,
    )
    made.add_argument("operands", nargs="*", metavar="RUN", help=argparse.SUPPRESS)
    made.add_argument(
        "--explain", type=int, metavar="N", help="show finding N in full, with lanes and stacks"
    )
    made.add_argument(
        "--runs",
        action="store_true",
        help="list each run, too: its seed, how it ended, what was seen in it",
    )
    made.add_argument(
        "--known", metavar="FILE", help="leave out the functions and locks listed in FILE"
    )
    made.add_argument(
        "--source",
        metavar="FOLDER",
        action="append",
        default=[],
        help="look for sources here too; may be repeated",
    )
    made.add_argument(
        "--format",
        choices=sorted(FORMATS),
        default="text",
        metavar="FORM",
        help="print the list as " + ", ".join(sorted(FORMATS)),
    )
    for name in sorted(FILES):
        what = {"html": "a page", "svg": "a drawing of a finding"}.get(name, "a graph of a finding")
        made.add_argument(f"--{name}", metavar="FILE", help=f"write {what} to FILE, too")
    made.add_argument(
        "--merge",
        action="store_true",
        help="each operand is an answer of --format json: merge them",
    )
    made.add_argument(
        "--by-count", action="store_true", help="the functions with the most calls to blame first"
    )
    made.add_argument(
        "--innermost", action="store_true", help="leave out what is folded under what it calls"
    )
    made.add_argument("--checker", metavar="PROGRAM", help="velodrome; else VELODROME, or the path")
    made.add_argument(
        "--tries", type=int, metavar="N", help="schedules to try, for velodrome predict"
    )
    made.add_argument(
        "--only", metavar="FILE", help="blocks are only the functions in FILE, for velodrome-log"
    )
    made.add_argument(
        "--not-blocks",
        metavar="FILE",
        help="the functions in FILE are no blocks, for velodrome-log",
    )
    made.add_argument("--version", action=Version, help="show what this is built of, and exit")
    return made


def main(words: Optional[Sequence[str]] = None) -> int:
    """Runs the command, and gives its status. It never raises."""
    try:
        status = _run(list(sys.argv[1:] if words is None else words))
        sys.stdout.flush()
        return status
    except Refused as refused:
        return _failed(str(refused), refused.status)
    except BrokenPipeError:
        _close_output()
        return Status.FILES
    except OSError as reason:
        return _failed(f"{reason.filename or 'output'}: {reason.strerror}", Status.FILES)
    except KeyboardInterrupt:
        _failed("interrupted", INTERRUPTED)
        os._exit(INTERRUPTED)


def _failed(words: str, status: int) -> int:
    try:
        sys.stderr.write(f"velodrome-report: {words}\n")
    except OSError:
        pass
    return status


def _close_output() -> None:
    """Nobody reads any more: what is left to write goes nowhere."""
    os.dup2(os.open(os.devnull, os.O_WRONLY), sys.stdout.fileno())


def _run(words: List[str]) -> int:
    try:
        options = parser().parse_args(words)
    except SystemExit as done:
        return int(done.code or 0)
    report = _merged(options) if options.merge else _looked(options)
    report = _chosen(report, options)
    explained = _numbered(report, options.explain)
    sources = Sources(_folders(options, report), report.runs)
    report = assemble.with_sources(report, sources)
    terminal = sys.stdout.isatty()
    settings = Settings(
        width=shutil.get_terminal_size((WIDTH, 24)).columns if terminal else WIDTH,
        colours=terminal and not os.environ.get("NO_COLOR") and os.environ.get("TERM") != "dumb",
        by_count=options.by_count,
        innermost=options.innermost,
        runs=options.runs,
        explain=None if explained is None else report.findings[explained],
        finding=report.findings[explained or 0] if report.findings else None,
        sources=sources,
    )
    for name in sorted(FILES):
        path = getattr(options, name)
        if path is not None:
            _write(path, name, report, settings)
    sys.stdout.reconfigure(encoding="utf-8", errors="replace")  # type: ignore[attr-defined]
    sys.stdout.write(FORMATS[options.format](report, settings))
    return report.status()


def _write(path: str, name: str, report: Report, settings: Settings) -> None:
    """Writes a form to its file; a drawing of nothing is not written."""
    if name != "html" and settings.finding is None:
        return
    text = FILES[name](report, settings)
    with open(path, "w", encoding="utf-8", errors="replace") as opened:
        opened.write(text)


def _folders(options: argparse.Namespace, report: Report) -> List[str]:
    """Where sources may be: as told, where the programs ran, beside the traces, here."""
    for folder in options.source:
        if not os.path.isdir(folder):
            raise Refused(f"--source {folder}: there is no such folder", Status.FILES)
    folders = list(options.source)
    for run in report.runs:
        folders += [run.folder] if run.folder else []
        path = run.trace or run.log
        folders += [os.path.dirname(path) or "."] if path else []
    return list(dict.fromkeys([*folders, "."]))


def _numbered(report: Report, number: Optional[int]) -> Optional[int]:
    """The place of the finding to explain, from 0 on."""
    if number is None:
        return None
    if not 1 <= number <= len(report.findings):
        raise Refused(
            f"--explain {number}: there are {len(report.findings)} findings", Status.USAGE
        )
    return number - 1


def _chosen(report: Report, options: argparse.Namespace) -> Report:
    """The list as it was asked for."""
    findings = report.findings
    if options.innermost:
        findings = [one for one in findings if one.section is not Section.FOLDED]
    if options.by_count:
        findings = ranking.by_count(findings)
    return replace(report, findings=findings)


# ---- answers of several machines


def _merged(options: argparse.Namespace) -> Report:
    if not options.operands:
        raise Refused("--merge wants answers of --format json", Status.USAGE)
    parts: List[Report] = []
    for path in options.operands:
        try:
            with open(path, encoding="utf-8", errors="replace") as opened:
                parts.append(as_json.read(opened.read()))
        except as_json.NotAReport as reason:
            raise Refused(f"{path}: {reason}", Status.FILES) from None
    return assemble.merged(parts)


# ---- runs


def _looked(options: argparse.Namespace) -> Report:
    try:
        found = runs.find(options.operands)
    except NotFound as reason:
        raise Refused(str(reason), Status.FILES) from None
    known = _known(options.known)
    for_log: List[str] = []
    for name, path in (("--only", options.only), ("--not-blocks", options.not_blocks)):
        for_log += [name, path] if path is not None else []
    asked = Asked(
        programs=checker.programs(options.checker),
        known=known,
        for_log=for_log,
        for_predict=["--tries", str(options.tries)] if options.tries is not None else [],
    )
    try:
        every = _look_at_all(found.sources, asked)
        report = assemble.report(every, found.reasons)
        for looked in every:
            if looked.folder is not None:
                looked.folder.cleanup()
        return report
    finally:
        if known is not None:
            known.close()


def _known(path: Optional[str]) -> Optional[Known]:
    if path is None:
        return None
    try:
        return Known(path)
    except BadList as reason:
        raise Refused(str(reason), Status.USAGE) from None


def _look_at_all(sources: Sequence[Source], asked: Asked) -> List[Looked]:
    """Looks at all runs, side by side, and gives what was seen in their order."""
    done: Dict[int, Looked] = {}
    progress = Progress(len(sources))
    pool = ThreadPoolExecutor(max_workers=checker.cores())
    try:
        waiting = {pool.submit(judge.look, source, asked): n for n, source in enumerate(sources)}
        for future in as_completed(waiting):
            done[waiting[future]] = future.result()
            progress.step()
    except BaseException:
        pool.shutdown(wait=False)
        checker.end_all()
        raise
    finally:
        progress.clear()
    pool.shutdown()
    return [done[number] for number in range(len(sources))]


class Progress:
    """A line on a terminal: how many runs were looked at."""

    def __init__(self, whole: int) -> None:
        self._whole, self._done = whole, 0
        self._on = sys.stderr.isatty() and whole > 0
        self._show()

    def step(self) -> None:
        """One run more."""
        self._done += 1
        self._show()

    def clear(self) -> None:
        """Takes the line away."""
        if self._on:
            sys.stderr.write("\r\x1b[K")
            sys.stderr.flush()

    def _show(self) -> None:
        if self._on:
            sys.stderr.write(f"\r{self._done} of {self._whole} runs looked at\x1b[K")
            sys.stderr.flush()
