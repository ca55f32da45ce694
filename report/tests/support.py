"""Small logs with what stands beside them, and programs that stand in for the checker."""

from __future__ import annotations

import contextlib
import io
import json
import os
import stat
import sys
import tempfile
import unittest
from dataclasses import dataclass
from typing import Any, Dict, List, Optional, Sequence, Tuple, cast
from unittest import mock

HERE = os.path.dirname(os.path.abspath(__file__))
sys.path.insert(0, os.path.dirname(HERE))
COMMAND = os.path.join(os.path.dirname(HERE), "bin", "velodrome-report")
CHECKER = os.environ.get("VELODROME", "")

from velodrome_report import cli  # noqa: E402


@dataclass(frozen=True)
class Done:
    """How the command ended."""

    returncode: int
    stdout: str
    stderr: str


# a line of a log, and its site
Line = Tuple[str, str]


class Log:
    """A log that is written line by line, each with its site, `FILE:LINE FUNCTION` or nothing."""

    def __init__(self, threads: int = 3, variables: int = 1, locks: int = 1) -> None:
        self.header = f"vlog 2 {threads} {variables} {locks}"
        self.lines: List[Line] = [(f"0 fork {t}", "") for t in range(1, threads)]
        self.names: Dict[str, str] = {}
        self.functions: List[str] = []
        self.notes: Optional[Dict[str, Any]] = None

    def add(self, *lines: Line) -> "Log":
        """More lines."""
        self.lines += lines
        return self

    def named(self, **names: str) -> "Log":
        """Names: `label_0="deposit(long)"`."""
        self.names.update({key.replace("_", " "): name for key, name in names.items()})
        return self

    def write(self, path: str) -> str:
        """Writes the log and what stands beside it, and gives its path."""
        put(path, self.header + "\n" + "".join(f"{text}\n" for text, _ in self.lines))
        put(path + ".names", "".join(f"{key} {name}\n" for key, name in self.names.items()))
        table = list(dict.fromkeys(site for _, site in self.lines if site))
        text = f"vsites 1 {len(table)} {len(self.lines)}\n" + "".join(f"{s}\n" for s in table)
        for _, site in self.lines:
            text += f"{table.index(site) + 1 if site else 0}\n"
        put(path + ".sites", text)
        if self.functions:
            put(path + ".functions", "".join(f"{line}\n" for line in self.functions))
        if self.notes is not None:
            put(path + ".notes", json.dumps(self.notes))
        return path


def hold(thread: int, access: str, line: int, function: str, lock: int = 0) -> List[Line]:
    """A hold of a lock around one access: `rd 0 0`."""
    site = f"bank/bank.cpp:{line} {function}"
    return [
        (f"{thread} acq {lock}", f"{site} taken"),
        (f"{thread} {access}", site),
        (f"{thread} rel {lock}", f"{site} given"),
    ]


def lost_update(interrupted: bool = True) -> Log:
    """Two threads deposit: each reads under the lock, and writes under a later hold of it."""
    log = Log().named(
        label_0="deposit(long)", lock_0="lock", variable_0="balance", thread_1="one", thread_2="two"
    )
    log.functions = ["0 - 2 bank/bank.cpp:4 deposit(long)"]
    first = [("1 begin 0", "bank/bank.cpp:12 main")] + hold(1, "rd 0 0", 5, "deposit(long)")
    last = hold(1, "wr 0 0", 6, "deposit(long)") + [("1 end", "")]
    other = [("2 begin 0", "bank/bank.cpp:13 main")]
    other += hold(2, "rd 0 0", 5, "deposit(long)") + hold(2, "wr 0 0", 6, "deposit(long)")
    other += [("2 end", "")]
    return log.add(*(first + other + last if interrupted else first + last + other))


def inverted_order() -> Log:
    """Two threads take two locks in two orders, one after the other."""
    log = Log(variables=0, locks=2).named(label_0="move(int, int)", lock_0="a.m", lock_1="b.m")
    log.functions = ["0 - 2 d.cpp:9 move(int, int)"]
    for thread, first, second in ((1, 0, 1), (2, 1, 0)):
        log.add(
            (f"{thread} begin 0", "d.cpp:20 main"),
            (f"{thread} acq {first}", "d.cpp:10 move(int, int)"),
            (f"{thread} acq {second}", "d.cpp:11 move(int, int)"),
            (f"{thread} rel {second}", ""),
            (f"{thread} rel {first}", ""),
            (f"{thread} end", ""),
        )
    return log


def right() -> Log:
    """Two threads that read and write under one hold."""
    log = Log().named(label_0="add", lock_0="lock", variable_0="sum")
    log.functions = ["0 - 2 sum.c:3 add"]
    for thread in (1, 2):
        log.add(
            (f"{thread} begin 0", "sum.c:9 main"),
            (f"{thread} acq 0", "sum.c:4 add"),
            (f"{thread} rd 0 0", "sum.c:5 add"),
            (f"{thread} wr 0 0", "sum.c:5 add"),
            (f"{thread} rel 0", "sum.c:6 add"),
            (f"{thread} end", ""),
        )
    return log


def put(path: str, text: str) -> str:
    """Writes a file, and gives its path."""
    with open(path, "w", encoding="utf-8") as opened:
        opened.write(text)
    return path


def program(path: str, script: str) -> str:
    """A program of a shell's lines."""
    put(path, "#!/bin/sh\n" + script)
    os.chmod(path, os.stat(path).st_mode | stat.S_IXUSR)
    return path


class InFolder(unittest.TestCase):
    """A test in a folder of its own."""

    def setUp(self) -> None:
        folder = tempfile.TemporaryDirectory()
        self.addCleanup(folder.cleanup)
        self.folder = folder.name

    def path(self, *names: str) -> str:
        """A path in the folder; the folders before it are made."""
        path = os.path.join(self.folder, *names)
        os.makedirs(os.path.dirname(path), exist_ok=True)
        return path

    def run_command(self, *words: str, checker: Optional[str] = None, **environment: str) -> Done:
        """Runs the command in the folder, in this process."""
        settings = {"VELODROME": CHECKER if checker is None else checker, **environment}
        out = io.TextIOWrapper(io.BytesIO(), encoding="utf-8")
        said = io.StringIO()
        before = os.getcwd()
        os.chdir(self.folder)
        try:
            with mock.patch.dict(os.environ, settings):
                with contextlib.redirect_stdout(out), contextlib.redirect_stderr(said):
                    status = cli.main(words)
        finally:
            os.chdir(before)
        out.flush()
        printed = cast(io.BytesIO, out.buffer).getvalue().decode()
        return Done(status, printed, said.getvalue())

    def answer(self, *words: str) -> Dict[str, Any]:
        """The report as JSON."""
        done = self.run_command(*words, "--format", "json")
        found: Dict[str, Any] = json.loads(done.stdout)
        self.assertEqual(found["status"], done.returncode)
        return found


def needs_checker(test: Any) -> Any:
    """Leaves a test out where there is no checker."""
    return unittest.skipUnless(CHECKER and os.access(CHECKER, os.X_OK), "PROGRAM is missing")(test)


def lines_of(sequence: Sequence[str]) -> str:
    """The lines as one text."""
    return "".join(f"{line}\n" for line in sequence)
