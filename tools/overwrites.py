"""Aims each output of each command at each file that it reads, and at its other output.

    python3 tools/overwrites.py PROGRAM

A file is named in the ways in which one file can be: by its path, by another path, by links, and
where it is standard input by `/dev/stdin` and the like, also where the command reads `-`. Each such
command line has to end with status 2 and a line that names both operands, and to leave all files as
they were. Devices and pipes are not refused, nor are two files. The last line is `N passed, N
failed`; the status is 0 where none failed.
"""
import argparse
import os
import re
import shutil
import subprocess
import sys
import tempfile
from pathlib import Path
from typing import Callable, Dict, Iterator, List, NamedTuple, Optional, Tuple

SECONDS = 60
REFUSED = 2
REFUSAL = re.compile(r"error: (\S+) and (\S+) are one file\n")
STANDARD_INPUT = ("/dev/stdin", "/dev/fd/0", "/proc/self/fd/0")

FILES = {
    "log": "vlog 2 3 1 2\n0 fork 1\n0 begin 7\n0 rd 0 0\n1 wr 0 5\n0 wr 0 1\n0 end\n",
    "order": "vlog 2 3 0 2\n0 fork 1\n0 fork 2\n1 acq 0\n1 acq 1\n1 rel 1\n1 rel 0\n"
    "2 acq 1\n2 acq 0\n2 rel 0\n2 rel 1\n",
    "names": "label 7 get\nlock 0 m\nthread 0 main\n",
    "sites": "vsites 1 1 6\na.c:5 f\n" + "1\n" * 6,
    "order.sites": "vsites 1 1 10\na.c:5 f\n" + "1\n" * 10,
    "list": "9\n",
    "work": "var x\nthread main\nfork a\nbegin inc\nread x\nadd 1\nwrite x\nend\n"
    "thread a\nset 5\nwrite x\n",
    "turns": "0*3 1 0\n",
}


class Command(NamedTuple):
    """A command that writes, the files that it reads, and the options of its outputs.

    Both are found by the operand that a refusal names.
    """

    name: str
    reads: Dict[str, str]
    writes: Dict[str, str]


RUN = {"OUT": "--log", "NAMES": "--names-out"}
COMMANDS = (
    Command("carry", {"LOG": "log"}, {"OUT": "--log"}),
    Command(
        "thin",
        {"LOG": "log", "--names": "names", "--ignore": "list"},
        {"OUT": "--log", "MAP": "--map"},
    ),
    Command(
        "predict",
        {"LOG": "order", "--names": "names", "--sites": "order.sites", "--not-atomic": "list"},
        {"OUT": "--log"},
    ),
    Command("replay", {"FILE": "work", "--turns": "turns"}, RUN),
    Command("run", {"FILE": "work"}, RUN),
    Command("explore", {"FILE": "work"}, RUN),
)


def linked(path: str) -> str:
    os.symlink(path, "link")
    return "link"


def linked_twice(path: str) -> str:
    os.symlink(path, "farther")
    os.symlink("farther", "link")
    return "link"


def linked_from_folder(path: str) -> str:
    os.symlink("../" + path, "folder/link")
    return "folder/link"


def linked_hard(path: str) -> str:
    os.link(path, "hard")
    return "hard"


NEW_PATHS: Tuple[Callable[[str], str], ...] = (
    lambda path: path,
    lambda path: "./" + path,
    os.path.abspath,
    lambda path: "here/" + path,
    lambda path: "folder/../" + path,
    lambda path: "folder//up/" + path,
    linked,
    linked_twice,
    linked_from_folder,
)
PATHS = NEW_PATHS + (linked_hard,)


def make_files() -> None:
    """The folder as it is before each command line."""
    for name in os.listdir("."):
        if os.path.isdir(name) and not os.path.islink(name):
            shutil.rmtree(name)
        else:
            os.unlink(name)
    for name, text in FILES.items():
        Path(name).write_text(text, encoding="utf-8")
    os.mkdir("folder")
    os.symlink("..", "folder/up")
    os.symlink(".", "here")


def contents() -> Dict[str, str]:
    """The text of each file in the folder."""
    return {
        name: Path(name).read_text(encoding="utf-8")
        for name in os.listdir(".")
        if os.path.isfile(name)
    }


def words_of(command: Command, reads: Dict[str, str], writes: Dict[str, str]) -> List[str]:
    """The words of a command that reads and writes at these paths."""
    words = [command.name]
    for operand, path in reads.items():
        if operand == "--turns":
            words += [operand, "@" + path]
        elif operand.startswith("--"):
            words += [operand, path]
        else:
            words.append(path)
    if "OUT" not in writes and command.writes["OUT"] == "--log":
        words += ["--log", "other"]
    for operand, path in writes.items():
        words += [command.writes[operand], path]
    return words


class Judge:
    """Runs the program, and counts what passed and what failed."""

    def __init__(self, program: str) -> None:
        self.program = program
        self.passed = 0
        self.failed = 0

    def count(self, is_right: bool, told: str) -> None:
        if is_right:
            self.passed += 1
        else:
            self.failed += 1
            print(told)

    def run(self, words: List[str], given: Optional[str]) -> Tuple[int, str]:
        """The status and standard error, where standard input is this file, or empty."""
        with open(given or os.devnull, "r+", encoding="utf-8") as source:
            done = subprocess.run(
                [self.program, *words],
                stdin=source,
                capture_output=True,
                text=True,
                timeout=SECONDS,
                check=False,
            )
        return done.returncode, done.stderr

    def refuses(self, words: List[str], given: Optional[str], operands: Tuple[str, str]) -> None:
        """The two operands are told to be one file, and no file is lost or made."""
        before = contents()
        status, err = self.run(words, given)
        after = contents()
        told = REFUSAL.fullmatch(err)
        is_told = status == REFUSED and told is not None and told.groups() == operands
        lost = [name for name in {**before, **after} if before.get(name) != after.get(name)]
        self.count(
            is_told and not lost,
            f"{' '.join(words)} < {given}: status {status}, {err!r}, lost {lost}",
        )

    def takes(self, words: List[str]) -> None:
        """No two operands are told to be one file."""
        status, err = self.run(words, None)
        is_taken = status != REFUSED and "one file" not in err
        self.count(is_taken, f"{' '.join(words)}: status {status}, {err!r}")


def pairs(command: Command) -> Iterator[Tuple[str, str]]:
    for target in command.writes:
        for read in command.reads:
            yield read, target


def aim_at_reads(judge: Judge, command: Command) -> None:
    """Each output is a file that the command reads."""
    for read, target in pairs(command):
        for alias in PATHS:
            make_files()
            path = alias(command.reads[read])
            words = words_of(command, command.reads, {target: path})
            judge.refuses(words, None, (read, target))


def aim_at_input(judge: Judge, command: Command) -> None:
    """Standard input is a file that the command reads, by its path or from there."""
    for read, target in pairs(command):
        name = command.reads[read]
        ways = [(name, path) for path in STANDARD_INPUT]
        ways += [("-", path) for path in (*STANDARD_INPUT, name)]
        ways += [(path, path) for path in STANDARD_INPUT]
        for source, path in ways:
            make_files()
            words = words_of(command, {**command.reads, read: source}, {target: path})
            judge.refuses(words, name, (read, target))


def aim_at_output(judge: Judge, command: Command) -> None:
    """Both outputs are one file, which is there already or is not."""
    if len(command.writes) < 2:
        return
    first, second = command.writes
    for text, aliases in (("old\n", PATHS), (None, NEW_PATHS)):
        for alias in aliases:
            make_files()
            if text:
                Path("both").write_text(text, encoding="utf-8")
            words = words_of(command, command.reads, {first: "both", second: alias("both")})
            judge.refuses(words, None, (first, second))


def aim_elsewhere(judge: Judge, command: Command) -> None:
    """The outputs are devices, a pipe, or files of their own, one of them named `-`."""
    make_files()
    os.mkdir("folder/deep")
    for paths in (
        (os.devnull, os.devnull),
        ("/dev/stdout", "/dev/stdout"),
        ("one", "two"),
        ("-", "two"),
        ("folder/new", "folder/deep/new"),
    ):
        judge.takes(words_of(command, command.reads, dict(zip(command.writes, paths))))


def main() -> int:
    parser = argparse.ArgumentParser(description="Looks for files that the program overwrites.")
    parser.add_argument("program")
    judge = Judge(os.path.abspath(parser.parse_args().program))
    home = os.getcwd()
    with tempfile.TemporaryDirectory() as folder:
        os.chdir(folder)
        for command in COMMANDS:
            for aim in (aim_at_reads, aim_at_input, aim_at_output, aim_elsewhere):
                aim(judge, command)
        os.chdir(home)
    print(f"{judge.passed} passed, {judge.failed} failed")
    return 1 if judge.failed else 0


if __name__ == "__main__":
    sys.exit(main())
