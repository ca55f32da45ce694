"""Runs the sessions of pages over the built program, side by side, and compares what they print.

    python3 tools/golden.py [--update] [--jobs N] PROGRAM [PAGE..]

PROGRAM is the built `velodrome`; without pages, those at the top and below docs/, recorder/, report/ and tests/ are read. Of each page's
fenced blocks

- one that begins with "```KIND NAME", where NAME has a dot, is the file NAME;
- one that begins with "```console" is a session: a line `$ COMMAND` is run by a shell, and the
  lines up to the next one are what it prints; after the command `# status N` says how it ends, if
  not by 0. In a page below tests/ the lines on standard error come last, each behind `2> `; in other
  pages both outputs are one, as on a terminal;
- one that begins with "```console recorder" is a session that compiles, with the recorder: it is
  run where recorder/out/bin is built;
- "```sh" is left out, as it wants the toolchain, a compiler, other machines or an hour.

The sessions of a page run in its order, in one new folder, `work`, which has the files of the page
alone, as a reader has it. The program is on the path, and TOP is the folder of this repository.
Standard input is empty. Output that does not end in a newline has the line `\\ no newline` behind it.
Then each inline command of the page, `velodrome ..`, is run there too, if it has no placeholder in
capitals and no `..`: it must not end in an error of usage or in status 5.

`--update` writes into the sessions what is printed now, with its status: read the difference.
Pages run side by side, N at a time, else as many as there are processors.

The last line is `N passed, N failed`; the status is 0 where none failed, 1 where one did or a page was changed.
"""

import argparse
import concurrent.futures
import glob
import os
import re
import signal
import subprocess
import sys
import tempfile
from typing import Dict, Iterator, List, Match, Tuple

TOP = os.path.dirname(os.path.dirname(os.path.abspath(__file__)))
RECORDER = os.path.join(TOP, "recorder", "out", "bin")
FENCE = re.compile(r"^```(\w+)(?: (\S+))?\n(.*?)^```$", re.M | re.S)
INLINE = re.compile(r"(?<!`)`(velodrome [^`\n]* [^`\n]+|velodrome --[^`\n]+)`(?!`)")
PLACEHOLDER = re.compile(r"\b[A-Z]{2,}\b|\.\. |\.\.$| \.\.")
STATUS = re.compile(r"\s+# status (\d+)$")
NO_NEWLINE = "\\ no newline\n"
SECONDS = 300


def pages() -> List[str]:
    below = ("*.md", "docs/**/*.md", "recorder/*.md", "report/*.md", "tests/*.md")
    return [
        page for it in below for page in sorted(glob.glob(os.path.join(TOP, it), recursive=True))
    ]


def commands(session: str) -> Iterator[Tuple[str, str]]:
    """Each line of a session with a command, and what it prints."""
    for part in re.split(r"^\$ ", session, flags=re.M)[1:]:
        line, _, printed = part.partition("\n")
        yield line, printed


def status_of(line: str) -> int:
    """The status that a line of a session says."""
    status = STATUS.search(line)
    return int(status[1]) if status else 0


def with_status(line: str, status: int) -> str:
    """A line of a session, with the status as it came."""
    if status == status_of(line):
        return line
    return STATUS.sub("", line) + (f"  # status {status}" if status else "")


def whole_lines(output: bytes) -> str:
    """An output as lines, of which the last says where a newline is missing."""
    text = output.decode("utf-8", "backslashreplace")
    return text if not text or text.endswith("\n") else f"{text}\n{NO_NEWLINE}"


def environment(path: str) -> Dict[str, str]:
    """The environment of a command: the same on every terminal."""
    without = {name: value for name, value in os.environ.items() if name != "NO_COLOR"}
    return dict(without, PATH=path, TOP=TOP, TERM="xterm", LC_ALL="C.UTF-8")


def marked(errors: str) -> str:
    """The lines of standard error, as they stand in a page."""
    return "".join(f"2> {line}".rstrip() + "\n" for line in errors.split("\n")[:-1])


class Page:
    """A page, the folder in which its commands run, and what became of them."""

    def __init__(self, page: str, folder: str, path: str) -> None:
        self.path, self.folder, self.programs = page, folder, path
        self.name = os.path.relpath(page, TOP)
        self.is_apart = self.name.split(os.sep)[0] == "tests"
        self.passed = self.failed = self.left = 0
        self.complaints: List[str] = []
        with open(page, encoding="utf-8") as it:
            self.text = it.read()

    def ran(self, command: str) -> Tuple[str, int]:
        """What a command prints, and its status."""
        path = os.pathsep.join((self.programs, RECORDER, os.environ["PATH"]))
        with subprocess.Popen(
            ["bash", "-c", command],
            cwd=self.folder,
            env=environment(path),
            stdin=subprocess.DEVNULL,
            stdout=subprocess.PIPE,
            stderr=subprocess.PIPE if self.is_apart else subprocess.STDOUT,
            start_new_session=True,
        ) as shell:
            try:
                out, err = shell.communicate(timeout=SECONDS)
            except subprocess.TimeoutExpired:
                # what the shell started waits, too
                os.killpg(shell.pid, signal.SIGKILL)
                return f"no end in {SECONDS} seconds\n", -1
        return whole_lines(out) + marked(whole_lines(err or b"")), shell.returncode

    def expect(self, right: bool, command: str, wanted: str, seen: Tuple[str, int]) -> None:
        self.passed, self.failed = self.passed + right, self.failed + (not right)
        if not right:
            self.complaints.append(
                f"{self.name}: {command}\nexpected {wanted}came, with status {seen[1]}:\n{seen[0]}"
            )

    def run_session(self, session: str) -> str:
        """Runs a session; answers it as it went."""
        went = []
        for line, printed in commands(session):
            command, status = STATUS.sub("", line), status_of(line)
            seen = self.ran(command)
            self.expect((printed, status) == seen, command, f"status {status}:\n{printed}", seen)
            went.append(f"$ {with_status(line, seen[1])}\n{seen[0]}")
        return "".join(went)

    def write_file(self, name: str, body: str) -> None:
        path = os.path.join(self.folder, name)
        os.makedirs(os.path.dirname(path), exist_ok=True)
        with open(path, "w", encoding="utf-8") as it:
            it.write(body)

    def run_block(self, block: Match[str]) -> str:
        """Does what a block says; answers its text as it went."""
        kind, name, body = block.groups(default="")
        if "." in name:
            self.write_file(name, body)
        elif kind == "sh" or name == "recorder" and not os.path.isdir(RECORDER):
            self.left += 1
        elif kind == "console":
            head = block[0].partition("\n")[0]
            return f"{head}\n{self.run_session(body)}```"
        return block[0]

    def run_inline(self) -> None:
        for command in INLINE.findall(FENCE.sub("", self.text)):
            if not PLACEHOLDER.search(command):
                seen = self.ran(command)
                self.expect(seen[1] in (0, 3, 4), command, "no error\n", seen)

    def run(self) -> str:
        """Runs the whole page; answers its text as it went."""
        went = FENCE.sub(self.run_block, self.text)
        self.run_inline()
        return went


def judged(page: str, program: str, update: bool) -> Page:
    with tempfile.TemporaryDirectory() as room:
        path, folder = os.path.join(room, "path"), os.path.join(room, "work")
        os.mkdir(folder)
        os.mkdir(path)
        os.symlink(program, os.path.join(path, "velodrome"))
        found = Page(page, folder, path)
        went = found.run()
    if update and went != found.text:
        with open(page, "w", encoding="utf-8") as it:
            it.write(went)
    return found


def arguments(words: List[str]) -> argparse.Namespace:
    parser = argparse.ArgumentParser(
        description=__doc__, formatter_class=argparse.RawDescriptionHelpFormatter
    )
    parser.add_argument("--update", action="store_true")
    parser.add_argument("--jobs", type=int, default=os.cpu_count() or 1)
    parser.add_argument("program")
    parser.add_argument("page", nargs="*")
    asked = parser.parse_args(words)
    for path in (asked.program, *asked.page):
        if not os.path.isfile(path):
            parser.error(f"{path} is no file")
    return asked


def main(words: List[str]) -> int:
    asked = arguments(words)
    program = os.path.abspath(asked.program)
    all_pages = [os.path.abspath(page) for page in asked.page] or pages()
    with concurrent.futures.ThreadPoolExecutor(max(1, asked.jobs)) as pool:
        runs = [pool.submit(judged, page, program, asked.update) for page in all_pages]
        found = [run.result() for run in runs]
    for page in found:
        print("".join(page.complaints), end="")
    print(f"{sum(page.left for page in found)} blocks left out")
    failed = sum(page.failed for page in found)
    print(f"{sum(page.passed for page in found)} passed, {failed} failed")
    return 1 if failed else 0


if __name__ == "__main__":
    sys.exit(main(sys.argv[1:]))
