"""Runs `rt all check` in the folder of the program, and says which crate of how many was proved, and about how long is left.

    python3 tools/progress.py LOG [JOBS]

What rt prints goes to the file LOG; of a crate that is not proved the end of it is printed too. The status is that of rt.

How long is left is told by the lines of source that are left, and the time that those took which were proved in this run.
"""
import glob
import os
import re
import subprocess
import sys
import time

TOP = os.path.dirname(os.path.dirname(os.path.abspath(__file__)))
PROGRAM = "velodrome"

# What a crate costs before its first line, in lines of source: 18 s and 0.2 s a line were measured.
LINES_OF_A_CRATE = 90


def crates_below(crate):
    """The crate and those of this repository that it stands on."""
    with open(f"{TOP}/crates.txt", encoding="utf-8") as lines:
        entries = [line.split("#")[0].split(":") for line in lines if line.split("#")[0].strip()]
    listed = {head.split()[0]: tail.split() for head, tail in entries}
    found, left = set(), [crate]
    while left:
        name = left.pop()
        if name in listed and name not in found:
            found.add(name)
            left += listed[name]
    return found


def work_of(crate):
    """How much there is to prove of a crate, in lines."""
    lines = LINES_OF_A_CRATE
    for path in glob.glob(f"{TOP}/crates/{crate}/src/**/*.rt", recursive=True):
        if f"{os.sep}tests" not in path:
            with open(path, "rb") as source:
                lines += source.read().count(b"\n")
    return lines


def in_words(seconds):
    minutes = round(seconds / 60)
    hours = f"{minutes // 60} h {minutes % 60:02} min" if minutes >= 60 else f"{minutes} min"
    return f"about {hours} left" if minutes else "less than a minute left"


class Progress:
    """Which crates have ended, and how much of their work was done in this run."""

    def __init__(self):
        self.begun = time.time()
        self.left = {it: work_of(it) for it in crates_below(PROGRAM)}
        self.count = len(self.left)
        self.done = 0

    def end(self, crate):
        """Takes a crate that has ended, and says where the run is."""
        work = self.left.pop(crate, 0)
        if self.is_new(crate):
            self.done += work
        number = f"{self.count - len(self.left)} of {self.count}"
        left = sum(self.left.values())
        rate = (time.time() - self.begun) / self.done if self.done else None
        return f"{number}: {crate}" + (f", {in_words(left * rate)}" if rate and left else "")

    def is_new(self, crate):
        """Whether the crate was proved in this run, and not kept from another."""
        built = f"{TOP}/crates/{crate}/out/rlib"
        return os.path.isdir(built) and os.path.getmtime(built) >= self.begun


def main():
    if len(sys.argv) not in (2, 3):
        sys.exit(__doc__)
    log, jobs = sys.argv[1], (sys.argv[2:] or ["4"])[0]
    progress, section = Progress(), []
    print(f"{progress.count} crates to prove, {jobs} at a time", flush=True)
    command = ["rt", "all", "check", "--jobs", jobs]
    with open(log, "w", encoding="utf-8") as kept, subprocess.Popen(
        command,
        cwd=f"{TOP}/crates/{PROGRAM}",
        stdin=subprocess.DEVNULL,
        stdout=subprocess.PIPE,
        stderr=subprocess.STDOUT,
        errors="replace",
        text=True,
    ) as ran:
        for line in ran.stdout:
            kept.write(line)
            if found := re.fullmatch(r"== (velo\w+)\n", line):
                section = []
                print(progress.end(found[1]), flush=True)
            elif re.match(r"== summary", line):
                break
            section.append(line)
        rest = ran.stdout.read()
        kept.write(rest)
    if ran.returncode:
        failed = [line for line in rest.splitlines() if not line.endswith(": ok")]
        print("\n".join(failed or [line.rstrip() for line in section[-40:]]))
        print(f"not all was proved; all that rt said is in {os.path.relpath(log)}")
    return ran.returncode


if __name__ == "__main__":
    sys.exit(main())
