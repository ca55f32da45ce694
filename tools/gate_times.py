#!/usr/bin/env python3
"""Prints how long each crate took to prove, and which functions took longest.

    tools/gate_times.py [--functions N] [NAME..]

A proof leaves a file for each step in crates/NAME/out/incremental; the time between two of them is that of the later one. So run
it after a check from nothing (`tools/build.sh`, `rt all check` or `rt ci` in a clean clone). The seconds are of the clock, of one
job for each crate: beside other work they grow. A gap of more than two minutes is a pause between two runs and is left out.
"""
import argparse
import collections
import os
import re
import sys

TOP = os.path.join(os.path.dirname(os.path.abspath(__file__)), "..", "crates")
PAUSE = 120
STEP = re.compile(r"Rattle-[a-z_0-9]+-(?:proofs|specs\.contracts|specs)\.(?P<step>.+)\.oantt$")
PART = re.compile(r"\.[A-Z].*$")


def steps_of(crate):
    """Returns the time and the name of each step that was kept, oldest first."""
    found = []
    for folder, _, names in os.walk(os.path.join(TOP, crate, "out", "incremental")):
        for name in names:
            if name.endswith(".oantt"):
                found.append((os.stat(os.path.join(folder, name)).st_mtime, name))
    return sorted(found)


def function_of(name):
    """Returns the module and function of a step's file, without the part of its proof."""
    step = STEP.match(name)
    return PART.sub("", step["step"]) if step else "(other)"


def seconds_of(crate):
    """Returns the seconds of each function of the crate."""
    seconds = collections.Counter()
    steps = steps_of(crate)
    for (before, _), (after, name) in zip(steps, steps[1:]):
        if after - before < PAUSE:
            seconds[function_of(name)] += after - before
    return seconds


def main():
    arguments = argparse.ArgumentParser(description=__doc__.splitlines()[0])
    arguments.add_argument(
        "--functions", type=int, default=3, metavar="N", help="how many functions of each crate (3)"
    )
    arguments.add_argument("crates", nargs="*", metavar="NAME")
    given = arguments.parse_args()
    times = {crate: seconds_of(crate) for crate in given.crates or sorted(os.listdir(TOP))}
    times = {crate: seconds for crate, seconds in times.items() if seconds}
    if not times:
        sys.exit("nothing is proved here: run tools/build.sh first")
    print("| Crate | s | Longest |")
    print("|---|---|---|")
    for crate, seconds in sorted(times.items(), key=lambda it: -sum(it[1].values())):
        longest = ", ".join(
            f"{name} {value:.0f}" for name, value in seconds.most_common(given.functions)
        )
        print(f"| {crate} | {sum(seconds.values()):.0f} | {longest} |")
    print(f"| all | {sum(sum(it.values()) for it in times.values()):.0f} | |")


if __name__ == "__main__":
    main()
