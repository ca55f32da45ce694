#!/usr/bin/env python3
"""Runs each program by each tool, and writes docs/EVALUATION.md of what was seen.

All programs are run once, then all a second time, and so on. What was seen is kept in
out/results.json after each; a call that was broken off goes on from there. Nothing that was not
seen is written.
"""

from __future__ import annotations

import argparse
import itertools
import os
import sys
import threading
from concurrent.futures import ThreadPoolExecutor
from typing import Iterator, List, Tuple

import check
import page
import results
import tools
from check import Program
from results import Results
from tools import Asked, Seen

Task = Tuple[Program, str, Tuple[str, ...], tools.Measure, int]


def missing(chosen: List[Program], repetitions: int, kept: Results) -> Iterator[Task]:
    """What was not seen yet, all programs once by each tool before any is run again."""
    tasks = itertools.product(range(repetitions), ("wrong", "repaired"), tools.MEASURES, chosen)
    for repetition, version, (columns, measure), of in tasks:
        if version in check.versions(of):
            if len(kept.of(of.name, version, columns[0])) <= repetition:
                yield of, version, columns, measure, repetition


def measured(asked: Asked, task: Task) -> tools.Measured:
    """What a task gives; what cannot be run is told."""
    of, version, columns, measure, repetition = task
    try:
        return measure(asked, of, version, repetition)
    except (OSError, check.Bad) as reason:
        failed = Seen(False, False, 0.0, failed=str(reason)[-tools.WORDS_KEPT :])
        return {column: failed for column in columns}


def measure_all(asked: Asked, chosen: List[Program], repetitions: int, jobs: int) -> Results:
    """Adds what is missing."""
    kept = results.load()
    one_at_a_time = threading.Lock()

    def do(task: Task) -> None:
        seen = measured(asked, task)
        of, version = task[:2]
        with one_at_a_time:
            kept.loads.append(round(os.getloadavg()[0], 1))
            for column, one in seen.items():
                kept.of(of.name, version, column).append(one)
                print(of.name, version, column, *one[:2], one.told or one.failed, sep=" | ")
            sys.stdout.flush()
            results.save(kept)

    with ThreadPoolExecutor(jobs) as pool:
        for _ in pool.map(do, list(missing(chosen, repetitions, kept))):
            pass
    return kept


def main() -> int:
    """The command."""
    asked = argparse.ArgumentParser(description=__doc__)
    asked.add_argument("names", nargs="*", help="only these programs; writes no page")
    asked.add_argument("--recorder", required=True, help="the folder of velodrome-record")
    asked.add_argument("--report", required=True, help="the program velodrome-report")
    asked.add_argument("--checker", required=True, help="the program velodrome")
    asked.add_argument(
        "--repetitions", type=int, default=page.REPETITIONS, help="0 only writes the page"
    )
    asked.add_argument("--jobs", type=int, default=1, help="so many commands at a time")
    given = asked.parse_args()
    where = Asked(*(os.path.abspath(one) for one in (given.recorder, given.report, given.checker)))
    for path in (os.path.join(where.recorder, "velodrome-record"), where.report, where.checker):
        if not os.access(path, os.X_OK):
            print(f"run.py: {path} is not there", file=sys.stderr)
            return 1
    tools.prepare(where)
    chosen = [of for of in check.programs() if not given.names or of.name in given.names]
    kept = measure_all(where, chosen, given.repetitions, given.jobs)
    if not given.names:
        page.write(where, chosen, kept)
    return 0


if __name__ == "__main__":
    sys.exit(main())
