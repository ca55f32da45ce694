"""What velodrome-report says of an alarm, where it is installed: the lines of source that came between each other."""
from __future__ import annotations

import contextlib
import os
import shutil
import signal
import subprocess

PROGRAM = "velodrome-report"
MOST_SECONDS = 60  # of a log that takes longer, the explanation is shown


def finding(log: str, headline: str) -> str:
    """The finding that the headline, `not atomic: NAME`, is about, under it; empty where there is none, or no such program."""
    program = shutil.which(PROGRAM)
    _, _, name = headline.partition("not atomic: ")
    if not program or not name:
        return ""
    try:
        report = _said(program, log)
    except (OSError, subprocess.SubprocessError):
        return ""
    for paragraph in report.split("\n\n"):
        claim, _, rows = paragraph.partition("\n")
        if rows and claim.startswith(f"{name} is not atomic: "):
            return f"{headline}\n{rows.rstrip()}\n"
    return ""


def _said(program: str, log: str) -> str:
    """What the program prints. It goes with all that it started."""
    with subprocess.Popen(
        [program, log],
        stdin=subprocess.DEVNULL,
        stdout=subprocess.PIPE,
        stderr=subprocess.DEVNULL,
        encoding="utf-8",
        errors="replace",
        start_new_session=True,
    ) as report:
        try:
            return report.communicate(timeout=MOST_SECONDS)[0]
        except BaseException:
            with contextlib.suppress(OSError):
                os.killpg(report.pid, signal.SIGKILL)
            raise
