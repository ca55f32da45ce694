"""What each tool said of one program, word by word."""

from __future__ import annotations

import json
import os
import shutil
from typing import Dict, List, Tuple

import check
import tools
from tools import Asked

NAME = "log_buffer"
FILE = os.path.join(check.OUT, "case.json")
MOST_LINES = 45


def told(asked: Asked) -> List[str]:
    """The part of the page. What was seen before is taken, as the rest of the page."""
    if not os.path.exists(FILE):
        os.makedirs(check.OUT, exist_ok=True)
        with open(FILE, "w", encoding="utf-8") as file:
            json.dump(seen(asked), file, indent=1)
    with open(FILE, encoding="utf-8") as file:
        kept: Dict[str, str] = json.load(file)
    lines = [f"The wrong version of [{NAME}](../evaluation/programs/{NAME}.c), one repetition."]
    for title, text in kept.items():
        lines += ["", f"**{title}**", "", "```text", *shortened(text), "```"]
    return lines


def seen(asked: Asked) -> Dict[str, str]:
    """What each command printed."""
    of = check.program(f"{NAME}.c")
    texts: Dict[str, str] = {}
    for title, words, path, extra in commands(asked, of):
        folder = os.path.join(check.OUT, "case")
        shutil.rmtree(folder, ignore_errors=True)
        os.makedirs(folder)
        os.symlink(path, os.path.join(folder, NAME))
        ended = tools.command([*words, f"./{NAME}"], folder, extra)
        texts[f"{title}: `{' '.join([os.path.basename(words[0]), *words[1:], NAME])}`"] = (
            (ended.err + ended.out).replace(f"{check.HERE}/", "").strip()
        )
    return texts


def commands(asked: Asked, of: check.Program) -> List[Tuple[str, List[str], str, Dict[str, str]]]:
    """Of each tool its name, its words, the program, and the variables."""
    plain = tools.compiled_plain(of, "wrong")
    recorded = tools.compiled_recorded(asked, of, "wrong")
    record = os.path.join(asked.recorder, "velodrome-record")
    beside = tools.found_by(asked)
    noise = ["-n", str(tools.RUNS), "--noise", str(tools.NOISE)]
    found: List[Tuple[str, List[str], str, Dict[str, str]]] = [
        (tools.ONE_RUN, [record], recorded, beside),
        (tools.NOISE_RUNS, [record, *noise], recorded, beside),
        (tools.SANITIZER, ["env"], tools.compiled_sanitized(of, "wrong"), {}),
        (tools.HELGRIND, ["valgrind", "--tool=helgrind"], plain, {}),
        (tools.DRD, ["valgrind", "--tool=drd"], plain, {}),
    ]
    return found


def shortened(text: str) -> List[str]:
    """The first lines of what was printed."""
    lines = text.split("\n") if text else ["(nothing)"]
    if len(lines) <= MOST_LINES:
        return lines
    return [*lines[:MOST_LINES], f"({len(lines) - MOST_LINES} more lines)"]
