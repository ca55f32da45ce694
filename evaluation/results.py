"""What was seen, in out/results.json."""

from __future__ import annotations

import json
import os
from dataclasses import dataclass, field
from typing import Dict, List

import check
from tools import Seen

FILE = os.path.join(check.OUT, "results.json")


@dataclass
class Results:
    """By program, version and column what was seen; and how busy the machine was each time.

    `notes` are sentences for the page: what was done by hand.
    """

    seen: Dict[str, Dict[str, Dict[str, List[Seen]]]] = field(default_factory=dict)
    loads: List[float] = field(default_factory=list)
    notes: List[str] = field(default_factory=list)

    def of(self, name: str, version: str, column: str) -> List[Seen]:
        """The repetitions of one cell, to be added to."""
        return self.seen.setdefault(name, {}).setdefault(version, {}).setdefault(column, [])

    def good(self, name: str, version: str, column: str) -> List[Seen]:
        """The repetitions of a cell of which something can be said."""
        return [one for one in self.of(name, version, column) if not one.failed]


def load() -> Results:
    """What was seen before."""
    if not os.path.exists(FILE):
        return Results()
    with open(FILE, encoding="utf-8") as file:
        kept = json.load(file)
    seen = {
        name: {
            version: {column: [Seen(*one) for one in cell] for column, cell in columns.items()}
            for version, columns in versions.items()
        }
        for name, versions in kept["seen"].items()
    }
    return Results(seen, kept["loads"], kept.get("notes", []))


def save(results: Results) -> None:
    """Keeps what was seen: all of it, or what was there before."""
    os.makedirs(check.OUT, exist_ok=True)
    with open(FILE + ".new", "w", encoding="utf-8") as file:
        json.dump(vars(results), file, indent=1)
    os.replace(FILE + ".new", FILE)
