"""Writes the crates of crates.txt into docs/internals/ARCHITECTURE.md, between the two comments that mark them.

    python3 tools/crate_picture.py            writes
    python3 tools/crate_picture.py --check    fails where the page is stale

Each group of crates.txt has a picture and a table. An arrow leads from a crate to one of its group that it stands on; what
follows from other arrows is left out. A row has the first sentence of the crate's `//!`.
"""

import os
import re
import sys
from typing import Dict, List, Set, Tuple

ROOT = os.path.dirname(os.path.dirname(os.path.abspath(__file__)))
PAGE = os.path.join(ROOT, "docs", "internals", "ARCHITECTURE.md")
BEGIN, END = (
    "<!-- crates.txt, written by tools/crate_picture.py -->\n",
    "<!-- end of the crates -->\n",
)
NAME = re.compile(r"velo\w+")
Crates = Dict[str, List[str]]


def text_of(*path: str) -> str:
    with open(os.path.join(ROOT, *path), encoding="utf-8") as file:
        return file.read()


def read_groups() -> List[Tuple[str, Crates]]:
    """The groups in their order: a title, and each crate with the crates of this repository that it lists."""
    groups: List[Tuple[str, Crates]] = []
    for part in re.split(r"\n\n+", text_of("crates.txt")):
        lines = part.splitlines()
        title = " ".join(line.lstrip("# ") for line in lines if line.startswith("#"))
        crates = {}
        for line in lines:
            head, colon, tail = line.partition("#")[0].partition(":")
            if colon:
                crates[head.split()[0]] = NAME.findall(tail)
        if crates:
            groups.append((title, crates))
    return groups


def below(crates: Crates, crate: str) -> Set[str]:
    found = {low for low in crates.get(crate, []) if low in crates}
    return found.union(*(below(crates, low) for low in found))


def picture_of(members: Crates, crates: Crates) -> List[str]:
    """The arrows within a group, or nothing where there is none."""
    lines = []
    for crate, lows in reversed(members.items()):
        direct = [
            low
            for low in lows
            if low in members and not any(low in below(crates, other) for other in lows)
        ]
        if direct:
            lines.append(f"    {crate} --> {' & '.join(direct)}")
    return ["```mermaid", "flowchart TD", *lines, "```", ""] if lines else []


def summary_of(crate: str) -> str:
    """The first sentence that the crate says of itself."""
    for name in ("lib.rt", "main.rt"):
        if os.path.exists(os.path.join(ROOT, "crates", crate, "src", name)):
            head = re.match(r"(?://!.*\n)+", text_of("crates", crate, "src", name))
            words = re.sub(r"\s*//! ?", " ", head[0]).split("  ")[0].strip() if head else ""
            return re.split(r"(?<=\w)\.(?= [A-Z]|$)", words, maxsplit=1)[0].rstrip(".")
    sys.exit(f"{crate} of crates.txt has no source")


def page_of(groups: List[Tuple[str, Crates]]) -> str:
    crates = {crate: lows for _, members in groups for crate, lows in members.items()}
    lines: List[str] = []
    for title, members in groups:
        lines += [f"### {title.partition(':')[0].rstrip('.')}", ""]
        lines += picture_of(members, crates)
        lines += ["| Crate | What it is |", "|---|---|"]
        lines += [f"| `{crate}` | {summary_of(crate)} |" for crate in members]
        lines.append("")
    return "\n".join(lines)


def main() -> int:
    if sys.argv[1:] not in ([], ["--check"]):
        sys.exit(__doc__)
    page = text_of(PAGE)
    head, rest = page.split(BEGIN)
    old, tail = rest.split(END)
    new = page_of(read_groups())
    if not sys.argv[1:]:
        with open(PAGE, "w", encoding="utf-8") as file:
            file.write(head + BEGIN + new + END + tail)
    elif old != new:
        print("docs/internals/ARCHITECTURE.md is stale: run python3 tools/crate_picture.py")
        return 1
    return 0


if __name__ == "__main__":
    sys.exit(main())
