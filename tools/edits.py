"""Looks at the edits of both lines, crates/NAME/must-fail and crates/NAME/plants, without trying any.

    python3 tools/edits.py

It tells of each edit that cannot be applied because one of its `old:` texts does not stand exactly once in its file, and of
a crate with more edits in `must-fail` than it may have. `rt check` tells the former too, but of `must-fail` alone. The status is
1 where it told something.
"""
import glob
import os
import sys

TOP = os.path.dirname(os.path.dirname(os.path.abspath(__file__)))

# How many edits the gate tries of each crate; of one that is not here, none. The first edit of a crate costs as much as its proof.
MOST = {
    "velo_arena": 2,
    "velo_blame": 3,
    "velo_bytes": 1,
    "velo_certify": 3,
    "velo_check": 1,
    "velo_collect": 1,
    "velo_events": 4,
    "velo_graph": 3,
    "velo_heap": 4,
    "velo_logtext": 1,
    "velo_merge": 3,
    "velo_monitor": 5,
    "velo_rows": 2,
    "velo_runtime": 14,
    "velo_tables": 5,
    "velo_traces": 1,
    "velo_worker": 2,
    "velo_world": 9,
}


def parsed(edit):
    """The file that an edit changes, and its pairs of an old and a new text."""
    file, olds, news = None, [], []
    with open(edit, encoding="utf-8") as lines:
        for line in lines.read().splitlines():
            word, _, text = line.partition(":")
            text = text[1:]
            if word == "file":
                file = text
            elif word == "old":
                olds.append(text)
            elif word == "new":
                news.append(text)
    return file, list(zip(olds, news, strict=True))


def trouble(edit):
    """Why the edit cannot be applied, or None where it can."""
    file, pairs = parsed(edit)
    path = os.path.join(os.path.dirname(os.path.dirname(edit)), file or "")
    if not pairs or not os.path.isfile(path):
        return "it names no file, or has no text"
    with open(path, encoding="utf-8") as source:
        text = source.read()
    for old, new in pairs:
        if text.count(old) != 1:
            return f"{text.count(old)} times in {file}: {old.strip()}"
        text = text.replace(old, new)
    return None


def too_many(crate, count):
    """Says that a crate has more edits in `must-fail` than it may, or None."""
    most = MOST.get(crate, 0)
    return f"crates/{crate}/must-fail: {count} edits, of at most {most}" if count > most else None


def main():
    paths = sorted(glob.glob(f"{TOP}/crates/*/must-fail/*.edit"))
    plants = sorted(glob.glob(f"{TOP}/crates/*/plants/*.edit"))
    told = [f"{os.path.relpath(it, TOP)}: {trouble(it)}" for it in paths + plants if trouble(it)]
    crates = [os.path.basename(os.path.dirname(os.path.dirname(it))) for it in paths]
    told += filter(None, (too_many(it, crates.count(it)) for it in sorted(set(crates))))
    print("\n".join(told or [f"{len(paths)} edits and {len(plants)} plants, all can be applied"]))
    return 1 if told else 0


if __name__ == "__main__":
    sys.exit(main())
