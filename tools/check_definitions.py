"""Checks the names in docs/DEFINITIONS.md and docs/internals/ARCHITECTURE.md: each is in the specs
or the sources of the crates. Of all pages it checks that each crate that is named is there.

    python3 tools/check_definitions.py

It fails where one is nowhere, since it was renamed or removed.
"""
import glob
import os
import re
import sys

ROOT = os.path.dirname(os.path.dirname(os.path.abspath(__file__)))
WORD = re.compile(r"[A-Za-z_][A-Za-z_0-9]+")


def text_of(path):
    with open(path, encoding="utf-8") as file:
        return file.read()


def words_of(path):
    return set(WORD.findall(text_of(path)))


def crates_that_are_not():
    """Names of crates in README and docs of which there is no folder, each with its page."""
    pages = glob.glob(os.path.join(ROOT, "*.md"))
    pages += glob.glob(os.path.join(ROOT, "docs", "**", "*.md"), recursive=True)
    for page in sorted(pages):
        for crate in sorted(set(re.findall(r"\bvelo_[a-z_]+\b", text_of(page)))):
            if not os.path.isdir(os.path.join(ROOT, "crates", crate)):
                yield f"{os.path.relpath(page, ROOT)}: there is no crate {crate}"


def main():
    if sys.argv[1:]:
        sys.exit(__doc__)
    sources = [
        path
        for pattern in ("specs/**/*.antt", "src/**/*.rt")
        for path in glob.glob(os.path.join(ROOT, "crates", "*", pattern), recursive=True)
    ]
    known = set().union(*(words_of(path) for path in sources))
    files = {os.path.splitext(os.path.basename(path))[0] for path in sources}
    faults = 0
    for fault in crates_that_are_not():
        faults += 1
        print(fault)
    for page in ("DEFINITIONS.md", "internals/ARCHITECTURE.md"):
        lines = text_of(os.path.join(ROOT, "docs", page)).splitlines()
        for number, line in enumerate(lines, 1):
            for name in re.findall(r"(?<!`)`([^`]+)`(?!`)", line):
                missing = [
                    word
                    for word in WORD.findall(name)
                    if word not in known | files and not word.startswith("velo_")
                ]
                if missing and not re.search(r"/|\.txt", name):
                    faults += 1
                    print(
                        f"docs/internals/{page}:{number}: {', '.join(missing)} of `{name}` is nowhere"
                    )
    return 1 if faults else 0


sys.exit(main())
