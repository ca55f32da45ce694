"""Counts the words of the documents, and fails where there are more than may be.

    python3 tools/words.py [--pages]

A word is what stands between blanks and has a letter or a digit, in prose, tables and blocks of code alike. It prints how many there
are in all and may be, and how many of each group; with --pages of each page, too. All pages are counted but those of tests/, which
are run and not read, and what evaluation/run.py writes. The status is 1 where there are too many, or a page is in no group.
"""

import argparse
import os
import re
import subprocess
import sys
from typing import Dict, List, Tuple

ROOT = os.path.dirname(os.path.dirname(os.path.abspath(__file__)))
WORD = re.compile(r"\S*\w\S*")
USERS, MAINTAINERS = "for whoever has a bug", "for whoever carries it on"
MOST = 25_000
# the first pattern that fits a page decides
GROUPS = (
    (r"tests/|docs/EVALUATION\.md", None),
    (r"README\.md|recorder/|report/|bindings/\w+/", USERS),
    (r"docs/(QUICK_START|GUIDE|IN_CI|EMBEDDING|REFERENCE|FORMATS|GLOSSARY)\.md", USERS),
    (r"docs/(DECISIONS|DEFINITIONS)\.md|docs/internals/", MAINTAINERS),
    (r"CHANGELOG\.md|bindings/|evaluation/", MAINTAINERS),
)


def pages() -> List[str]:
    """The pages that git knows, or would add."""
    command = ["git", "ls-files", "--cached", "--others", "--exclude-standard", "--", "*.md"]
    listed = subprocess.run(command, cwd=ROOT, check=True, stdout=subprocess.PIPE, text=True)
    found = set(listed.stdout.splitlines())
    return sorted(page for page in found if os.path.exists(os.path.join(ROOT, page)))


def words_in(page: str) -> int:
    with open(os.path.join(ROOT, page), encoding="utf-8") as file:
        return len(WORD.findall(file.read()))


def counted() -> Tuple[Dict[str, Dict[str, int]], List[str]]:
    """The words of each page, by group; and the pages that are in none."""
    groups: Dict[str, Dict[str, int]] = {USERS: {}, MAINTAINERS: {}}
    strangers = []
    for page in pages():
        fitting = [group for pattern, group in GROUPS if re.match(pattern, page)]
        if not fitting:
            strangers.append(page)
        elif fitting[0] is not None:
            groups[fitting[0]][page] = words_in(page)
    return groups, strangers


def main() -> int:
    parser = argparse.ArgumentParser(
        description=__doc__, formatter_class=argparse.RawDescriptionHelpFormatter
    )
    parser.add_argument("--pages", action="store_true")
    asked = parser.parse_args()
    groups, strangers = counted()
    for group, found in groups.items():
        for page, words in sorted(found.items(), key=lambda it: -it[1]) if asked.pages else ():
            print(f"{words:7,}  {page}")
        print(f"{sum(found.values()):7,}  {group}")
    for page in strangers:
        print(f"{page} is in no group of tools/words.py")
    words = sum(sum(found.values()) for found in groups.values())
    print(f"{words:7,}  of at most {MOST:,}")
    return 1 if words > MOST or strangers else 0


if __name__ == "__main__":
    sys.exit(main())
