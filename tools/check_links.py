"""Checks that each relative link of the documents leads to a file, and each anchor to a heading.

    python3 tools/check_links.py

It fails where one leads nowhere.
"""
import glob
import os
import re
import sys

ROOT = os.path.dirname(os.path.dirname(os.path.abspath(__file__)))
PAGES = (
    "*.md",
    "docs/**/*.md",
    "tests/*.md",
    "*/README.md",
    "recorder/*.md",
    "bindings/*/README.md",
)
LINK = re.compile(r"\]\(([^)\s]+)\)")
CODE = re.compile(r"^```.*?^```|`[^`\n]*`", re.MULTILINE | re.DOTALL)


def text_of(path):
    with open(path, encoding="utf-8") as file:
        return file.read()


def anchors_of(path):
    """The anchors that a page's headings have: lowercase, spaces as hyphens, other signs left out."""
    body = re.sub(r"^```.*?^```", "", text_of(path), flags=re.MULTILINE | re.DOTALL)
    titles = re.findall(r"^#+ (.*)$", body, re.MULTILINE)
    return {re.sub(r"[^\w\- ]", "", title.lower()).replace(" ", "-") for title in titles}


def fault_of(page, link):
    path, _, anchor = link.partition("#")
    target = os.path.normpath(os.path.join(os.path.dirname(page), path)) if path else page
    if not os.path.exists(target):
        return "no such file"
    if anchor and anchor not in anchors_of(target):
        return "no such heading"
    return None


def main():
    if sys.argv[1:]:
        sys.exit(__doc__)
    pages = [
        page for pattern in PAGES for page in glob.glob(os.path.join(ROOT, pattern), recursive=True)
    ]
    faults = 0
    for page in sorted(pages):
        for link in LINK.findall(CODE.sub("", text_of(page))):
            fault = None if re.match(r"[a-z]+:", link) else fault_of(page, link)
            if fault:
                faults += 1
                print(f"{os.path.relpath(page, ROOT)}: {link}: {fault}")
    return 1 if faults else 0


sys.exit(main())
