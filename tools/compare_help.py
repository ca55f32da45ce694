"""Compares the help of the commands with docs/REFERENCE.md: statuses and their lines; faults and refusals. README.md's table has
the commands that the program's help has. (The table of options is written by shell_pages.py.)

    python3 tools/compare_help.py crates/velodrome/out/velodrome

It fails where they differ.
"""
import os
import re
import subprocess
import sys

ROOT = os.path.dirname(os.path.dirname(os.path.abspath(__file__)))


def quoted(text, mark):
    """What is quoted by the mark, but for faults of usage, which help does not list."""
    found = re.findall(rf"(?<!\w){mark}([^{mark}]+){mark}(?!\w)", text)
    return {line for line in found if not line.startswith("error:")}


def section_of(text, title, end):
    """What follows a heading, up to the next one."""
    parts = re.split(rf"^{re.escape(title)}.*$", text, maxsplit=1, flags=re.MULTILINE)
    return re.split(end, parts[1], maxsplit=1, flags=re.MULTILINE)[0] if len(parts) == 2 else ""


def rows_of(page, title):
    lines = [line for line in section_of(page, title, r"^## ").splitlines() if line.startswith("|")]
    return [[cell.strip() for cell in line.strip("|").split("|")] for line in lines[2:]]


def statuses_in_page(page):
    return {int(row[0]): quoted(row[2], "`") for row in rows_of(page, "## Statuses")}


def statuses_in_help(text):
    entries = re.split(
        r"^  (?=\d)", section_of(text, "Statuses", r"^$(?=\n\S)"), flags=re.MULTILINE
    )[1:]
    return {int(entry.split()[0]): quoted(" ".join(entry.split()), "'") for entry in entries}


def numbered_in_help(text, title):
    return dict(
        re.findall(r"^ +(\d+)  (.*)$", section_of(text, title, r"^$(?=\n\S)"), re.MULTILINE)
    )


def numbered_in_page(page, title):
    rows = [(row[0].split(", "), row[1].split("; ")) for row in rows_of(page, title)]
    return {
        number: text for numbers, texts in rows for number, text in zip(numbers, texts, strict=True)
    }


def statuses_of_all(helps):
    """The lines that some command prints with each status."""
    found = {}
    for text in helps.values():
        for status, lines in statuses_in_help(text).items():
            found.setdefault(status, set()).update(lines)
    return found


def differences(page, text):
    compared = []
    for title in (
        "Log faults",
        "Names faults",
        "List faults",
        "Sites faults",
        "Ignored faults",
        "Workload faults",
        "Refusals",
    ):
        told = numbered_in_help(text, title)
        if told:
            compared.append((title, numbered_in_page(page, f"## {title}"), told))
    for what, written, told in compared:
        yield from unequal(what, written, told)


def unequal(what, written, told):
    for key in sorted(written.keys() | told.keys(), key=str):
        if written.get(key) != told.get(key):
            yield f"{what}: {key}: REFERENCE.md has {written.get(key)}, help {told.get(key)}"


def help_of(program, *command):
    return subprocess.run(
        [program, *command, "--help"], check=True, capture_output=True, text=True
    ).stdout


def commands_in_help(text):
    names = re.findall(r"^  (\w+)  ", section_of(text, "Commands:", r"^$(?=\n\S)"), re.MULTILINE)
    return [name for name in names if name != "help"]


def commands_in_readme(text):
    return {re.match(r"`velodrome (\w+)", row[0])[1] for row in rows_of(text, "## Commands")}


def text_of(*path):
    with open(os.path.join(ROOT, *path), encoding="utf-8") as file:
        return file.read()


def main():
    if len(sys.argv) != 2:
        sys.exit(__doc__)
    page, found = text_of("docs", "REFERENCE.md"), []
    commands = commands_in_help(help_of(sys.argv[1]))
    for command in sorted(commands_in_readme(text_of("README.md")) ^ set(commands)):
        found.append(f"{command}: in one of README.md and help, not in both")
    helps = {command: help_of(sys.argv[1], command) for command in commands}
    found.extend(unequal("statuses", statuses_in_page(page), statuses_of_all(helps)))
    for command, text in helps.items():
        found.extend(f"{command}: {difference}" for difference in differences(page, text))
    for difference in found:
        print(difference)
    return 1 if found else 0


sys.exit(main())
