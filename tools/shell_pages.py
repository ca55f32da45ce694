#!/usr/bin/env python3
"""Makes what stands in the program's help in another form: man pages, completions for bash, zsh and fish, and the table of options
in docs/REFERENCE.md.

    tools/shell_pages.py PROGRAM           writes docs/man, docs/completions and the table
    tools/shell_pages.py PROGRAM --check   fails if they are not what PROGRAM's help says today
"""
import argparse
import collections
import itertools
import os
import re
import subprocess
import sys

DOCS = os.path.join(os.path.dirname(os.path.dirname(os.path.abspath(__file__))), "docs")
NAME = "velodrome"
SUMMARY = "checks the atomic blocks of a multithreaded run"
# what the value of an option is, by its placeholder: these are paths, all others are not
PATHS = ("FILE", "OUT", "NAMES", "LOG", "MAP", "LIST", "REPORT")

Flag = collections.namedtuple("Flag", "short long value text")
Command = collections.namedtuple("Command", "name summary usage arguments flags rest")


def help_of(program, *words):
    ran = subprocess.run([program, *words, "--help"], stdout=subprocess.PIPE, text=True, check=True)
    return ran.stdout.rstrip("\n").split("\n")


def split_at_blank(lines):
    """Returns the lines up to an empty one, and those after it."""
    at = lines.index("") if "" in lines else len(lines)
    return lines[:at], lines[at + 1 :]


def entries_of(lines):
    """Returns the pairs of a clap table: a word with its value, and what stands beside it."""
    rows = [re.match(r"\s+(\S.*?)(?:\s{2,}(.*))?$", line) for line in lines]
    return [(row[1], row[2] or "") for row in rows if row]


def flag_of(words, text):
    found = re.match(r"(?:(-\w), )?(--[\w-]+)(?: <(\w+)>)?$", words)
    return Flag(found[1], found[2], found[3], text)


def command_of(program, name):
    """Reads one command's help: its summary, usage, arguments, options, and the prose after them."""
    lines = help_of(program, name)
    usage = next(line for line in lines if line.startswith("Usage: "))
    arguments, flags, rest, section = [], [], [], None
    after = lines[lines.index(usage) + 1 :]
    while after:
        part, after = split_at_blank(after)
        section = part[0] if part else None
        if section == "Arguments:":
            arguments = entries_of(part[1:])
        elif section == "Options:":
            flags = [flag_of(*entry) for entry in entries_of(part[1:])]
        elif part:
            rest.append(part)
    # the first word is the name that PROGRAM was called by
    words = " ".join([NAME, *usage[len("Usage: ") :].split()[1:]])
    return Command(name, lines[0], words, arguments, flags, rest)


def commands_of(program):
    listed = help_of(program)
    table, _ = split_at_blank(listed[listed.index("Commands:") + 1 :])
    return [command_of(program, name) for name, _ in entries_of(table) if name != "help"]


# man pages


def escaped(text):
    text = text.replace("\\", "\\e").replace("-", "\\-")
    return "\\&" + text if text.startswith((".", "'")) else text


def section(title, *lines):
    return [f".SH {title}", *lines]


def heading_of(part):
    """Returns the heading of a part that has one, such as the statuses, and nothing for other prose."""
    found = re.match(r"(Example|Statuses|Refusals|\w+ faults)\b.*:$", part[0])
    return found and {"Statuses": "Exit status"}.get(found[1], found[1]).upper()


def text_lines(lines):
    """Sets indented lines as they are, and all others as running text."""
    for is_literal, run in itertools.groupby(lines, lambda line: line.startswith("  ")):
        run = list(map(escaped, run))
        yield from [".PP", ".nf", *run, ".fi"] if is_literal else run


def prose(command):
    """Returns the description, and after it each part that has a heading."""
    plain = [part for part in command.rest if not heading_of(part)]
    yield from section("DESCRIPTION", escaped(command.summary) + ".")
    for part in plain:
        yield from [".PP", *text_lines(part)]
    for part in command.rest:
        if heading_of(part):
            yield from section(heading_of(part), *text_lines(part[1:]))


def option_lines(flags):
    for flag in flags:
        names = ", ".join(f"\\fB{escaped(it)}\\fR" for it in (flag.short, flag.long) if it)
        yield from [
            ".TP",
            names + (f" \\fI{flag.value}\\fR" if flag.value else ""),
            escaped(flag.text),
        ]


def page_of(command):
    page = f"{NAME}-{command.name}"
    yield f'.TH {page.upper()} 1 "" "" "User commands"'
    yield from section(
        "NAME", f"{escaped(page)} \\- {escaped(command.summary[0].lower() + command.summary[1:])}"
    )
    yield from section("SYNOPSIS", f".B {escaped(command.usage)}")
    if command.arguments:
        yield from section("ARGUMENTS")
        for name, text in command.arguments:
            yield from [".TP", f"\\fI{escaped(name)}\\fR", escaped(text)]
    yield from section("OPTIONS", *option_lines(command.flags))
    yield from prose(command)
    yield from section("SEE ALSO", f"\\fB{NAME}\\fR(1)")


def main_page(commands):
    yield f'.TH {NAME.upper()} 1 "" "" "User commands"'
    yield from section("NAME", f"{NAME} \\- {SUMMARY}")
    yield from section("SYNOPSIS", f".B {NAME}", "\\fICOMMAND\\fR [\\fIOPTIONS\\fR] ...")
    yield from section("COMMANDS")
    for command in commands:
        yield from [".TP", f"\\fB{NAME}\\-{command.name}\\fR(1)", escaped(command.summary)]


# completions


def flags_in(commands):
    return {command.name: command.flags for command in commands}


def bash(commands):
    yield f"# completions of {NAME} for bash, made by tools/shell_pages.py"
    yield f"_{NAME}() {{"
    yield "    local word=${COMP_WORDS[COMP_CWORD]} before=${COMP_WORDS[COMP_CWORD-1]} words="
    yield '    if [ "$COMP_CWORD" -eq 1 ]; then'
    yield f'        COMPREPLY=($(compgen -W "{" ".join(it.name for it in commands)} help --help --version" -- "$word"))'
    yield "        return"
    yield "    fi"
    numbers = sorted(
        {it.long for c in commands for it in c.flags if it.value and it.value not in PATHS}
    )
    yield f"    case $before in {'|'.join(numbers)}) COMPREPLY=(); return ;; esac"
    yield "    case ${COMP_WORDS[1]} in"
    for command in commands:
        yield f'        {command.name}) words="{" ".join(it.long for it in command.flags)}" ;;'
    yield "    esac"
    yield "    case $word in"
    yield '        -*) COMPREPLY=($(compgen -W "$words" -- "$word")) ;;'
    yield '        *) COMPREPLY=($(compgen -f -- "$word")) ;;'
    yield "    esac"
    yield "}"
    yield f"complete -o filenames -F _{NAME} {NAME}"


def quoted(text):
    return "'" + text.replace("'", "'\\''") + "'"


def zsh_flag(flag):
    text = re.sub(r"([\[\]:])", r"\\\1", flag.text)
    value = "" if not flag.value else f":{flag.value}:" + ("_files" if flag.value in PATHS else "")
    return quoted(f"{flag.long}[{text}]{value}")


def zsh(commands):
    yield f"#compdef {NAME}"
    yield "# made by tools/shell_pages.py"
    yield "local -a commands"
    yield "commands=("
    for command in commands:
        yield "    " + quoted(f"{command.name}:{command.summary}")
    yield ")"
    yield "if (( CURRENT == 2 )); then"
    yield "    _describe command commands"
    yield "    return"
    yield "fi"
    yield "case ${words[2]} in"
    for command in commands:
        yield f"    {command.name})"
        yield "        shift words; (( CURRENT-- ))"
        yield "        _arguments \\"
        for flag in command.flags:
            yield f"            {zsh_flag(flag)} \\"
        yield "            '*:file:_files' ;;"
    yield "esac"


def fish(commands):
    yield f"# completions of {NAME} for fish, made by tools/shell_pages.py"
    for command in commands:
        yield f"complete -c {NAME} -n __fish_use_subcommand -f -a {command.name} -d {quoted(command.summary)}"
    for command in commands:
        for flag in command.flags:
            value = "" if not flag.value else " -r" if flag.value in PATHS else " -x"
            seen = f"'__fish_seen_subcommand_from {command.name}'"
            yield f"complete -c {NAME} -n {seen} -l {flag.long[2:]}{value} -d {quoted(flag.text)}"


# the table of options

# the page says it once for all options
STANDARD_INPUT = "; - is standard input"
BEGIN, END = "<!-- written by tools/shell_pages.py -->\n", "<!-- end of the options -->\n"


def option_rows(commands):
    """Returns a row for each option: those of one name, value and text together, in the order of the help, where `the same` means the
    option before."""
    uses = [(flag, command.name) for command in commands for flag in command.flags]
    names = list(dict.fromkeys(flag.long for flag, _ in uses if flag.long != "--help"))
    users = collections.defaultdict(lambda: collections.defaultdict(list))
    for flag, command in sorted(
        (it for it in uses if it[0].long in names), key=lambda it: names.index(it[0].long)
    ):
        text, _, default = flag.text.partition(" [default: ")
        users[flag.long, flag.value, text][default.rstrip("]")].append(command)
    yield "| Option | Commands | Meaning |"
    yield "|---|---|---|"
    for (long, value, text), by_default in users.items():
        of = listed(command for commands in by_default.values() for command in commands)
        means = (text.replace(STANDARD_INPUT, "") + defaults(by_default)).replace("|", r"\|")
        yield f"| `{long}{' ' + value if value else ''}` | {of} | {means} |"


def listed(names):
    return ", ".join(f"`{it}`" for it in names)


def defaults(by_default):
    """Returns what an option has if it is not given: the first commands' value, and who has another one."""
    first, *others = by_default.items()
    told = [first[0], *(f"of {listed(commands)} {default}" for default, commands in others)]
    return f" [default: {'; '.join(told)}]" if any(by_default) else ""


def reference_of(commands):
    """Returns the reference, with its table of options as it is today."""
    head, rest = text_of(os.path.join(DOCS, "REFERENCE.md")).split(BEGIN)
    return head + BEGIN + "\n".join(option_rows(commands)) + "\n" + END + rest.split(END)[1]


def pages_of(program):
    """Returns the text of each file, by its path below docs."""
    commands = commands_of(program)
    made = {f"man/{NAME}-{it.name}.1": page_of(it) for it in commands}
    made[f"man/{NAME}.1"] = main_page(commands)
    made[f"completions/{NAME}.bash"] = bash(commands)
    made[f"completions/_{NAME}"] = zsh(commands)
    made[f"completions/{NAME}.fish"] = fish(commands)
    texts = {path: "\n".join(lines) + "\n" for path, lines in made.items()}
    return {**texts, "REFERENCE.md": reference_of(commands)}


def text_of(path):
    if not os.path.exists(path):
        return None
    with open(path, encoding="utf-8") as file:
        return file.read()


def main():
    arguments = argparse.ArgumentParser(description=__doc__.splitlines()[0])
    arguments.add_argument("program")
    arguments.add_argument(
        "--check", action="store_true", help="write nothing; fail if a file is stale"
    )
    given = arguments.parse_args()
    stale = []
    for path, text in pages_of(given.program).items():
        place = os.path.join(DOCS, path)
        if text_of(place) == text:
            continue
        stale.append(path)
        if not given.check:
            os.makedirs(os.path.dirname(place), exist_ok=True)
            with open(place, "w", encoding="utf-8") as file:
                file.write(text)
    if given.check and stale:
        sys.exit("stale: " + " ".join(stale))


if __name__ == "__main__":
    main()
