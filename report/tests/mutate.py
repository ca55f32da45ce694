"""mutate.py [WORD..]: wrong printers, one at a time: does a test see each?

Each edit is put into a copy of the package, and the tests are run over it until one fails. With words it takes the edits of
the files whose names have one of them. The last line is `N wrong printers, M seen`; the status is 1 where an edit fits no
line, or where more than LEFT were not seen. It is 2 where nothing can be said: VELODROME is no checker, without which tests
are left out, or a test fails without an edit.
"""

from __future__ import annotations

import atexit
import os
import shutil
import signal
import sys
import tempfile
import unittest
from typing import Iterable, List, Optional, Tuple

# what the tests need is loaded once, not in each process
import html.parser  # noqa: F401
import json  # noqa: F401
import subprocess  # noqa: F401
import xml.etree.ElementTree  # noqa: F401

HERE = os.path.dirname(os.path.abspath(__file__))
REPORT = os.path.dirname(HERE)
LEFT = 2
SECONDS = 1200
# the quick ones first: an edit is seen by the first test that fails
TESTS = ("test_forms.Golden", "test_forms", "test_drawing")
PAGE = ("page.js", "page.css", "html.py")
# what needs the checker, VELODROME
JUDGED = {
    "touched.py": ["test_touched"],
    "racing.py": ["test_racing"],
    "source.py": ["test_sources"],
    "html.py": ["test_sources"],
}

Edit = Tuple[str, str, str]
NO_EDIT: Edit = ("words.py", "", "")
EDITS: List[Edit] = [
    # what every form says
    ("words.py", "{len(finding.seen)} of", "{len(finding.possible)} of"),
    ("words.py", "possible in {len(finding.possible)}", "possible in {len(finding.seen)}"),
    ("words.py", "runs = report.counted()", "runs = len(report.runs)"),
    ("words.py", "if many == 1 else 's'", "if many <= 1 else 's'"),
    ("words.py", '" and ".join', '" or ".join'),
    (
        "words.py",
        "if not event.interrupts]\n    return str(own[-1]",
        "if event.interrupts]\n    return str(own[-1]",
    ),
    ("words.py", "is not atomic", "is atomic"),
    ("words.py", "if finding.kind is Kind.DEADLOCK:", "if finding.kind is Kind.DEADLOCK_POSSIBLE:"),
    ("words.py", "finding.counts.to_blame:,} of", "finding.counts.calls:,} of"),
    ("words.py", 'f"to repeat: {visible(finding.repeat)}" if', 'f"to repeat: {finding.repeat}" if'),
    ("words.py", "place(event.place), source", "place(event.at), source"),
    ("words.py", '">" if event.interrupts else " "', '" " if event.interrupts else ">"'),
    ("words.py", "source(event.source), does", "source(event.at_source), does"),
    ("words.py", "looked_at(report) if report.looked_at()", "looked_at(report) if report.runs"),
    ("words.py", 'no mistake found" if report.looked_at()', 'no mistake found" if report.runs'),
    ("words.py", "if not run.looked_at]", "if run.looked_at]"),
    ("words.py", "for warning in run.warnings]", "for warning in run.warnings[1:]]"),
    ("words.py", "len(runs) - 1:,} more", "len(runs):,} more"),
    ("words.py", "report.calls(), 'call'", "report.functions(), 'call'"),
    # characters
    ("characters.py", "\\ufffe\\uffff", "\\ufffe"),
    ("characters.py", "\\u2028-\\u202e", "\\u2028-\\u202d"),
    ("characters.py", "\\ud800-\\udfff", "\\ud800-\\udbff"),
    ("characters.py", "\\x7f-\\x9f", "\\x7f"),
    ("characters.py", '{\'"\': "&quot;", "\'": "&#39;"}', "{}"),
    ("characters.py", 'in "WF" else 1', 'in "W" else 2'),
    ("characters.py", "(room - len(CUT)) // 3", "(room - len(CUT)) // 3 * 2"),
    ("characters.py", "room - len(CUT) - ahead", "room - ahead"),
    ("characters.py", "if taken > room:", "if taken >= room:"),
    ("characters.py", '{word}") <= room', '{word}") <= room + 1'),
    # SARIF
    ("sarif.py", '"version": "2.1.0"', '"version": "2.1"'),
    ("sarif.py", '"version": VERSION,', ""),
    ("sarif.py", "list(RULES).index(finding.kind)", "0"),
    ("sarif.py", "FINGERPRINT: finding.id", "FINGERPRINT: words.sentence(finding, report)"),
    (
        "sarif.py",
        "enumerate(finding.witness.events, 1)",
        "enumerate(finding.witness.events[1:], 1)",
    ),
    ("sarif.py", "if event.thread.number == thread.number", "if True"),
    ("sarif.py", "bool(report.looked_at())", "bool(report.runs)"),
    ("sarif.py", "report.status()", "0"),
    ("sarif.py", 'Section.BY_DESIGN: "note"', 'Section.BY_DESIGN: "error"'),
    ("sarif.py", "if 0 < place.line <= LAST_LINE:", "if True:"),
    ("sarif.py", 'safe="/-._~"', 'safe="/-._~ "'),
    ("sarif.py", 'f"file://{path}"', "path"),
    ("words.py", "reversed(event.stack)", "event.stack"),
    ("words.py", "if frame.function not in report.known]", "]"),
    ("sarif.py", "visible(finding.repeat)", "finding.repeat"),
    ("sarif.py", "_location(event.place, event.source)", "_location(event.at, event.source)"),
    ("sarif.py", '"runs": report.counted()', '"runs": len(report.runs)'),
    # JUnit
    ("junit.py", "findings[0].place", "None"),
    ("junit.py", "if not findings and not report.looked_at():", "if False:"),
    (
        "junit.py",
        '_case("function", name, found[name], report)',
        '_case("function", words.claim(found[name][0]) if found[name] else name, found[name], report)',
    ),
    ("junit.py", "case.element == element for", "case.element != element for"),
    (
        "junit.py",
        '<{case.element} message="{xml(case.told)}"',
        '<{case.element} message="{case.told}"',
    ),
    ("junit.py", 'name="{xml(case.name)}"', 'name="{case.name}"'),
    (
        "junit.py",
        "_functions(report) + _kinds(report) + [_runs(report)]",
        "_functions(report) + _kinds(report)",
    ),
    ("junit.py", "if finding.kind is Kind.NOT_ATOMIC:", "if True:"),
    (
        "junit.py",
        "for run in report.looked_at() for name in run.calls",
        "for run in report.looked_at()[:0] for name in run.calls",
    ),
    # GitHub
    ("github.py", '.replace("%", "%25")', ""),
    ("github.py", '.replace("\\n", "%0A")', ""),
    ("github.py", '.replace(":", "%3A")', ""),
    ("github.py", '.replace(",", "%2C")', ""),
    ("github.py", '_command("warning", {}, text)', '_command("error", {}, text)'),
    ("github.py", 'Section.FOLDED: "notice"', 'Section.FOLDED: "error"'),
    (
        "github.py",
        '{"line": str(place.line)} if place.line',
        '{"line": str(place.line + 1)} if place.line',
    ),
    # Markdown
    ("markdown.py", "len(run) + 1 for", "len(run) for"),
    ("markdown.py", "`*_{}", "*_{}"),
    ("markdown.py", "if findings:", "if not findings:"),
    ("markdown.py", "_fenced([visible(finding.repeat)])", "_fenced([finding.repeat])"),
    # drawings
    ("lanes.py", "(event.position, 1, event)", "(-event.position, 1, event)"),
    (
        "lanes.py",
        "if block.function == finding.function.name] or",
        "if block.function != finding.function.name] or",
    ),
    ("lanes.py", "and transaction.thread.number not in interrupting", ""),
    ("lanes.py", "block.begin, transaction.last", "transaction.first, transaction.last"),
    ("lanes.py", "max([first, *inside]), span.blamed", "max([first, *inside]), not span.blamed"),
    ("lanes.py", "return ARROWS if finding.counts.to_blame else NO_BLOCK", "return INTERRUPTED"),
    (
        "lanes.py",
        "Arrow(at[id(witness.events[start])], at[id(witness.events[end])])",
        "Arrow(at[id(witness.events[end])], at[id(witness.events[start])])",
    ),
    ("lanes.py", "words.place(row.place), row.source", "words.place(row.at), row.source"),
    ("lanes.py", "elif transaction.function is not None:", "else:"),
    ("svg.py", "return start if end < start else start + 1", "return start + 1"),
    ("svg.py", "right + BESIDE_BOX + SLOT * (slot + 1)", "right + BESIDE_BOX + SLOT * slot"),
    ("svg.py", "MOST_ROOM = 42", "MOST_ROOM = 400"),
    (
        "svg.py",
        "lines = [shortened(visible(box.title), column.room)]",
        "lines = [visible(box.title)]",
    ),
    ("svg.py", "start.left if turn < start.left", "start.left if turn > start.left"),
    ("svg.py", "LINE * len(heading) + (LINE if heading else 0)", "LINE if heading else 0"),
    (
        "svg.py",
        "end.left if turn < end.left",
        "end.left if turn > end.left",
    ),
    ("svg.py", '"blamed" if bar.is_blamed', '"blamed" if not bar.is_blamed'),
    ("svg.py", "return self.tops[row] + self.heights[row] // 2", "return self.tops[row]"),
    ("dot.py", '.replace("\\\\", "\\\\\\\\")', ""),
    ("dot.py", "bar.first <= row <= bar.last", "bar.first <= row < bar.last"),
    ("dot.py", "E{arrow.start} -> E{arrow.end}", "E{arrow.end} -> E{arrow.start}"),
    ("dot.py", "if bar.is_blamed:", "if not bar.is_blamed:"),
    ("svg.py", "+ APART, layout", ", layout"),
    ("svg.py", "_gutters_of(drawing)[gutter].index(arrow)", "0"),
    # the list for people
    (
        "text.py",
        "self.report.in_section(Section.LIKELY)\n        by_design",
        "self.report.findings\n        by_design",
    ),
    ("text.py", "if by_design:", "if False:"),
    ("text.py", "words.warned(self.report)", "self.report.warnings"),
    ("text.py", "words.unsaid(self.report)", "self.report.reasons"),
    ("text.py", "rest = len(self.report.findings) - likely", "rest = len(self.report.findings)"),
    ("text.py", "if one.why:\n            lines += [self", "if False:\n            lines += [self"),
    ("text.py", "under = self.report.under(one)", "under = self.report.findings[:0]"),
    ("text.py", 'f"      to repeat: {visible(one.repeat)}"', 'f"      to repeat: {one.repeat}"'),
    ("text.py", '"  > " if event.interrupts', '"  > " if not event.interrupts'),
    (
        "text.py",
        "self.place(event.place) for event in events",
        "self.place(event.at) for event in events",
    ),
    ("text.py", "enumerate(self.report.findings, 1)", "enumerate(self.report.findings, 0)"),
    ("text.py", "if free >= GAP:", "if True:"),
    ("text.py", "shortened_at_end(visible(line), room) for", "visible(line) for"),
    ("text.py", "lane[number] * (room + GAP)", "lane[number] * room"),
    ("text.py", "words.frames(event, self.report)", "reversed(event.stack)"),
    ("text.py", '" (to blame)" if frame.to_blame', '" (to blame)" if not frame.to_blame'),
    ("text.py", "if run not in one.seen]", "if run in one.seen]"),
    ("text.py", "if one.witness.predicted:", "if not one.witness.predicted:"),
    ("text.py", "len(runs) - MOST_RUNS_NAMED", "len(runs)"),
    ("text.py", "if times[last[file]] == 1 else file", "if True else file"),
    ("text.py", "self.report.looked_at() or not", "self.report.runs or not"),
    ("text.py", 'visible(text), "      "', 'text, "      "'),
    ("text.py", '{visible(text)}"\n', '{text}"\n'),
    ("colours.py", "if self.on and text", "if text"),
    ("colours.py", "number % len(THREADS)", "0"),
    # the cycle in words, and each run
    ("story.py", "index(transaction) + 1", "index(transaction)"),
    ("story.py", "FIRST_LINE = 2", "FIRST_LINE = 1"),
    ("story.py", "if finding.witness.predicted or", "if not finding.witness.predicted or"),
    ("story.py", "or finding.kind is Kind.STALE_WRITE:", "or False:"),
    ("story.py", '"outside of blocks" if one.function is None', '"outside of blocks" if True'),
    ("story.py", "(edge + 1) % len(self.witness.edges) + 1", "edge + 2"),
    ("story.py", "if touched.edge == edge:", "if touched.edge != edge:"),
    ("story.py", "at = event.at or event.place", "at = event.place"),
    ("story.py", "if not blocks:", "if blocks:"),
    ("story.py", "if self.finding.kind is Kind.STALE_WRITE:", "if False:"),
    ("story.py", "if by is None:", "if by is not None:"),
    ("story.py", 'f"T1 to T{many}" if many > 2', 'f"T1 to T{many}" if many > 3'),
    ("text.py", "placed.append((transaction.first, 0,", "placed.append((transaction.last, 0,"),
    ("text.py", "if transaction.function is None:", "if transaction.function is not None:"),
    ("text.py", "if runs and report.runs", "if report.runs"),
    ("words.py", "report.atomic():,} of", "len(report.looked_at()):,} of"),
    ("words.py", "if len(times) > 1 else one", "if len(times) > 2 else one"),
    ("words.py", "names[:MOST_NAMED]", "names[1:MOST_NAMED]"),
    ("words.py", "if not run.looked_at:\n        told", "if False:\n        told"),
    ("html.py", "for row in words.runs(report)", "for row in words.runs(report)[1:]"),
    ("html.py", "return out + _every_run(report) +", "return out +"),
    ("html.py", "_story(finding) + _excerpts", "_excerpts"),
    ("markdown.py", "if words.of_runs(report) else", "if False else"),
    ("model.py", "if run.name in finding.seen]", "if run.name in finding.possible]"),
    # what is touched under a lock
    ("touched.py", "(one.writes or other.writes)", "True"),
    ("touched.py", "one.position < other.position", "True"),
    ("touched.py", "for one in reversed(before):", "for one in before:"),
    ("touched.py", "if number == thread and one.since >= 0:", "if number == thread:"),
    ("touched.py", "if number == thread and one.since >= 0:", "if one.since >= 0:"),
    (
        "touched.py",
        "if position > last and all(one.since < 0 for one in held.values()):",
        "if position > last:",
    ),
    ("touched.py", "access.since == hold or", ""),
    ("touched.py", "access.since == hold or side.first <=", "0 <="),
    ("touched.py", "or side.first <= access.position <= side.last", ""),
    ("touched.py", "if begin <= side.at", ""),
    # lines of source
    ("source.py", "if kept.is_older_than(today):", "if False:"),
    ("source.py", "times.append(_time(_program(description)))", "pass"),
    ("source.py", "min(known)", "max(known)"),
    ("source.py", "_keep(today, copy)", "pass"),
    ("source.py", "_lines(today) != lines", "_lines(today) == lines"),
    ("source.py", "setdefault(file, (run, False))", "setdefault(file, (run, True))"),
    ("html.py", "sources.lines(file, run)", "sources.lines(file)"),
    # what can be written from an old value
    ("racing.py", "last.time > clock[number]", "True"),
    ("racing.py", "write.time > before.clock[number]", "True"),
    ("racing.py", "write.time > before.clock[number]", "False"),
    ("racing.py", "self.clocks[thread][thread] += 1", "pass"),
    ("racing.py", "self._learn(thread, one.written, one.read)\n        elif", "pass\n        elif"),
    ("racing.py", "self._learn(thread, one.written)\n        elif word", "pass\n        elif word"),
    ("racing.py", "one.read = _joined(one.read, self._told(thread))\n\n", "pass\n\n"),
    ("racing.py", "self._learn(other, self._told(thread))", "pass"),
    ("racing.py", "self._learn(thread, self._ended.get(other, self.clocks[other]))", "pass"),
    ("racing.py", "if not self._held[thread]:", "if True:"),
    ("racing.py", "before is not None and not self._held[thread] and", "before is not None and"),
    ("racing.py", "before.stack[0] == after.stack[0]", "True"),
    ("racing.py", "function == self._sites.at(after.position)[1]", "True"),
    (
        "racing.py",
        "self._reads.pop((variable, thread), None)",
        "self._reads.get((variable, thread))",
    ),
    ("racing.py", "in_order=False", "in_order=True"),
    ("racing.py", "if block is not None and label_of(block) in left_out:", "if False:"),
    ("racing.py", "if gap.block() else [(gap", "if True else [(gap"),
    ("words.py", '"is" if finding.seen else "can be"', '"is"'),
    # the page
    ("html.py", "<bdi>{xml(text)}</bdi>", "<bdi>{text}</bdi>"),
    ("html.py", 'data-words="{xml(" ".join(found_by))}"', 'data-words="{" ".join(found_by)}"'),
    ("html.py", "if finding.section is section", "if finding.section is not section"),
    ("html.py", "words.claim(finding, LIST_ROOM)", "words.claim(finding)"),
    ("html.py", 'mark = ">" if number in marked', 'mark = ">" if number not in marked'),
    ("html.py", "lines[number - 1]", "lines[number - 2]"),
    ("html.py", "if name not in finding.seen", "if name in finding.seen"),
    ("html.py", '("at", event.at, ', '("at", event.place, '),
    (
        "html.py",
        "' class=\"between\"' if event.interrupts",
        "' class=\"between\"' if not event.interrupts",
    ),
    ("html.py", "if finding.repeat:", "if not finding.repeat:"),
    ("html.py", "default-src 'none'; ", ""),
    ("page.js", "k: () => move(-1)", "k: () => move(1)"),
    ("page.js", "if (folded) folded.open = true;", ""),
    ("page.js", ".toLowerCase().includes(wanted)", ".includes(wanted)"),
    ("page.js", "if (!left.includes(chosen)) choose", "choose"),
    ("page.js", 'at("none").hidden = left.length > 0;', ""),
    ("page.js", "(typing && !IN_FILTER.includes(pressed.key))", "false"),
    ("page.js", "choose(byHash() ?? items[0])", "choose(items[0])"),
    ("page.js", "articleOf(other).hidden = other !== item;", ""),
    ("page.css", "--muted: #9da7b1;", "--muted: #3d444d;"),
    ("page.css", "overflow-wrap: anywhere;", ""),
]


def copied(edit: Edit) -> Optional[str]:
    """Returns a folder with the package and the tests, the edit in it; None where it fits nothing."""
    name, old, new = edit
    folder = tempfile.mkdtemp(prefix="mutate-")
    for part in ("velodrome_report", "tests"):
        ignored = shutil.ignore_patterns("__pycache__")
        shutil.copytree(os.path.join(REPORT, part), os.path.join(folder, part), ignore=ignored)
    for place in ("velodrome_report/forms", "velodrome_report"):
        path = os.path.join(folder, place, name)
        if os.path.exists(path):
            with open(path, encoding="utf-8") as file:
                text = file.read()
            if old in text:
                with open(path, "w", encoding="utf-8") as file:
                    file.write(text.replace(old, new, 1))
                return folder
    shutil.rmtree(folder)
    return None


def tests_of(name: str) -> List[str]:
    """Returns the tests that are run over an edit of a file."""
    return [*JUDGED.get(name, []), *TESTS, *(["test_page"] if name in PAGE else [])]


def is_seen(folder: str, name: str) -> bool:
    """Says whether a test fails."""
    return any(fails(folder, test) for test in tests_of(name))


def unfit(names: Iterable[str]) -> Optional[str]:
    """Returns why the tests of these files tell nothing; None if they do."""
    if not os.access(os.environ.get("VELODROME", ""), os.X_OK):
        return "VELODROME is not the path of the checker: the tests that need it would be left out"
    folder = copied(NO_EDIT)
    assert folder is not None
    tests = dict.fromkeys(test for name in names for test in tests_of(name))
    failed = [test for test in tests if fails(folder, test)]
    shutil.rmtree(folder)
    return f"without an edit, too, there fails: {', '.join(failed)}" if failed else None


def fails(folder: str, test: str) -> bool:
    """Says whether these tests fail, or never end, in a process of their own."""
    child = os.fork()
    if child == 0:
        signal.alarm(SECONDS)
        status = run(folder, test)
        # ends the browser of the tests
        atexit._run_exitfuncs()
        os._exit(status)
    return os.waitpid(child, 0)[1] != 0


def run(folder: str, test: str) -> int:
    """Runs the tests of a folder, and returns 1 if one fails."""
    sys.dont_write_bytecode = True
    sys.path[:0] = [os.path.join(folder, "tests"), folder]
    with open(os.devnull, "w", encoding="utf-8") as nowhere:
        sys.stderr = nowhere
        try:
            suite = unittest.defaultTestLoader.loadTestsFromName(test)
            runner = unittest.TextTestRunner(nowhere, failfast=True)
            return 0 if runner.run(suite).wasSuccessful() else 1
        except Exception:  # an edit may break anything
            return 1


def main(wanted: List[str]) -> int:
    edits = [edit for edit in EDITS if not wanted or any(word in edit[0] for word in wanted)]
    why = unfit(edit[0] for edit in edits)
    if why is not None:
        print(f"mutate.py: {why}", file=sys.stderr)
        return 2
    seen = lost = 0
    for edit in edits:
        folder = copied(edit)
        if folder is None:
            print(f"fits nothing: {edit[0]}: {edit[1]}", flush=True)
            lost += 1
            continue
        if is_seen(folder, edit[0]):
            seen += 1
        else:
            print(f"not seen: {edit[0]}: {edit[1]} -> {edit[2]}", flush=True)
        shutil.rmtree(folder)
    print(f"{len(edits)} wrong printers, {seen} seen")
    return 1 if lost or len(edits) - seen > LEFT else 0


if __name__ == "__main__":
    sys.exit(main(sys.argv[1:]))
