"""Each form against files that a person has read, and against what the standards ask of it."""

from __future__ import annotations

import copy
import html.parser
import json
import os
import re
import unittest
from dataclasses import replace
from typing import Any, Dict, List, Optional, Set, Tuple
from xml.etree import ElementTree

import golden
import sarif_2_1_0
import samples
from velodrome_report import as_json, forms
from velodrome_report.model import Function, Place, Report, Run, Thread, Witness
from velodrome_report.forms import characters, words

ALL = tuple(samples.REPORTS)
# what no form may have in it but a line feed: control characters, marks of direction, what XML 1.0 forbids
UNSAFE = re.compile(
    "[\x00-\x09\x0b-\x1f\x7f-\x9f\u2028-\u202e\u2066-\u2069\ufffe\uffff\ud800-\udfff]"
)


def without_names_of_threads(witness: Witness) -> Witness:
    events = tuple(replace(event, thread=Thread(event.thread.number)) for event in witness.events)
    return replace(witness, events=events)


class Golden(unittest.TestCase):
    maxDiff = None

    def test_pages(self) -> None:
        for name, text in golden.pages():
            with self.subTest(name):
                with open(os.path.join(golden.FOLDER, name), encoding="utf-8") as file:
                    self.assertEqual(file.read(), text)


class Hostile(unittest.TestCase):
    def test_no_character_is_obeyed(self) -> None:
        for name in ALL:
            for form in ("text", "sarif", "junit", "github", "markdown", "html", "svg", "dot"):
                with self.subTest(f"{name} as {form}"):
                    text = golden.printed(name, form, samples.REPORTS[name])
                    self.assertIsNone(UNSAFE.search(text))

    def test_no_character_is_obeyed_in_full(self) -> None:
        for name in samples.HOSTILE_REPORTS:
            for finding in samples.REPORTS[name].findings:
                text = golden.explained(samples.REPORTS[name], finding)
                self.assertIsNone(UNSAFE.search(text), name)

    def test_forbidden_characters_are_visible(self) -> None:
        for form in ("junit", "html", "svg", "markdown", "github"):
            with self.subTest(form):
                text = golden.printed("hostile", form, samples.REPORTS["hostile"])
                for escaped in (r"\x00", r"\x1b", r"\u202e", r"\ufffe", r"\uffff", r"\udc80"):
                    wanted = escaped.replace("\\", "\\\\") if form == "markdown" else escaped
                    self.assertTrue(wanted in text or escaped in text, escaped)

    def test_a_long_name_keeps_its_method(self) -> None:
        for form in ("github", "markdown", "html", "svg", "dot"):
            with self.subTest(form):
                text = golden.printed("long", form, samples.REPORTS["long"])
                self.assertIn("get", text)
                self.assertRegex(text, r"load")
        self.assertLess(
            characters.columns_of(words.claim(samples.named(samples.LONG).findings[0])), 130
        )


class Shortening(unittest.TestCase):
    def test_start_and_end_stay(self) -> None:
        short = characters.shortened(samples.LONG, 40)
        self.assertEqual(characters.columns_of(short), 40)
        self.assertTrue(short.startswith("std::map<std"))
        self.assertTrue(short.endswith("Cache::get_or_load(int)"))

    def test_what_fits_stays(self) -> None:
        self.assertEqual(characters.shortened("abcdef", 6), "abcdef")
        self.assertEqual(characters.shortened("abcdefg", 6), "a..efg")

    def test_wide_letters_take_two_columns(self) -> None:
        self.assertEqual(characters.columns_of("類::a"), 5)
        for room in range(3, 30):
            self.assertLessEqual(
                characters.columns_of(characters.shortened(samples.WIDE * 3, room)), room
            )

    def test_source_keeps_its_start(self) -> None:
        self.assertEqual(characters.shortened_at_end("return pop(); // now", 12), "return pop..")


class Json(unittest.TestCase):
    def test_what_is_read_back_is_the_report(self) -> None:
        for name, report in samples.REPORTS.items():
            with self.subTest(name):
                text = golden.printed(name, "json", report)
                self.assertEqual(as_json.read(text), report)
                self.assertEqual(as_json.read(text.encode("utf-8").decode("utf-8")), report)

    def test_what_is_no_report_is_refused(self) -> None:
        good = json.loads(golden.printed("", "json", samples.REPORTS["pool"]))

        def with_edge(value: Any) -> None:
            value["findings"][0]["witness"]["edges"][0] = [0, 99]

        def without_events(value: Any) -> None:
            value["findings"][0]["witness"]["events"] = []

        def seen_elsewhere(value: Any) -> None:
            value["findings"][0]["seen"] = ["no such run"]

        def of_another_kind(value: Any) -> None:
            value["findings"][0]["kind"] = "race"

        def without_runs(value: Any) -> None:
            value["runs"] = 3

        def of_another_version(value: Any) -> None:
            value["schema"] = 2

        bad = []
        for change in (
            with_edge,
            without_events,
            seen_elsewhere,
            of_another_kind,
            without_runs,
            of_another_version,
        ):
            value = copy.deepcopy(good)
            change(value)
            bad.append(json.dumps(value))
        for text in [*bad, "", "{", "[]", "null", "[" * 200_000]:
            with self.subTest(text[:60]):
                self.assertRaises(as_json.NotAReport, as_json.read, text)

    def test_it_says_its_version_and_status(self) -> None:
        value = json.loads(golden.printed("", "json", samples.REPORTS["pool"]))
        self.assertEqual(
            (value["schema"], value["tool"], value["status"]), (1, "velodrome-report", 3)
        )


class Words(unittest.TestCase):
    def test_plural(self) -> None:
        told = [words.plural(many, "run") for many in (0, 1, 2, 1000)]
        self.assertEqual(told, ["0 runs", "1 run", "2 runs", "1,000 runs"])

    def test_lists(self) -> None:
        told = [words.listed(list(letters)) for letters in ("", "a", "ab", "abc")]
        self.assertEqual(told, ["", "a", "a and b", "a, b and c"])

    def test_what_is_written_is_what_the_thread_writes(self) -> None:
        finding = samples.stale()
        events = list(finding.witness.events)
        events[1] = replace(events[1], target=samples.lock("another"))
        finding.witness = replace(finding.witness, events=tuple(events))
        self.assertEqual(words.claim(finding), "worker(): counter is written from an old value")

    def test_what_no_run_has_seen_can_be_written(self) -> None:
        finding = replace(samples.stale(), seen=())
        self.assertEqual(words.claim(finding), "worker(): counter can be written from an old value")

    def test_what_many_runs_say_is_told_once(self) -> None:
        report = Report([Run(f"r/{number}", reasons=("moved",)) for number in range(3)])
        self.assertEqual(words.unsaid(report), ["r/0: moved (and 2 more)"])

    def test_runs_that_were_not_looked_at_do_not_count(self) -> None:
        report = samples.every_kind()
        self.assertIn("of 3 runs", words.how_often(report.findings[0], report))
        self.assertEqual(words.outcome(samples.nothing_looked_at()), "nothing was looked at")
        report = samples.nothing_looked_at()
        report.findings = [samples.deadlock()]
        self.assertEqual(words.outcome(report), "nothing was looked at: 1 finding")
        text = forms.FORMATS["text"](report, forms.Settings())
        self.assertIn("\nnothing was looked at: 1 finding\n", text)


RUNS = """
velodrome.runs/pool/1  seed 1  exit 0    not atomic: Pool::acquire() and
                                         client(..)
velodrome.runs/pool/2  seed 2  exit 0    atomic
velodrome.runs/pool/3  seed 3  signal 6  atomic
r/4                                      not looked at: the program was moved;
                                         no function is known
"""


class Text(unittest.TestCase):
    # what is to be copied from the list stays on one line
    COMMANDS = ("      to repeat: ", "      in full: ")

    def printed(self, name: str, width: int, colours: bool = False) -> str:
        settings = forms.Settings(width=width, colours=colours, runs=True)
        return forms.FORMATS["text"](samples.REPORTS[name], settings)

    def test_it_keeps_to_its_width(self) -> None:
        for name in samples.REPORTS:
            for width in (80, 120):
                for line in self.printed(name, width).splitlines():
                    if not line.startswith(self.COMMANDS) and " " in line.strip():
                        self.assertLessEqual(characters.columns_of(line), width, f"{name}: {line}")

    def test_one_finding_keeps_to_its_width(self) -> None:
        for name, report in samples.REPORTS.items():
            for finding in report.findings:
                for line in golden.explained(report, finding).splitlines():
                    if not line.startswith(self.COMMANDS) and " " in line.strip():
                        self.assertLessEqual(characters.columns_of(line), 80, f"{name}: {line}")

    def test_each_run_has_its_verdict(self) -> None:
        text = self.printed("every_kind", 80)
        self.assertTrue(text.endswith(RUNS), text)

    def test_many_functions_of_a_run_are_counted(self) -> None:
        report = samples.pool()
        for number in range(5):
            other = samples.pool_finding()
            other.function = Function(f"f{number}", f"f{number}")
            report.findings.append(other)
        told = words.verdict(report.runs[0], report)
        self.assertEqual(told, "not atomic: Pool::acquire(), f0, f1 and 3 more")

    def test_colours_change_no_word(self) -> None:
        for name in samples.REPORTS:
            plain, painted = self.printed(name, 80), self.printed(name, 80, True)
            self.assertNotIn("\x1b", plain)
            self.assertEqual(re.sub("\x1b\\[[0-9]*m", "", painted).split(), plain.split())

    def test_two_files_of_one_name_keep_their_folders(self) -> None:
        report = samples.pool()
        other = samples.three_threads()
        other.function = Function("other", "other", Place("tests/pool.cpp", 3))
        self.assertIn("  pool.cpp:24\n", forms.FORMATS["text"](report, forms.Settings()))
        report.findings.append(other)
        text = forms.FORMATS["text"](report, forms.Settings())
        self.assertIn(" people/pool.cpp:24\n", text)
        self.assertIn(" tests/pool.cpp:3\n", text)

    def test_each_thread_has_its_colour(self) -> None:
        painted = self.printed("pool", 80, True)
        found = re.findall("  [> ] (\x1b\\[[0-9]*m)(thread [0-9])", painted)
        self.assertEqual(len(found), 4)
        self.assertEqual(len({colour for colour, _ in found}), 2)


class Sarif(unittest.TestCase):
    def read(self, name: str) -> Any:
        return json.loads(golden.printed(name, "sarif", samples.REPORTS[name]))

    def test_structure(self) -> None:
        for name in ALL:
            with self.subTest(name):
                self.assertEqual(sarif_2_1_0.faults(self.read(name)), [])

    def test_rules_are_those_of_the_results(self) -> None:
        run = self.read("every_kind")["runs"][0]
        rules = run["tool"]["driver"]["rules"]
        for result in run["results"]:
            self.assertEqual(rules[result["ruleIndex"]]["id"], result["ruleId"])

    def test_an_id_does_not_change_with_the_runs(self) -> None:
        first, second = (
            json.loads(golden.printed("", "sarif", report))
            for report in (
                samples.pool(),
                Report(samples.runs(3, {}), [samples.pool_finding(3)]),
            )
        )
        prints = [log["runs"][0]["results"][0]["partialFingerprints"] for log in (first, second)]
        self.assertEqual(prints[0], prints[1])

    def test_code_flow_has_each_event_in_order(self) -> None:
        for finding in samples.every_kind().findings:
            report = Report(samples.runs(1, {}), [finding])
            result = json.loads(golden.printed("", "sarif", report))["runs"][0]["results"][0]
            steps = [
                step for flow in result["codeFlows"][0]["threadFlows"] for step in flow["locations"]
            ]
            steps.sort(key=lambda step: int(step["executionOrder"]))
            told = [step["location"]["message"]["text"] for step in steps]
            self.assertEqual(
                told, [f"{event.thread} {event.does()}" for event in finding.witness.events]
            )

    def test_a_line_that_is_none_has_no_region(self) -> None:
        for line in (0, 2**31):
            finding = samples.pool_finding(1)
            finding.function = Function("f", "f", Place("a.c", line))
            report = Report(samples.runs(1, {}), [finding])
            log = json.loads(golden.printed("", "sarif", report))
            self.assertEqual(sarif_2_1_0.faults(log), [])
            location = log["runs"][0]["results"][0]["locations"][0]["physicalLocation"]
            self.assertNotIn("region", location)

    def test_a_path_is_a_uri(self) -> None:
        place = Place("/srv/a b/ü%.c", 3)
        finding = samples.pool_finding(1)
        finding.function = Function("f", "f", place)
        report = Report(samples.runs(1, {}), [finding])
        result = json.loads(golden.printed("", "sarif", report))["runs"][0]["results"][0]
        location = result["locations"][0]["physicalLocation"]["artifactLocation"]
        self.assertEqual(location["uri"], "file:///srv/a%20b/%C3%BC%25.c")


class JUnit(unittest.TestCase):
    def read(self, report: Report) -> ElementTree.Element:
        return ElementTree.fromstring(golden.printed("", "junit", report).encode("utf-8"))

    def cases(self, report: Report) -> Dict[Tuple[Optional[str], Optional[str]], List[str]]:
        found: Dict[Tuple[Optional[str], Optional[str]], List[str]] = {}
        for case in self.read(report).iter("testcase"):
            key = (case.get("classname"), case.get("name"))
            self.assertNotIn(key, found)
            found[key] = [child.tag for child in case]
        return found

    def test_one_name_whether_it_passes_or_fails(self) -> None:
        failed, passed = self.cases(samples.pool()), self.cases(samples.nothing_found())
        self.assertEqual(list(failed), list(passed))
        self.assertEqual(failed["function", "Pool::acquire()"], ["failure"])
        self.assertEqual(passed["function", "Pool::acquire()"], [])

    def test_nothing_passes_where_nothing_was_looked_at(self) -> None:
        cases = self.cases(samples.nothing_looked_at())
        self.assertTrue(all(cases.values()))

    def test_counts(self) -> None:
        for name, report in samples.REPORTS.items():
            with self.subTest(name):
                suite = self.read(report).find("testsuite")
                assert suite is not None
                for attribute, tag in (
                    ("failures", "failure"),
                    ("errors", "error"),
                    ("skipped", "skipped"),
                ):
                    self.assertEqual(suite.get(attribute), str(len(list(suite.iter(tag)))))
                self.assertEqual(suite.get("tests"), str(len(suite.findall("testcase"))))

    def test_a_run_that_was_not_looked_at_is_an_error(self) -> None:
        cases = self.cases(samples.every_kind())
        self.assertEqual(cases["program", "looked at each run"], ["error"])


class GitHub(unittest.TestCase):
    COMMAND = re.compile(r"::(error|warning|notice)(?: ([^:]*))?::([^\r\n]*)")

    def test_each_line_is_a_command(self) -> None:
        for name, report in samples.REPORTS.items():
            for line in golden.printed(name, "github", report).splitlines():
                with self.subTest(name, line=line):
                    found = self.COMMAND.fullmatch(line)
                    assert found is not None
                    for given in filter(None, (found[2] or "").split(",")):
                        self.assertRegex(given, r"(file|line|title)=.*")

    def test_escapes_come_back(self) -> None:
        finding = samples.pool_finding(1)
        finding.function = Function("50%:a,b", "50%:a,b", Place("a:b,c%.c", 3))
        finding.repeat = "first\nsecond"
        text = golden.printed("", "github", Report(samples.runs(1, {}), [finding]))
        self.assertIn("file=a%3Ab%2Cc%25.c,line=3,title=50%25%3Aa%2Cb is not atomic::", text)
        self.assertIn(r"to repeat: first\x0asecond", text)


class Page(html.parser.HTMLParser):
    """The elements of a page, with what has to be closed."""

    VOID = {"meta", "input", "br"}

    def __init__(self, text: str) -> None:
        super().__init__()
        self.open: List[str] = []
        self.faults: List[str] = []
        self.names: List[str] = []
        self.ids: Set[str] = set()
        self.links: List[str] = []
        self.feed(text)
        self.close()

    def handle_starttag(self, tag: str, attrs: List[Tuple[str, Optional[str]]]) -> None:
        self.names.append(tag)
        if tag not in self.VOID:
            self.open.append(tag)
        for name, value in attrs:
            if name == "id" and value in self.ids:
                self.faults.append(f"{value} is there twice")
            if name == "id" and value:
                self.ids.add(value)
            if name in ("src", "href") and value and not value.startswith("#"):
                self.faults.append(f"{tag} loads {value}")
            if name == "href" and value:
                self.links.append(value[1:])

    def handle_startendtag(self, tag: str, attrs: List[Tuple[str, Optional[str]]]) -> None:
        self.names.append(tag)

    def handle_endtag(self, tag: str) -> None:
        if not self.open or self.open.pop() != tag:
            self.faults.append(f"</{tag}> stands alone")


class Html(unittest.TestCase):
    def test_well_formed_and_alone(self) -> None:
        for name, report in samples.REPORTS.items():
            with self.subTest(name):
                page = Page(golden.printed(name, "html", report))
                self.assertEqual(page.faults + page.open, [])
                self.assertEqual([link for link in page.links if link not in page.ids], [])
                self.assertEqual(page.names.count("script"), 1)
                self.assertEqual(page.names.count("article"), len(report.findings))

    def test_the_list_of_findings_is_narrow(self) -> None:
        page = golden.printed("long", "html", samples.REPORTS["long"])
        shown = re.findall("<b><bdi>(.*?)</bdi></b>", page)
        self.assertEqual(len(shown), len(samples.REPORTS["long"].findings))
        self.assertLess(max(map(len, shown)), 100)
        self.assertIn("get_or_load(int) is not atomic", shown[0])

    def test_svg_is_xml(self) -> None:
        for name, report in samples.REPORTS.items():
            with self.subTest(name):
                root = ElementTree.fromstring(golden.printed(name, "svg", report).encode("utf-8"))
                self.assertEqual(root.tag, "{http://www.w3.org/2000/svg}svg")


class Markdown(unittest.TestCase):
    def test_fences_are_closed(self) -> None:
        for name, report in samples.REPORTS.items():
            with self.subTest(name):
                fence = ""
                for line in golden.printed(name, "markdown", report).splitlines():
                    found = re.fullmatch("(`{3,})(text)?", line)
                    if found and not fence and found[2]:
                        fence = found[1]
                    elif line == fence:
                        fence = ""
                    elif fence:
                        self.assertNotIn(fence, line)
                self.assertEqual(fence, "")

    def test_a_fence_in_a_line_of_source(self) -> None:
        finding = samples.pool_finding(1)
        events = finding.witness.events
        fenced = replace(events[0], source="````")
        finding.witness = replace(finding.witness, events=(fenced, *events[1:]))
        text = golden.printed("", "markdown", Report(samples.runs(1, {}), [finding]))
        self.assertIn("\n`````text\n", text)
        self.assertIn("\n`````\n", text)

    def test_a_name_makes_no_mark(self) -> None:
        text = golden.printed("hostile", "markdown", samples.REPORTS["hostile"])
        headings = [line for line in text.splitlines() if line.startswith("#")]
        self.assertEqual(len(headings), 1 + 2 + len(samples.REPORTS["hostile"].findings))
        for line in headings:
            self.assertIsNone(re.search(r"(?<!\\)[<>*_`|\[\]]", line), line)


class AllForms(unittest.TestCase):
    def test_one_place_in_every_form(self) -> None:
        for form in ("github", "markdown", "html", "svg", "dot"):
            with self.subTest(form):
                text = golden.printed("pool", form, samples.REPORTS["pool"])
                self.assertRegex(text, r"people/pool\.cpp[:,](line=)?24")

    def test_no_block_is_shown_that_is_left_out(self) -> None:
        report = samples.pool()
        report.known = ("client(Pool&, int, int*)",)
        report.findings[0].witness = without_names_of_threads(report.findings[0].witness)
        self.assertIn("client(Pool", golden.printed("pool", "html", samples.pool()))
        for form in ("sarif", "html"):
            with self.subTest(form):
                text = golden.printed("pool", form, report)
                self.assertEqual(text.count("client(Pool"), 1 if form == "html" else 0)
        self.assertNotIn("client(Pool", golden.explained(report, report.findings[0]))

    def test_table(self) -> None:
        self.assertLessEqual({"json", "sarif", "junit", "github", "markdown"}, set(forms.FORMATS))
        self.assertEqual({"html", "svg", "dot"}, set(forms.FILES))


if __name__ == "__main__":
    unittest.main()
