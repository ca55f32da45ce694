"""What operands turn out to be."""

import json
import os
import unittest

import support
from velodrome_report import runs
from velodrome_report.runs import NotFound, SourceKind


class Operands(support.InFolder):
    def trace(self, *names: str) -> str:
        path = support.put(self.path(*names), "vltrace2")
        support.put(path + ".maps", "")
        return path

    def run_folder(self, *names: str) -> str:
        self.trace(*names, "trace.7")
        description = {"schema": 1, "command": ["./pool"], "seed": 7, "folder": "/there"}
        support.put(self.path(*names, "run.json"), json.dumps(description))
        return self.path(*names)

    def test_the_newest_recording(self) -> None:
        for recording in ("0002", "0010", "0009"):
            self.run_folder("velodrome.runs", recording, "2")
            self.run_folder("velodrome.runs", recording, "10")
        found = runs.find([self.path("velodrome.runs")]).sources
        ends = [source.name.split("/")[-2:] for source in found]
        self.assertEqual(ends, [["0010", "2"], ["0010", "10"]])
        self.assertEqual(found[0].folder, "/there")
        self.assertEqual(found[0].description["seed"], 7)

    def test_a_run_and_a_recording(self) -> None:
        run = self.run_folder("r", "0001", "3")
        self.assertEqual([one.name for one in runs.find([run]).sources], [run])
        found = runs.find([self.path("r", "0001")]).sources
        self.assertEqual([one.path for one in found], [os.path.join(run, "trace.7")])

    def test_a_run_without_a_trace(self) -> None:
        support.put(self.path("r", "run.json"), "{}")
        (source,) = runs.find([self.path("r")]).sources
        self.assertIn("no trace", source.reason or "")

    def test_what_velodrome_out_was(self) -> None:
        for number in ("12", "7", "x"):
            self.trace(f"run.{number}")
        support.put(self.path("run.7.log"), "vlog 2 1 0 0\n")
        found = runs.find([self.path("run")]).sources
        self.assertEqual([one.path[-5:] for one in found], ["un.12", "run.7"])

    def test_a_trace_without_its_maps(self) -> None:
        path = support.put(self.path("run.7"), "vltrace2")
        (source,) = runs.find([path]).sources
        self.assertEqual(source.kind, SourceKind.TRACE)
        self.assertIn(".maps is missing", source.reason or "")

    def test_files(self) -> None:
        for text, kind, reason in (
            ("vlog 2 1 0 0\n", SourceKind.LOG, None),
            ('{"schema":1}', SourceKind.ANSWER, None),
            ("", SourceKind.LOG, "empty"),
            ("vsites 1 0 0\n", SourceKind.LOG, "sites"),
            ("hello", SourceKind.LOG, "no trace, no log"),
        ):
            with self.subTest(text):
                (source,) = runs.find([support.put(self.path("f"), text)]).sources
                self.assertEqual(source.kind, kind)
                self.assertEqual(source.reason is None, reason is None)
                self.assertIn(reason or "", source.reason or "")

    def test_what_is_packed(self) -> None:
        with open(self.path("f.gz"), "wb") as opened:
            opened.write(b"\x1f\x8b123")
        (source,) = runs.find([self.path("f.gz")]).sources
        self.assertIn("gzip -d", source.reason or "")

    def test_nothing_there(self) -> None:
        with self.assertRaisesRegex(NotFound, "no such file"):
            runs.find([self.path("nothing")])
        os.mkdir(self.path("empty"))
        self.assertIn("no recording", runs.find([self.path("empty")]).reasons[0])


if __name__ == "__main__":
    unittest.main()
