"""Reports of several machines, merged."""

from __future__ import annotations

import unittest

import samples
from velodrome_report import apart, assemble
from velodrome_report.model import Report, Run


class Merge(unittest.TestCase):
    def test_runs_of_one_name_count_apart(self) -> None:
        merged = assemble.merged([samples.pool(), samples.pool()])
        (finding,) = merged.findings
        self.assertEqual(len(merged.runs), 40)
        self.assertEqual(len({run.name for run in merged.runs}), 40)
        self.assertEqual((len(finding.seen), len(finding.possible)), (8, 40))
        self.assertLessEqual(set(finding.possible), {run.name for run in merged.runs})

    def test_other_names_stay(self) -> None:
        parts = [samples.pool(), Report(samples.runs(0, {}))]
        self.assertEqual(apart.named_apart(parts), parts)

    def test_names_stay_apart_from_those_that_look_alike(self) -> None:
        first, second, third = (Report([Run(name, looked_at=True)]) for name in ("a", "a (2)", "a"))
        parts = apart.named_apart([first, second, third])
        self.assertEqual([part.runs[0].name for part in parts], ["a", "a (2)", "a (3)"])

    def test_what_is_told_twice_of_each_is_told_once_of_all(self) -> None:
        parts = [samples.every_kind(), samples.every_kind()]
        merged = assemble.merged(parts)
        self.assertEqual(len({finding.id for finding in merged.findings}), len(merged.findings))
        self.assertEqual(len(merged.findings), len(parts[0].findings))
        self.assertEqual(merged.reasons, parts[0].reasons)
        self.assertEqual(merged.known, parts[0].known)


if __name__ == "__main__":
    unittest.main()
