"""The golden files: what the forms give for the samples, read by a person. Run as a program it writes them anew."""

from __future__ import annotations

import os
import re
from typing import Iterator, Tuple

import samples
from velodrome_report import forms, model, source

FOLDER = os.path.join(samples.HERE, "golden")
NAMES = ("pool", "every_kind", "nothing_found", "nothing_looked_at")
OF_ONE_FINDING = ("svg", "dot")


def printed(name: str, form: str, report: model.Report) -> str:
    """What a form gives for a report, with the lines of source of the samples."""
    table = {**forms.FORMATS, **forms.FILES}
    settings = forms.Settings(sources=source.Sources([samples.SOURCE]))
    return table[form](report, settings)


def explained(report: model.Report, finding: model.Finding, width: int = 80) -> str:
    """What --explain gives for a finding."""
    settings = forms.Settings(width=width, explain=finding)
    return forms.FORMATS["text"](report, settings)


def without_looks(page: str) -> str:
    """The page without its style and its script, which tests of the browser look at."""
    for element in ("style", "script"):
        page = re.sub(f"<{element}>.*?</{element}>", f"<{element}></{element}>", page, flags=re.S)
    return page


def single() -> Iterator[Tuple[str, str]]:
    """Each kind of finding, drawn and in full."""
    for report in (samples.every_kind(), samples.nested()):
        for finding in report.findings:
            yield f"{finding.id}.explained", explained(report, finding)
            for form in OF_ONE_FINDING:
                settings = forms.Settings(finding=finding)
                yield f"{finding.id}.{form}", forms.FILES[form](report, settings)


def pages() -> Iterator[Tuple[str, str]]:
    """Each golden file by its name."""
    yield from single()
    for name in NAMES:
        for form in (*forms.FORMATS, "html"):
            yield f"{name}.{form}", without_looks(printed(name, form, samples.REPORTS[name]))


if __name__ == "__main__":
    for file, text in pages():
        with open(os.path.join(FOLDER, file), "w", encoding="utf-8") as golden:
            golden.write(text)
