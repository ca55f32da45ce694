"""Folds callers whose only fault is what they call under the callee."""

from __future__ import annotations

from dataclasses import replace
from typing import Dict, List, Optional

from .model import Finding, Kind, Section


def folded(findings: List[Finding]) -> List[Finding]:
    """The findings, each caller that only passes on a callee's fault with what it is under.

    A function has a fault of its own if in some run a gap of it spans two of its calls, or a line
    of its own: it stays where it is, even if all that it calls is in the list.
    """
    by_name: Dict[str, Finding] = {
        finding.function.name: finding for finding in findings if finding.kind is Kind.NOT_ATOMIC
    }
    return [_folded(finding, by_name) for finding in findings]


def _folded(finding: Finding, by_name: Dict[str, Finding]) -> Finding:
    callee = _root(finding, by_name)
    if callee is None:
        return replace(finding, section=Section.LIKELY, under=None)
    return replace(
        finding,
        section=Section.FOLDED,
        under=callee.id,
        why=f"only by what it calls: {callee.function.short}",
    )


def _root(finding: Finding, by_name: Dict[str, Finding]) -> Optional[Finding]:
    """The innermost callee that has all of the fault; None if it is the function's own.

    Of functions that call one another the first by name stays.
    """
    path = [finding]
    while True:
        gap = path[-1].traits.gap
        if path[-1].kind is not Kind.NOT_ATOMIC or gap is None or not gap.inside_callee:
            break
        callee = by_name.get(gap.callee)
        if callee is None:
            break
        if callee in path:
            circle = path[path.index(callee) :]
            path.append(min(circle, key=lambda one: one.function.name))
            break
        path.append(callee)
    return None if path[-1] is finding else path[-1]
