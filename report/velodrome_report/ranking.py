"""The order of the list: what is likely to be a mistake first."""

from __future__ import annotations

from dataclasses import replace
from typing import List, Optional, Tuple

from .model import Action, Finding, Kind, Section, TargetKind, Traits

CARRIED, LOOKED_AT_AGAIN, SEEN_TWICE, LOCK = range(4)
SAID = {
    CARRIED: "is read, and later written without being read again",
    LOOKED_AT_AGAIN: "is read, and later read again and written",
}

UPGRADED = "is held shared and later alone: what was read before may have changed"
USED_AGAIN = "is used before the lock is let go, and again after that"
LOOPS = "each pass of its loop is atomic by itself"
UNORDERED = "no lock is held, and nothing orders the other thread's write: it can come in between"


def by_design(finding: Finding) -> Optional[str]:
    """Why a finding is probably no mistake, None if it may be one."""
    gap = finding.traits.gap
    if gap is not None and gap.used_again:
        return f"one call reads {gap.target} and another one writes it: it is used again, perhaps"
    if finding.kind is Kind.STALE_WRITE and gap is not None and gap.in_loop:
        return LOOPS
    if finding.kind is not Kind.NOT_ATOMIC:
        return None
    if (gap is None or gap.tier >= SEEN_TWICE) and _waits_for_threads(finding):
        return "it starts threads or waits for their end"
    if gap is None:
        return None if _may_matter(finding.traits) else "only locks and counts make it so"
    if gap.in_wait:
        return "others come in only while it waits"
    if gap.counts:
        return f"{gap.target} is changed more than once, each time at once, as a count is"
    if gap.in_loop:
        return LOOPS
    if gap.tier == LOCK and not _may_matter(finding.traits):
        return f"it takes {gap.target} more than once, and no variable makes it so"
    return None


def why(finding: Finding) -> str:
    """What is wrong, in a few words; empty where the events say it."""
    gap = finding.traits.gap
    if finding.kind is Kind.STALE_WRITE and not finding.seen:
        return UNORDERED
    if finding.kind is not Kind.NOT_ATOMIC or gap is None:
        return ""
    targets = finding.witness.targets()
    variables = [target for target in targets if target.kind is TargetKind.VARIABLE]
    if gap.tier == SEEN_TWICE and not variables:
        is_lock = gap.target in (str(target) for target in targets)
        return f"{gap.target} {UPGRADED if is_lock else USED_AGAIN}"
    if gap.tier not in SAID:
        return ""
    if not variables:
        return f"{gap.target} {SAID[gap.tier]}"
    own = [event.action for event in finding.witness.events if not event.interrupts]
    carried = own[0] is Action.READS and own[-1] is Action.WRITES
    return f"{variables[0]} {SAID[gap.tier]}" if carried and len(targets) == 1 else ""


def ranked(findings: List[Finding]) -> List[Finding]:
    """The findings with their sections, in the order in which they are to be read."""
    placed = [_placed(finding) for finding in findings]
    return sorted(placed, key=_key)


def _placed(finding: Finding) -> Finding:
    if finding.section is Section.FOLDED:
        return finding
    reason = by_design(finding)
    if reason is None:
        return replace(finding, section=Section.LIKELY, why=why(finding))
    return replace(finding, section=Section.BY_DESIGN, why=reason)


def _waits_for_threads(finding: Finding) -> bool:
    """Whether the function's own end of the cycle is a start or a join of a thread."""
    own = [event.action for event in finding.witness.events if not event.interrupts]
    return Action.JOINS in own or Action.STARTS in own


def _may_matter(traits: Traits) -> bool:
    """Whether a variable may pass through where only locks were seen."""
    return traits.data or not traits.all_variables


def _key(finding: Finding) -> Tuple[int, int, bool, bool, int, int, str]:
    sections = [Section.LIKELY, Section.BY_DESIGN, Section.FOLDED]
    kinds = [Kind.DEADLOCK, Kind.STALE_WRITE, Kind.NOT_ATOMIC, Kind.DEADLOCK_POSSIBLE]
    return (
        sections.index(finding.section),
        0 if finding.kind is Kind.DEADLOCK else 1 + _tier(finding),
        not finding.seen,
        finding.traits.gap is not None and not finding.traits.gap.seen,
        -len(finding.possible),
        -len(finding.seen),
        f"{kinds.index(finding.kind)} {finding.function.name}",
    )


def _tier(finding: Finding) -> int:
    """What passes through the gap: a value that was carried first, a lock alone last."""
    if finding.kind is Kind.DEADLOCK_POSSIBLE:
        return CARRIED
    if finding.kind is Kind.STALE_WRITE:
        return CARRIED
    gap = finding.traits.gap
    return SEEN_TWICE if gap is None and finding.traits.data else LOCK if gap is None else gap.tier


def by_count(findings: List[Finding]) -> List[Finding]:
    """The findings with the most calls to blame first; of as many in the order of the list."""
    return sorted(findings, key=lambda finding: -finding.counts.to_blame)
