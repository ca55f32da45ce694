"""The best witness of a finding: over all runs the one that is the easiest to understand."""

from __future__ import annotations

from typing import Iterable, List, Tuple

from .model import Action, TargetKind, Witness

Rank = Tuple[int, int, bool, int, int, bool, bool]


def rank(witness: Witness) -> Rank:
    """The lesser is the better one.

    The fewest threads, then one lock or variable before two, a block to blame before none, the
    fewest events, a variable before a lock, a read that comes before a write, a run that was
    before one that could be.
    """
    own = [event for event in witness.events if not event.interrupts]
    targets = [target for target in witness.targets() if target.kind is not TargetKind.BLOCK]
    locks = sum(target.kind is TargetKind.LOCK for target in targets)
    return (
        len(witness.threads()),
        len(targets),
        not witness.blocks,
        len(witness.events),
        locks,
        not own or own[0].action is not Action.READS or own[-1].action is not Action.WRITES,
        witness.predicted,
    )


def best(witnesses: Iterable[Witness]) -> Witness:
    """The best of them; of equals the first. There has to be one."""
    listed: List[Witness] = list(witnesses)
    return min(listed, key=rank)
