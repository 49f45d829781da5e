"""Says which runs go when old ones are removed."""

from __future__ import annotations

import dataclasses
import itertools
from collections.abc import Sequence

from rezovamy_runs.bundles import bundle_file
from rezovamy_runs.model import Summary


@dataclasses.dataclass(frozen=True)
class Rule:
    """How many of the latest runs stay in any case, and of the others: how old and large they are.

    An age is in seconds, and `size` is of all bundles together. Without both, all others go.
    """

    keep: int | None = None
    older: float | None = None
    size: int | None = None


def gone(runs: Sequence[Summary], rule: Rule, now: float) -> list[Summary]:
    """Return the runs that go, of all of them, the latest first.

    A run stays if one that stays is a rerun of it, even if it is old or there is no room.
    """
    sizes = itertools.accumulate(run.size for run in runs)
    judged = list(zip(runs, sizes))[rule.keep or 0 :]
    chosen = {run.bundle for run, size in judged if is_condemned(run, size, rule, now)}
    parents: set[str | None] = set()
    # A rerun is later than its parent, so it comes first.
    for run in runs:
        if run.bundle not in chosen or name_of(run) in parents:
            chosen.discard(run.bundle)
            parents.add(run.parent)
    return [run for run in runs if run.bundle in chosen]


def name_of(run: Summary) -> str:
    """Return the id of a run by its file, which may be a copy under another name."""
    return bundle_file.stem_of(run.bundle.name)


def is_condemned(run: Summary, size: int, rule: Rule, now: float) -> bool:
    """Tell whether a run goes unless another one needs it.

    `size` is that of it and of all later ones.
    """
    if rule.older is None and rule.size is None:
        return True
    is_old = rule.older is not None and now - run.started > rule.older
    return is_old or (rule.size is not None and size > rule.size)
