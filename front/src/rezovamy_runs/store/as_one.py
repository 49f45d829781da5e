"""The rules by which several runs count as one: which do, and how a test ended in all of them.

What `again` ran belongs to the run before it, if it ran the same sources. Of a test in both the
later result counts, and a failure that passed later is flaky. Of a test in runs beside each other,
as in shards, the worst result counts.
"""

from __future__ import annotations

import dataclasses
from collections.abc import Callable, Iterable, Mapping, Sequence
from typing import NamedTuple, TypeVar

from rezovamy_runs.model import Summary, Verdict
from rezovamy_runs.store.notes import Part, RunNotes

# Of the verdicts that a test has in runs beside each other, the first of these counts.
WORST_FIRST = (
    Verdict.FAIL,
    Verdict.UNFINISHED,
    Verdict.FLAKY,
    Verdict.PASS,
    Verdict.SKIP,
)
GOOD = (Verdict.PASS, Verdict.FLAKY)
# Of a test that was skipped, or ran when its run was broken off, nobody knows whether it would
# have passed.
UNKNOWN = (Verdict.SKIP, Verdict.UNFINISHED)

Key = TypeVar("Key")
Result = TypeVar("Result")
Join = Callable[[Result, Result], Result]


# Which runs count as one.


@dataclasses.dataclass(frozen=True)
class Origin:
    """Where a run comes from: the run of which it ran something again, and the sources it ran."""

    parent: str | None = None
    commit: str | None = None
    is_changed: bool = False
    # Whether it ran only what hadn't passed in another one.
    is_again: bool = False


OriginOf = Callable[[str], Origin | None]


def origin_of(run: Summary, known: RunNotes | None) -> Origin:
    """Return where a run comes from, by its bundle and the notes beside it."""
    noted = known or RunNotes()
    is_again = bool(run.parent) if known is None else noted.part is Part.AGAIN
    return Origin(run.parent, noted.commit, bool(noted.dirty), is_again)


@dataclasses.dataclass(frozen=True)
class Parts:
    """The runs that count as one: each with what ran again of it, and lone reruns.

    A rerun is alone if the run before it isn't there, or ran other sources.
    """

    chains: tuple[tuple[str, ...], ...]
    lone: tuple[str, ...] = ()


def parent_of(run_id: str, origin_of: OriginOf) -> str | None:
    """Return the run to which a rerun belongs, None if it belongs to none that is there."""
    own = origin_of(run_id)
    before = origin_of(own.parent) if own and own.parent else None
    if own is None or before is None:
        return None
    is_same = (own.commit, own.is_changed) == (before.commit, before.is_changed)
    return own.parent if is_same else None


def chain_to(run_id: str, origin_of: OriginOf) -> list[str]:
    """Return a run, the one to which it belongs, and so on; the last one belongs to none."""
    found = [run_id]
    while (parent := parent_of(found[-1], origin_of)) is not None and parent not in found:
        found.append(parent)
    return found


def head_of(run_id: str, origin_of: OriginOf) -> str:
    """Return the run with which reruns began, which may be the run itself."""
    return chain_to(run_id, origin_of)[-1]


def parts_of(origins: Mapping[str, Origin]) -> Parts:
    """Return the parts of runs that count as one, which stand here in the order of their starts."""
    found: dict[str, list[tuple[int, str]]] = {}
    for run_id in origins:
        chain = chain_to(run_id, origins.get)
        found.setdefault(chain[-1], []).append((len(chain), run_id))
    # What ran again comes after what it ran again, whatever its clock said.
    chains = {
        head: tuple(run_id for _, run_id in sorted(of_head, key=lambda one: one[0]))
        for head, of_head in found.items()
    }
    lone = {head for head in chains if origins[head].is_again}
    return Parts(
        tuple(chain for head, chain in chains.items() if head not in lone),
        tuple(run_id for head in chains if head in lone for run_id in chains[head]),
    )


# How a test ended.


class Counted(NamedTuple):
    """How a test ended that two runs have, and whether the later result counts."""

    verdict: Verdict
    is_later: bool


def again(earlier: Verdict, later: Verdict) -> Counted:
    """Return what counts of a test of a run, of which a later one ran it again."""
    if later in UNKNOWN:
        return Counted(earlier, False)
    has_failed = earlier in (Verdict.FAIL, Verdict.FLAKY)
    return Counted(Verdict.FLAKY if has_failed and later in GOOD else later, True)


def beside(earlier: Verdict, later: Verdict) -> Counted:
    """Return what counts of a test that two runs beside each other have: the worse result."""
    is_later = WORST_FIRST.index(later) <= WORST_FIRST.index(earlier)
    return Counted(later if is_later else earlier, is_later)


def merged(
    parts: Parts,
    results: Mapping[str, Mapping[Key, Result]],
    join_again: Join[Result],
    join_beside: Join[Result],
) -> dict[Key, Result]:
    """Return the results of all tests of runs that count as one, by the results of each run."""
    of_chains = [in_row((results[one] for one in chain), join_again) for chain in parts.chains]
    whole = in_row(of_chains, join_beside)
    return in_row([whole, *(results[one] for one in parts.lone)], join_again)


def in_row(results: Iterable[Mapping[Key, Result]], join: Join[Result]) -> dict[Key, Result]:
    """Return the results of runs, where two of one test are joined."""
    found: dict[Key, Result] = {}
    for of_run in results:
        for key, result in of_run.items():
            found[key] = join(found[key], result) if key in found else result
    return found


def ordered(parts: Parts) -> Sequence[str]:
    """Return the runs with what ran again after what it ran again, and lone reruns at the end."""
    return [*(one for chain in parts.chains for one in chain), *parts.lone]
