"""The bands of a page of several runs: each has rows of its own, one band below the other."""

from __future__ import annotations

import dataclasses
from collections.abc import Sequence
from typing import TypedDict

from rezovamy_runs.model import Attempt, Run, Slice
from rezovamy_runs.store.notes import RunNotes

SHORT_ID = 8


class PageBand(TypedDict):
    """A band: its name, and the number of its first slot among all of the page."""

    name: str
    slot: int


def band_name(run: Run, notes: RunNotes | None) -> str:
    """Return what the band of a run is called: by its shard, or else by its id."""
    shard = f"shard {notes.shard}" if notes and notes.shard else run.id[:SHORT_ID]
    return f"{shard} again" if run.parent else shard


def banded(runs: Sequence[Run], names: Sequence[str]) -> tuple[list[Run], list[PageBand]]:
    """Return the runs with slots and setup scripts counted over all of them, and their bands.

    The time before a rerun in which nothing ran is left out.
    """
    moved: list[Run] = []
    bands: list[PageBand] = []
    slot = script = 0
    waited = waits(runs)
    for run, name in zip(runs, names):
        bands.append({"name": name, "slot": slot})
        moved.append(moved_run(earlier_run(run, waited[run.id]), slot, script))
        slot += 1 + max((slot_of(one) for test in run.tests for one in test.attempts), default=-1)
        script += len(run.scripts)
    return moved, bands


def slot_of(attempt: Attempt) -> int:
    """Return the slot of an attempt, 0 if it isn't known."""
    return attempt.slot or 0


def waits(runs: Sequence[Run]) -> dict[str, int]:
    """Return for each run how long nothing ran before the reruns up to it, in microseconds."""
    found: dict[str, int] = {}
    waited, end = 0, max((run.extent[1] for run in runs), default=0)
    for run in sorted(runs, key=lambda run: run.extent):
        begin, last = run.extent
        if run.parent and begin > end:
            waited += begin - end
        end = max(end, last) if found else last
        found[run.id] = waited
    return found


def earlier_run(run: Run, wait: int) -> Run:
    """Return a run with all its instants so many microseconds earlier, but for its start."""
    if not wait:
        return run
    begin, end = run.extent
    return dataclasses.replace(
        run,
        extent=(begin - wait, end - wait),
        tests=tuple(
            dataclasses.replace(
                test, attempts=tuple(earlier_attempt(one, wait) for one in test.attempts)
            )
            for test in run.tests
        ),
        scripts=tuple(
            dataclasses.replace(one, attempt=earlier_attempt(one.attempt, wait))
            for one in run.scripts
        ),
        pauses=earlier_slices(run.pauses, wait),
        cancellations=tuple(
            dataclasses.replace(one, at=one.at - wait) for one in run.cancellations
        ),
    )


def earlier_attempt(attempt: Attempt, wait: int) -> Attempt:
    """Return an attempt with all its instants so many microseconds earlier."""
    return dataclasses.replace(
        attempt,
        started=attempt.started - wait / 1e6,
        slices=earlier_slices(attempt.slices, wait),
        slow_at=tuple(at - wait for at in attempt.slow_at),
    )


def earlier_slices(slices: Sequence[Slice], wait: int) -> tuple[Slice, ...]:
    """Return stretches of time so many microseconds earlier."""
    return tuple((begin - wait, end - wait) for begin, end in slices)


def moved_run(run: Run, slots: int, scripts: int) -> Run:
    """Return a run whose slots and setup scripts come after so many others."""
    return dataclasses.replace(
        run,
        tests=tuple(
            dataclasses.replace(
                test,
                attempts=tuple(
                    dataclasses.replace(one, slot=slot_of(one) + slots) for one in test.attempts
                ),
            )
            for test in run.tests
        ),
        scripts=tuple(dataclasses.replace(one, index=one.index + scripts) for one in run.scripts),
    )
