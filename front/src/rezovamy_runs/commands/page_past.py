"""Asks the history what the page of a run says beside its tests: how they ended before."""

from __future__ import annotations

import os
import pathlib
from collections.abc import Iterable, Mapping, Sequence

from rezovamy_runs.bundles import bundle_file
from rezovamy_runs.command_line import say
from rezovamy_runs.commands import history_options
from rezovamy_runs.faults.fault import Fault
from rezovamy_runs.history import flakiness, joining, opening, queries
from rezovamy_runs.history.database import Database
from rezovamy_runs.history.flakiness import Kind
from rezovamy_runs.history.joining import JoinedRun
from rezovamy_runs.history.outcomes import Outcome
from rezovamy_runs.history.timelines import ABSENT, MARKS
from rezovamy_runs.model import TestName, Verdict
from rezovamy_runs.page.past import Past, PastRun, PastTest
from rezovamy_runs.store.run_folder import Store

# How many runs a page has results of, its own among them.
MOST_RUNS = 20
ENDED = (Verdict.PASS, Verdict.FLAKY, Verdict.FAIL)


def past_of(runs: Store, path: pathlib.Path) -> Past | None:
    """Return how the tests of the run at a path ended in the runs up to it.

    It is None if the bundle isn't in the folder of the runs, or no run is before it. If the history
    can't be asked, that is said, and the page is made without.
    """
    if not runs.is_somewhere() or path.resolve().parent != runs.folder.resolve():
        return None
    if opening.VARIABLE not in os.environ and len(runs.ids()) < 2:
        return None
    run_id = bundle_file.stem_of(path.name)

    def question(database: Database, found: list[JoinedRun]) -> Past | None:
        """Ask for what the page has of the runs."""
        until = runs_until(found, run_id)
        return asked(database, until) if len(until) > 1 else None

    try:
        return history_options.ask(runs, question)
    except Fault as fault:
        say(f"rezovamy-runs: the page is made without earlier results: {fault}")
        return None


def runs_until(found: Sequence[JoinedRun], run_id: str) -> list[JoinedRun]:
    """Return the run that has this id with those before it, none if it isn't there."""
    places = [place for place, run in enumerate(found) if run_id in (row.id for row in run.rows)]
    return joining.latest(found[: places[0] + 1], MOST_RUNS) if places else []


def asked(database: Database, runs: Sequence[JoinedRun]) -> Past:
    """Ask an index what the tests of runs did."""
    names = queries.test_names(database)
    told = queries.outcomes_told(database, runs, names)
    outcomes = joining.outcomes_by_run(runs, told)
    kinds = {one.test: one.kind for one in records_of(database, runs, names)}
    # Those that the page has no use for, which aren't in its own run, are left out.
    tests = {
        test: past_test([of_run.get(test) for of_run in outcomes], kinds.get(test))
        for test in outcomes[-1]
    }
    return Past(tuple(past_run(run) for run in runs), tests)


def records_of(
    database: Database, runs: Sequence[JoinedRun], names: Mapping[int, TestName]
) -> list[flakiness.Record]:
    """Return the records of the tests that failed in a run."""
    return flakiness.records(queries.tallies(database, runs, names))


def past_run(run: JoinedRun) -> PastRun:
    """Return what the page says of a run."""
    return PastRun(run.started, run.first.commit_id, bool(run.first.dirty))


def past_test(outcomes: Iterable[Outcome | None], kind: Kind | None) -> PastTest:
    """Return how a test ended in runs, of which some may not have it."""
    known = list(outcomes)
    return PastTest(
        "".join(MARKS[one.verdict] if one else ABSENT for one in known),
        tuple(one.seconds if one and one.verdict in ENDED else None for one in known),
        kind.word if kind is not None else None,
    )
