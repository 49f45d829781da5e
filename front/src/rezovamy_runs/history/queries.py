"""What is asked of the tables, by SQL that SQLite and PostgreSQL read alike, as typed rows.

SQLite follows the order of a CROSS JOIN. So it looks first at the few outcomes that aren't passes,
by their index, and then goes from run to run, as these lie in the table.
"""

from __future__ import annotations

from collections.abc import Iterator, Mapping, Sequence

from rezovamy_runs.history import flakiness, schema
from rezovamy_runs.history.database import Database, Row
from rezovamy_runs.history.flakiness import Ended, Tally
from rezovamy_runs.history.joining import JoinedRun, Told
from rezovamy_runs.history.outcomes import Outcome
from rezovamy_runs.history.rows import RunRow
from rezovamy_runs.model import TestName, Verdict

NAMES = "SELECT test, binary_id, name FROM tests"
ENDED = """
WITH asked AS ({tests})
SELECT o.test, o.run, o.verdict
FROM runs r CROSS JOIN asked a CROSS JOIN outcomes o
WHERE r.started >= ? AND o.run = r.run AND o.test = a.test
    AND o.verdict IN ('pass', 'flaky', 'fail')
"""
DOUBTFUL_TESTS = """
    SELECT DISTINCT o.test FROM outcomes o CROSS JOIN runs r
    WHERE o.verdict IN ('fail', 'flaky') AND r.run = o.run AND r.started >= ?"""
ALL_TESTS = "SELECT test FROM tests"
TOLD = "SELECT o.run, o.test, o.verdict, o.seconds, o.attempts, o.message FROM "
OF_RUNS = TOLD + "outcomes o WHERE o.run IN ({runs})"
OF_TEST = (
    TOLD + "runs r CROSS JOIN outcomes o WHERE r.started >= ? AND o.run = r.run AND o.test = ?"
)
COUNT = "SELECT COUNT(DISTINCT test) FROM outcomes WHERE run IN ({runs}) AND verdict <> 'skip'"


def run_rows(database: Database) -> list[RunRow]:
    """Return all runs."""
    columns = ", ".join(schema.RUN_COLUMNS)
    return [RunRow(*row) for row in database.rows(f"SELECT {columns} FROM runs")]


def test_names(database: Database) -> dict[int, TestName]:
    """Return the names of all tests by their keys."""
    return {key: TestName(binary, name) for key, binary, name in database.rows(NAMES)}


def since(runs: Sequence[JoinedRun]) -> float:
    """Return when the first of some runs started."""
    return min(row.started for run in runs for row in run.rows)


def keys_of(runs: Sequence[JoinedRun]) -> str:
    """Return the keys of runs, which are numbers, as they stand in a statement."""
    return ", ".join(str(row.run) for run in runs for row in run.rows)


def tallies(
    database: Database,
    runs: Sequence[JoinedRun],
    names: Mapping[int, TestName],
    every: bool = False,
) -> list[Tally]:
    """Return how often tests passed and failed over runs, by what sources ran.

    They are those that failed once, at least at one attempt, or all.
    """
    if not runs:
        return []
    begin = since(runs)
    statement = ENDED.format(tests=ALL_TESTS if every else DOUBTFUL_TESTS)
    rows = database.rows(statement, (begin,) if every else (begin, begin))
    ended: Iterator[Ended] = ((test, run, verdict) for test, run, verdict in rows)
    found = flakiness.tallies(runs, ended, names)
    # Some may have failed only in runs that weren't chosen.
    wanted = flakiness.doubtful(found)
    return [tally for tally in found if every or tally.test in wanted]


def outcomes_told(
    database: Database, runs: Sequence[JoinedRun], names: Mapping[int, TestName]
) -> Iterator[Told]:
    """Ask what runs say of all their tests."""
    if runs:
        yield from told_of(database.rows(OF_RUNS.format(runs=keys_of(runs))), names)


def outcomes_of_test(
    database: Database, runs: Sequence[JoinedRun], test: int, names: Mapping[int, TestName]
) -> Iterator[Told]:
    """Ask what runs say of one test by its key; other runs after the first of them come too."""
    if runs:
        yield from told_of(database.rows(OF_TEST, (since(runs), test)), names)


def told_of(rows: Iterator[Row], names: Mapping[int, TestName]) -> Iterator[Told]:
    """Return outcomes as they stand in the table."""
    for run, test, verdict, *others in rows:
        yield Told(run, names[test], Outcome(Verdict(verdict), *others))


def count_tests(database: Database, run: JoinedRun) -> int:
    """Return how many tests ran in a run."""
    return int(next(database.rows(COUNT.format(runs=keys_of([run]))))[0])
