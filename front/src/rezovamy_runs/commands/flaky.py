"""Says which tests can't be trusted, by how they fared over the recorded runs."""

from __future__ import annotations

import argparse

from rezovamy_runs import formatting, quarantine
from rezovamy_runs.commands import history_options
from rezovamy_runs.commands.history_options import Table
from rezovamy_runs.history import flakiness, joining, queries
from rezovamy_runs.history.database import Database
from rezovamy_runs.history.flakiness import Kind, Record
from rezovamy_runs.history.joining import JoinedRun
from rezovamy_runs.history.rows import named
from rezovamy_runs.json_values import JsonObject
from rezovamy_runs.quarantine import Quarantine
from rezovamy_runs.store import run_folder

SUMMARY = "say which tests fail and pass at one commit, fail at some commits, or always fail"
TAKES_REST = False
HEADS = ("failed", "flaky", "passed", "runs", "test")
MOST_RUNS = 1000
TITLES = {
    Kind.AT_ONE_COMMIT: "failed and passed at one commit",
    Kind.OVER_COMMITS: "failed in some runs and passed in others, but not at one commit",
    Kind.ALWAYS_FAILS: "failed each time",
    Kind.ALWAYS_PASSES: "passed each time",
}


def add_options(parser: argparse.ArgumentParser) -> None:
    """Take which runs are looked at, and the form."""
    history_options.add_window(parser, MOST_RUNS)
    parser.add_argument(
        "--all", action="store_true", help="name the tests that passed each time too"
    )
    history_options.add_form(parser)


def run(words: argparse.Namespace) -> int:
    """Print the tests that failed, the least trusted first."""
    runs = run_folder.here()
    excused = quarantine.of(runs)

    def question(
        database: Database, found: list[JoinedRun]
    ) -> tuple[list[JoinedRun], list[Record], int]:
        """Ask for the tallies of the chosen runs."""
        chosen = joining.latest(found, words.runs, words.branch)
        names = queries.test_names(database)
        records = flakiness.records(queries.tallies(database, chosen, names, words.all))
        return chosen, records, queries.count_tests(database, chosen[-1]) if chosen else 0

    chosen, records, tests = history_options.ask(runs, question)
    history_options.print_answer(
        words,
        lambda: [value_of(one, excused) for one in records],
        parts_of(records, len(chosen), tests, excused),
    )
    return 0


def parts_of(
    records: list[Record], runs: int, tests: int, excused: Quarantine
) -> list[Table | str]:
    """Return what is said for people."""
    parts: list[Table | str] = []
    for kind, title in TITLES.items():
        rows = [row_of(one, excused) for one in records if one.kind is kind]
        if rows:
            count = formatting.count(len(rows), "test")
            parts.append(Table(f"{title}: {count}", HEADS, rows, HEADS[:-1]))
    doubtful = sum(one.kind is not Kind.ALWAYS_PASSES for one in records)
    over = formatting.count(runs, "run")
    said = f"{formatting.count(doubtful, 'test')} failed over {over}"
    return [*parts, f"{said}; the last one ran {formatting.count(tests, 'test')}"]


def row_of(record: Record, excused: Quarantine) -> tuple[object, ...]:
    """Return what is said of a test for people."""
    name = excused.marked(record.test)
    return record.failed, record.flaky, record.passed, record.runs, name


def value_of(record: Record, excused: Quarantine) -> JsonObject:
    """Return what is said of a test for scripts."""
    return {
        **named(record.test),
        "kind": record.kind.word,
        "runs": record.runs,
        "passed": record.passed,
        "flaky": record.flaky,
        "failed": record.failed,
        "mixed-commits": record.mixed,
        "quarantined": record.test in excused,
    }
