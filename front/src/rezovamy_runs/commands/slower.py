"""Says which tests have become slower."""

from __future__ import annotations

import argparse

from rezovamy_runs import formatting
from rezovamy_runs.command_line import whole
from rezovamy_runs.commands import history_options
from rezovamy_runs.commands.history_options import Table
from rezovamy_runs.history import durations, joining, queries
from rezovamy_runs.history.database import Database
from rezovamy_runs.history.durations import Slowed
from rezovamy_runs.history.joining import JoinedRun
from rezovamy_runs.history.outcomes import FEWEST_TIMES
from rezovamy_runs.history.rows import named
from rezovamy_runs.json_values import JsonObject
from rezovamy_runs.report.run_text import name_of
from rezovamy_runs.store import run_folder

SUMMARY = "say which tests take longer in the latest runs than before, and since which run"
TAKES_REST = False
HEADS = ("before", "now", "give or take", "test", "since")
NUMBERS = ("before", "now", "give or take")
MOST_RUNS, LATEST = 25, 5


def add_options(parser: argparse.ArgumentParser) -> None:
    """Take which runs are looked at, how many of them are the latest, and the form."""
    history_options.add_window(parser, MOST_RUNS)
    parser.add_argument(
        "--latest",
        type=whole(FEWEST_TIMES, 10**6),
        default=LATEST,
        metavar="N",
        help=f"hold the latest N of these runs against those before ({LATEST})",
    )
    history_options.add_form(parser)


def run(words: argparse.Namespace) -> int:
    """Print the tests that became slower."""
    runs = run_folder.here()

    def question(database: Database, found: list[JoinedRun]) -> tuple[int, list[Slowed]]:
        """Ask how long tests took in the chosen runs."""
        chosen = joining.latest(found, words.runs, words.branch)
        history_options.some(chosen, runs, words.branch)
        told = queries.outcomes_told(database, chosen, queries.test_names(database))
        outcomes = joining.outcomes_by_run(chosen, told)
        return len(chosen), durations.slower(chosen, outcomes, words.latest)

    count, slower = history_options.ask(runs, question)
    tests = formatting.count(len(slower), "test")
    before = formatting.count(max(0, count - words.latest), "run")
    title = f"{tests} slower in the latest {min(count, words.latest)} than in the {before} before"
    table = Table(title, HEADS, [row_of(one) for one in slower], NUMBERS)
    history_options.print_answer(words, lambda: [value_of(one) for one in slower], [table])
    return 0


def row_of(one: Slowed) -> tuple[object, ...]:
    """Return what is said of a test for people."""
    times = map(formatting.duration, (one.before, one.now, one.spread))
    return *times, name_of(one.test), history_options.run_text(one.since)


def value_of(one: Slowed) -> JsonObject:
    """Return what is said of a test for scripts."""
    return {
        **named(one.test),
        "before": one.before,
        "now": one.now,
        "spread": one.spread,
        "since": history_options.run_value(one.since),
    }
