"""Says which tests take longest."""

from __future__ import annotations

import argparse

from rezovamy_runs import formatting
from rezovamy_runs.command_line import whole
from rezovamy_runs.commands import history_options
from rezovamy_runs.commands.history_options import Table
from rezovamy_runs.history import durations, joining, queries
from rezovamy_runs.history.database import Database
from rezovamy_runs.history.durations import Slow
from rezovamy_runs.history.joining import JoinedRun
from rezovamy_runs.history.rows import named
from rezovamy_runs.json_values import JsonObject
from rezovamy_runs.report.run_text import name_of
from rezovamy_runs.store import run_folder

SUMMARY = "say which tests take longest over the latest runs"
TAKES_REST = False
HEADS = ("usually", "longest", "last", "share", "test")
MOST_RUNS, MOST_TESTS = 20, 20


def add_options(parser: argparse.ArgumentParser) -> None:
    """Take which runs are looked at, how many tests are named, and the form."""
    history_options.add_window(parser, MOST_RUNS)
    parser.add_argument(
        "--most",
        type=whole(1, 10**6),
        default=MOST_TESTS,
        metavar="N",
        help=f"name the N slowest tests ({MOST_TESTS})",
    )
    history_options.add_form(parser)


def run(words: argparse.Namespace) -> int:
    """Print the slowest tests."""
    runs = run_folder.here()

    def question(database: Database, found: list[JoinedRun]) -> tuple[int, list[Slow]]:
        """Ask how long tests took in the chosen runs."""
        chosen = joining.latest(found, words.runs, words.branch)
        history_options.some(chosen, runs, words.branch)
        told = queries.outcomes_told(database, chosen, queries.test_names(database))
        return len(chosen), durations.slowest(joining.outcomes_by_run(chosen, told))

    count, slow = history_options.ask(runs, question)
    shown = slow[: words.most]
    title = f"the slowest of {formatting.count(len(slow), 'test')} over "
    table = Table(title + formatting.count(count, "run"), HEADS, [*map(row_of, shown)], HEADS[:-1])
    history_options.print_answer(words, lambda: [value_of(one) for one in shown], [table])
    return 0


def row_of(one: Slow) -> tuple[object, ...]:
    """Return what is said of a test for people."""
    times = map(formatting.duration, (one.usual, one.longest, one.last))
    return *times, f"{one.share:.1%}", name_of(one.test)


def value_of(one: Slow) -> JsonObject:
    """Return what is said of a test for scripts."""
    return {
        **named(one.test),
        "usual": one.usual,
        "longest": one.longest,
        "last": one.last,
        "share": one.share,
    }
