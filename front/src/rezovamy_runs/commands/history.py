"""Says how one test fared from run to run, or writes the page of many runs."""

from __future__ import annotations

import argparse
import pathlib
from collections.abc import Iterable

from rezovamy_runs import formatting
from rezovamy_runs.answers import WRONG_WORDS
from rezovamy_runs.command_line import print_out
from rezovamy_runs.commands import history_options, page_opening
from rezovamy_runs.commands.history_options import Table
from rezovamy_runs.commands.page import STANDARD_OUTPUT, print_page, written
from rezovamy_runs.faults.fault import Fault
from rezovamy_runs.history import joining, queries, timelines
from rezovamy_runs.history.database import Database
from rezovamy_runs.history.joining import JoinedRun
from rezovamy_runs.history.rows import key_of_test, named
from rezovamy_runs.history.timelines import MEANINGS, Entry, Timeline
from rezovamy_runs.json_values import JsonObject
from rezovamy_runs.model import TestName
from rezovamy_runs.page_of_runs import document
from rezovamy_runs.page_of_runs.data import HistoryData
from rezovamy_runs.report.run_text import name_of
from rezovamy_runs.store import run_folder
from rezovamy_runs.store.run_folder import Store

SUMMARY = "say of a test how it ended in each run, since when it fails, and how long it ran"
TAKES_REST = False
MOST_RUNS, MOST_RUNS_OF_PAGE = 1000, 200
PAGE_FILE = "history.html"
# How many tests a part of a name may name.
MOST_TESTS = 20
MARKS_A_LINE = 80


def add_options(parser: argparse.ArgumentParser) -> None:
    """Take a test, which runs are looked at, and the form."""
    parser.add_argument(
        "test", nargs="?", metavar="TEST", help="the name of a test, or a part of it"
    )
    told = f"{MOST_RUNS}, for a page {MOST_RUNS_OF_PAGE}"
    history_options.add_window(parser, None, told=told)
    history_options.add_form(
        parser,
        "write the tests and runs as one HTML page to PATH, - for standard output "
        f"({PAGE_FILE} beside the runs); TEST chooses tests",
    )
    page_opening.add_option(parser, "with --page, open the page in a browser too")


def run(words: argparse.Namespace) -> int:
    """Print a line of characters for each test, and what they say; or write the page."""
    if words.page is not None:
        return write_page(words)
    if words.opens:
        raise Fault("--open is for a page: give --page too", WRONG_WORDS)
    if words.test is None:
        raise Fault("name a TEST, or give --page for a page of all tests", WRONG_WORDS)
    runs = run_folder.here()

    def question(database: Database, found: list[JoinedRun]) -> list[Timeline]:
        """Ask what the chosen runs say of the tests."""
        return timelines_of(database, chosen(words, runs, found, MOST_RUNS), words.test)

    found = history_options.ask(runs, question)
    parts = [part for one in found for part in parts_of(one)]
    history_options.print_answer(words, lambda: [value_of(one) for one in found], parts)
    return 0


def chosen(
    words: argparse.Namespace, runs: Store, found: list[JoinedRun], most: int
) -> list[JoinedRun]:
    """Return the runs that the words choose, no more than so many if they don't say."""
    latest = joining.latest(found, words.runs or most, words.branch)
    return history_options.some(latest, runs, words.branch)


def write_page(words: argparse.Namespace) -> int:
    """Write the page of many runs, and print where it is."""
    runs = run_folder.here()
    target = pathlib.Path(words.page) if words.page else runs.folder / PAGE_FILE
    is_printed = words.page == STANDARD_OUTPUT
    if words.opens and is_printed:
        page_opening.refuse_for_output()

    def question(database: Database, found: list[JoinedRun]) -> HistoryData:
        """Ask for what the page knows."""
        latest = chosen(words, runs, found, MOST_RUNS_OF_PAGE)
        names = queries.test_names(database)
        tests = None if words.test is None else set(tests_of(names.values(), words.test))
        folder = None if is_printed else target.parent
        return document.value_of(database, latest, project_of(runs, latest), folder, tests)

    text = document.page_html(history_options.ask(runs, question))
    if is_printed:
        print_page(text)
    else:
        print_out(f"{written(text, target, '--page')}\n")
        if words.opens:
            page_opening.open_page(target)
    return 0


def project_of(runs: Store, latest: list[JoinedRun]) -> str:
    """Return the project that the notes of the last run name, or the name of the folder."""
    known = runs.notes(runs.path_of(latest[-1].id))
    return known.project if known and known.project else runs.folder.resolve().name


def tests_of(names: Iterable[TestName], word: str) -> list[TestName]:
    """Return the tests that a word names."""
    tests = timelines.matching(list(names), word)
    if not tests:
        raise Fault(f"no test has {word} in its name: `rezovamy-runs show --all` names all tests")
    return tests


def timelines_of(database: Database, runs: list[JoinedRun], word: str) -> list[Timeline]:
    """Return the tests that a word names over runs."""
    names = queries.test_names(database)
    tests = tests_of(names.values(), word)
    if len(tests) > MOST_TESTS:
        raise Fault(
            f"{len(tests)} tests have {word} in their names, as {name_of(tests[0])}: "
            "give more of the name"
        )
    found = []
    for test in tests:
        told = queries.outcomes_of_test(database, runs, key_of_test(test), names)
        found.append(timelines.timeline(test, runs, joining.outcomes_by_run(runs, told)))
    return found


def parts_of(one: Timeline) -> list[Table | str]:
    """Return what is said for people."""
    marks = one.marks
    lines = [marks[at : at + MARKS_A_LINE] for at in range(0, len(marks), MARKS_A_LINE)]
    meant = ", ".join(f"{mark} {MEANINGS[mark]}" for mark in MEANINGS if mark in marks)
    count = formatting.count(len(marks), "run")
    rows = [(line,) for line in lines]
    parts: list[Table | str] = [
        Table(name_of(one.test), (f"{count}, the latest last: {meant}",), rows),
        *failing_texts(one),
    ]
    if one.times:
        shortest, usual, longest, last = map(
            formatting.duration,
            (one.times.shortest, one.times.usual, one.times.longest, one.times.last),
        )
        parts.append(f"it takes {usual} usually, from {shortest} to {longest}; last {last}")
    return parts


def failing_texts(one: Timeline) -> list[str]:
    """Return since when a test fails, and when it passed last."""
    passed = one.passed_last
    if not one.failing:
        return [] if passed else ["it never ran to its end in these runs"]
    count = formatting.count(len(one.failing), "time")
    texts = [f"it failed {count} since the {run_text_of(one.failing[0])}"]
    message = one.failing[-1].known and one.failing[-1].known.message
    if message:
        texts.append(f"it failed last with: {message}")
    texts.append(f"it passed last in the {run_text_of(passed)}" if passed else "it never passed")
    return texts


def run_text_of(entry: Entry) -> str:
    """Return what a run is known by."""
    return history_options.run_text(entry.run)


def value_of(one: Timeline) -> JsonObject:
    """Return what is said of a test for scripts."""
    times, failing, passed = one.times, one.failing, one.passed_last
    return {
        **named(one.test),
        "marks": one.marks,
        "failing-since": history_options.run_value(failing[0].run) if failing else None,
        "passed-last": history_options.run_value(passed.run) if passed else None,
        "times": (
            {
                "shortest": times.shortest,
                "usual": times.usual,
                "longest": times.longest,
                "last": times.last,
            }
            if times
            else None
        ),
        "runs": [entry_value(entry) for entry in one.entries],
    }


def entry_value(entry: Entry) -> JsonObject:
    """Return how a test ended in a run, for scripts."""
    outcome = entry.outcome
    value = history_options.run_value(entry.run)
    if outcome is None:
        return {**value, "verdict": None}
    return {
        **value,
        "verdict": outcome.verdict.value,
        "attempts": outcome.attempts,
        "seconds": outcome.seconds,
        "message": outcome.message,
    }
