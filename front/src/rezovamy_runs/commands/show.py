"""Shows a recorded run as its runner would have printed it, or one of its tests alone."""

from __future__ import annotations

import argparse
import contextlib
import dataclasses
import shlex
import sys

from rezovamy_runs import quarantine, terminal
from rezovamy_runs.bundles import bundle
from rezovamy_runs.command_line import add_run, options_of, print_lines, say
from rezovamy_runs.faults.fault import Fault
from rezovamy_runs.formatting import moment
from rezovamy_runs.model import Run, Test
from rezovamy_runs.report.run_text import Printer
from rezovamy_runs.store import groups, run_folder
from rezovamy_runs.store.run_folder import LAST, Chosen, Store

SUMMARY = "show what failed in a run with its outputs, or one test"
TAKES_REST = False
# In how many of the latest runs a test is looked for that a run lacks.
MOST_RUNS = 50


@dataclasses.dataclass(frozen=True)
class Options:
    """The options of `show`; one word alone may be a run or a test."""

    run: str | None
    test: str | None
    all: bool


def add_options(parser: argparse.ArgumentParser) -> None:
    """Take a run and a test.

    One word alone is a run where one begins with it, and a test of the last run otherwise.
    """
    add_run(parser, None)
    parser.add_argument(
        "test", nargs="?", metavar="TEST", help="the name of a test, or a part of it"
    )
    parser.add_argument(
        "--all", action="store_true", help="show the tests that passed or were skipped too"
    )


def run(words: argparse.Namespace) -> int:
    """Print the run, or the tests that are named."""
    options = options_of(Options, words)
    runs = run_folder.here()
    named_runs, test = chosen(runs, options.run, options.test)
    found, *of = read(runs, named_runs)
    paint = terminal.Paint(terminal.colours(sys.stdout))
    printer = Printer(paint, quarantine=quarantine.of(runs))
    if test is not None:
        tests = named(found, test)
        if not tests:
            raise not_there(runs, found, test)
        print_lines(printer.tests(tests))
        return 0
    print_lines(
        [
            printer.head(found, runs.shortest(found.id)),
            *(printer.rerun(one, runs.shortest(one.id)) for one in of[1:] if one.parent),
            *printer.scripts(found.scripts, options.all),
            *(printer.tests(found.tests) if options.all else printer.failures(found.tests)),
            *printer.never_started(found),
            printer.end(found),
        ]
    )
    return 0


def chosen(runs: Store, first: str | None, second: str | None) -> tuple[Chosen, str | None]:
    """Return the runs, several of a group, and the test that the words name."""
    if first is None or second is not None:
        return runs.find_all(first or LAST), second
    if runs.names_run(first):
        return runs.find_all(first), None
    return runs.find_all(LAST), first


def read(runs: Store, chosen_runs: Chosen) -> list[Run]:
    """Return the runs of some bundles that count as one, after the one of them all.

    Say what of a group isn't as it should be.
    """
    found = [bundle.read_run(path) for path in chosen_runs.paths]
    if len(found) == 1 and chosen_runs.group is None:
        return found
    known = list(map(runs.notes, chosen_runs.paths))
    for line in groups.doubts(chosen_runs.group, found, known) if chosen_runs.group else ():
        say(f"rezovamy-runs: {line}")
    parts = groups.parts_of(found, known)
    return [groups.one_run(chosen_runs.group or found[0].id, found, parts), *found]


def named(run: Run, word: str) -> list[Test]:
    """Return the tests that a word names.

    It is their name, their binary and their name, or a part of it.
    """
    exact = [test for test in run.tests if word in (test.name, f"{test.binary} {test.name}")]
    return exact or [test for test in run.tests if word in f"{test.binary} {test.name}"]


def not_there(runs: Store, run: Run, word: str) -> Fault:
    """Return the fault of a word that names no test of a run, and say in which run it was last."""
    nothing = f"no test of run {run.id} has {word} in its name"
    last = last_with(runs, word) if runs.is_somewhere() else None
    if last:
        shown = shlex.join(["rezovamy-runs", "show", runs.shortest(last.id), word])
        return Fault(f"{nothing}; it was last in the run of {moment(last.started)}: `{shown}`")
    return Fault(f"{nothing}, and no run begins so: `show --all` names all tests")


def last_with(runs: Store, word: str) -> Run | None:
    """Return the latest run of which a test has the word in its name, None if no recent one."""
    for one in runs.summaries(lambda line: None)[:MOST_RUNS]:
        with contextlib.suppress(Fault, FileNotFoundError):
            run = bundle.read_run(one.bundle, outputs=False)
            if named(run, word):
                return run
    return None
