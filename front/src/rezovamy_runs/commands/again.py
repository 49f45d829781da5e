"""Runs the tests of a recorded run again which haven't passed, and records that run too."""

from __future__ import annotations

import argparse
import dataclasses
import pathlib
from collections.abc import Iterable

from rezovamy_runs import formatting, quarantine, recorder
from rezovamy_runs.bundles import bundle, bundle_file
from rezovamy_runs.collecting.cargo_line import manifest_of
from rezovamy_runs.command_line import add_run, options_of, say
from rezovamy_runs.commands import note_options, run_options
from rezovamy_runs.commands import test as test_command
from rezovamy_runs.faults.fault import Fault
from rezovamy_runs.model import Summary
from rezovamy_runs.runner import missing_tests
from rezovamy_runs.runner import rerun_plan
from rezovamy_runs.runner.process_run import ProcessRun
from rezovamy_runs.runner.rerun_plan import Plan
from rezovamy_runs.store import run_folder
from rezovamy_runs.streams.session_writer import Suites

SUMMARY = "run again what hasn't passed in a run, with the words after --, and record that"
TAKES_REST = True
# The status where all passed that ran, and something didn't run that should have.
NOT_ALL = 1


@dataclasses.dataclass(frozen=True)
class Options:
    """What the words of the command ask for; `rest` are those of cargo."""

    run: str
    page: bool
    opens: bool
    junit: bool
    shared: bool
    rest: list[str]


def add_options(parser: argparse.ArgumentParser) -> None:
    """Take a run, and what else is written."""
    parser.usage = (
        "rezovamy-runs again [--page] [--open] [--junit] [OPTIONS OF A RUN] [RUN] "
        "[-- WORDS OF CARGO TEST]"
    )
    add_run(parser)
    test_command.add_outputs(parser)
    run_options.add_options(parser)
    note_options.add_options(parser)


def run(words: argparse.Namespace) -> int:
    """Run the tests again, record them, and return their status; 0 where all have passed."""
    options = options_of(Options, words)
    manifest = manifest_of(options.rest)
    runs = run_folder.here(manifest)
    path = runs.last_in_row() if options.run == run_folder.LAST else runs.find(options.run)
    plan, before = plan_of(path), bundle.read_summary(path)
    first = root_bundle(plan, before)
    say_each([*rerun_plan.remarks(plan), *missing_tests.forget_targets(plan, manifest)])
    calls = [chosen.words(options.rest) for chosen in rerun_plan.selections(plan)]
    nameless = never_started(first)
    if not calls:
        say_each(nameless)
        return nothing_to_run(plan, before, bool(nameless))
    notes = note_options.notes_again(words, runs, before)
    outputs = test_command.Outputs(
        runs,
        options.page or options.opens,
        options.junit,
        notes,
        quarantine=quarantine.of(runs),
    )
    plan.is_same_build = missing_tests.is_same_build(first, options.rest)
    given = ["--", *options.rest] if options.rest else []
    cli_args = ["rezovamy-runs", "again", before.id, *given]

    def judge(status: int, suites: Suites) -> int:
        """Say what didn't run, and return the status of the rerun."""
        lacking = nameless if status else [*nameless, *rerun_plan.not_found(plan, suites)]
        say_each([*missing_tests.lines(plan, suites), *lacking])
        return status or (NOT_ALL if lacking else 0)

    if options.shared:
        run_options.refuse_with_shared(words)
    of_run = dataclasses.replace(run_options.options_of_run(words), quarantine=outputs.quarantine)
    process_run = ProcessRun(calls, of_run, before.profile, cli_args, plan)
    status = test_command.guarded_status(lambda: outputs.run(process_run, judge))
    return test_command.opened_page(options.opens, runs, process_run.run_id, status)


def say_each(lines: Iterable[str]) -> None:
    """Print lines on standard error."""
    for line in lines:
        say(f"rezovamy-runs: {formatting.name(line)}")


def plan_of(path: pathlib.Path) -> Plan:
    """Return what is to be run again of the run in a bundle, as the program says it."""
    text = recorder.run_on_bundle(["rerun"], path)
    try:
        return rerun_plan.read(text.decode())
    except (rerun_plan.NoPlan, UnicodeDecodeError) as fault:
        nameless = f"a test of {path} has a name that can't be told: {fault}"
        raise Fault(f"{nameless}; run all again with `rezovamy-runs test`") from fault


def root_bundle(plan: Plan, before: Summary) -> pathlib.Path:
    """Return the bundle of the run with which a row of reruns began.

    What never started in one of these was named there.
    """
    root = plan.info.get("root-info")
    if not before.parent or not isinstance(root, dict):
        return before.bundle
    return bundle_file.in_folder(before.bundle.parent, str(root["run-id"]))


def never_started(path: pathlib.Path) -> list[str]:
    """Return what is said of tests that were announced and never started: the run can't name them.

    The bundle may be gone by now.
    """
    try:
        count = bundle.read_run(path, outputs=False).unnamed
    except (FileNotFoundError, Fault):
        return []
    if count <= 0:
        return []
    nameless = f"{formatting.count(count, 'test')} of the run never started, and nothing names them"
    return [f"{nameless}: `rezovamy-runs test` runs all"]


def nothing_to_run(plan: Plan, before: Summary, is_doubtful: bool) -> int:
    """Say that all tests have passed that are still there, and return the status.

    It is a fault where that isn't so.
    """
    if plan.run or is_doubtful:
        raise Fault(
            "nothing of this can be run again alone: run all again with `rezovamy-runs test`"
        )
    there = " that are still there" if rerun_plan.gone_tests(plan) or plan.forgotten else ""
    say(f"rezovamy-runs: all tests of run {before.id}{there} have passed, so nothing is run again")
    return 0
