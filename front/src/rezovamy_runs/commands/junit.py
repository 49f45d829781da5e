"""The command `junit`: writes the JUnit XML of a recorded run."""

from __future__ import annotations

import argparse
import contextlib
import dataclasses
import pathlib
from collections.abc import Sequence

from rezovamy_runs import quarantine, recorder
from rezovamy_runs.bundles import bundle
from rezovamy_runs.command_line import add_run, options_of, print_out, say
from rezovamy_runs.commands import junit_xml
from rezovamy_runs.faults.fault import Fault
from rezovamy_runs.model import Run, TestName
from rezovamy_runs.quarantine import Quarantine
from rezovamy_runs.report import joined_reports, stopped_run
from rezovamy_runs.report.junit import Document, document, reports_of
from rezovamy_runs.report.junit_elements import JunitWriter
from rezovamy_runs.report.run_events import NoEvents, of_run
from rezovamy_runs.report.run_report import NoReport, Report
from rezovamy_runs.report.stopped_run import as_stopped
from rezovamy_runs.report.unfinished import with_events
from rezovamy_runs.runner import rerun_plan
from rezovamy_runs.runner.rerun_plan import NoPlan
from rezovamy_runs.store import as_one, groups, notes, run_folder
from rezovamy_runs.store.as_one import Origin
from rezovamy_runs.store.notes import WrongNotes

SUMMARY = "write JUnit XML of a run, for a CI"
TAKES_REST = False


@dataclasses.dataclass(frozen=True)
class Options:
    """The options of `junit`."""

    run: str
    to: pathlib.Path | None
    fail: bool


def add_options(parser: argparse.ArgumentParser) -> None:
    """Take a run, and where the XML goes."""
    add_run(parser)
    parser.add_argument(
        "--to",
        type=pathlib.Path,
        metavar="FOLDER",
        help=f"where junit.xml goes ({run_folder.JUNIT} in the target directory)",
    )
    parser.add_argument("--fail", action="store_true", help="end with status 4 where a test failed")


def run(words: argparse.Namespace) -> int:
    """Write the files, and print their paths."""
    options = options_of(Options, words)
    runs = run_folder.here()
    chosen = runs.find_all(options.run)
    paths = chosen.paths
    if chosen.group:
        for line in groups.missing_lines(chosen.group, map(runs.notes, paths)):
            say(f"rezovamy-runs: {line}")
    if options.to:
        return write(paths, options.to, quarantine.of(runs), options.fail)
    return write_beside(paths, runs, options.fail)


def write_beside(paths: Sequence[pathlib.Path], runs: run_folder.Store, fails: bool = False) -> int:
    """Write the files to where they go if no folder is named, and return the status."""
    folder = beside(runs)
    with contextlib.suppress(OSError):
        runs.prepare_junit()
    return write(paths, folder, quarantine.of(runs), fails)


def write(
    bundles: Sequence[pathlib.Path], folder: pathlib.Path, excused: Quarantine, fails: bool = False
) -> int:
    """Write the files of a run, or of a group's runs, print their paths, and return the status."""
    documents = documents_of(bundles, excused)
    try:
        junit_xml.remove_older(folder)
        if not documents:
            no_end = f"no run has ended in {bundles[0]}, so there is no report"
            raise Fault(no_end, junit_xml.NOTHING)
        paths = junit_xml.write_documents(documents, folder)
    except OSError as error:
        with contextlib.suppress(OSError):
            junit_xml.remove_older(folder)
        raise Fault(
            f"JUnit XML can't be written to {folder}: {error.strerror or error}; "
            "name another folder with --to"
        ) from error
    print_out("".join(f"{path}\n" for path in paths))
    has_failed = any(document.has_failed for document in documents)
    return junit_xml.BAD if fails and has_failed else 0


@dataclasses.dataclass(frozen=True)
class Recorded:
    """A run of a bundle: where it comes from, and its reports, several of a stress run."""

    id: str
    started: float
    origin: Origin
    reports: Sequence[Report]


def documents_of(
    bundles: Sequence[pathlib.Path], excused: Quarantine = quarantine.NOTHING
) -> list[Document]:
    """Return the documents of a bundle's runs, or the one of all runs of several bundles."""
    found = sorted(map(recorded, bundles), key=lambda one: one.started)
    reports = [report for one in found for report in one.reports]
    if len(bundles) > 1 and reports:
        parts = as_one.parts_of({one.id: one.origin for one in found})
        reports = [joined_reports.joined({one.id: one.reports for one in found}, parts)]
    return [document(report, JunitWriter(), excused) for report in reports]


def recorded(path: pathlib.Path) -> Recorded:
    """Return the run of a bundle with its reports, and with what its view says besides.

    A run that was stopped has the tests that ended.
    """
    try:
        text = recorder.run_on_bundle(["report"], path).decode()
        run = bundle.read_run(path)
        return Recorded(run.id, run.started, origin(path, run), reports_in(path, text, run))
    except (NoReport, NoEvents, NoPlan, UnicodeError) as error:
        raise Fault(f"the report of {path} can't be read: {error}; record the run again") from error


def origin(path: pathlib.Path, run: Run) -> Origin:
    """Return where the run of a bundle comes from; notes that can't be read say nothing of it."""
    known = None
    with contextlib.suppress(WrongNotes):
        known = notes.read(notes.path_beside(path))
    return as_one.origin_of(run, known)


def reports_in(path: pathlib.Path, text: str, run: Run) -> list[Report]:
    """Return the reports of a bundle, which the program printed unless the run was stopped."""
    if text:
        return reports_of(text, [of_run(run)] if text.count("\n") == 1 else None)
    if not run.tests:
        return []
    run = dataclasses.replace(run, never_started=waiting(path, run))
    return [with_events(stopped_run.report_of(run), as_stopped(of_run(run)))]


def waiting(path: pathlib.Path, run: Run) -> tuple[TestName, ...]:
    """Return the tests that a stopped run lists and that had not started.

    The plan of a rerun has all tests that haven't passed, so also those.
    """
    plan = rerun_plan.read(recorder.run_on_bundle(["rerun"], path).decode())
    seen = {test.key for test in run.tests}
    listed = (TestName(binary, name) for binary, names in plan.run.items() for name in names)
    return tuple(name for name in listed if name not in seen)


def remove_older(runs: run_folder.Store) -> None:
    """Remove the files of an older run, so that nobody takes them for those of this one."""
    junit_xml.remove_older(beside(runs))


def beside(runs: run_folder.Store) -> pathlib.Path:
    """Return the folder for the XML where none is named."""
    if not runs.is_somewhere():
        raise Fault(
            "no Cargo.toml is here or above, whose target directory could have the XML: "
            "name a folder with --to"
        )
    return runs.junit_folder()
