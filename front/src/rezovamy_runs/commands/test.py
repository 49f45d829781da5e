"""Runs tests, or reads the lines of a run, shows how far they are, and records the run."""

from __future__ import annotations

import argparse
import dataclasses
import os
import pathlib
import stat
import sys
from collections.abc import Callable
from typing import BinaryIO

from rezovamy_runs import formatting, quarantine, recorder, terminal
from rezovamy_runs.answers import answer
from rezovamy_runs.bundles import bundle
from rezovamy_runs.collecting import cargo_call, chosen_tests
from rezovamy_runs.collecting.collect import BuildFailed
from rezovamy_runs.collecting.cargo_line import manifest_of
from rezovamy_runs.command_line import (
    input_stream,
    options_of,
    print_lines,
    print_out,
    say,
    whole,
)
from rezovamy_runs.commands import junit as junit_command
from rezovamy_runs.commands import page as page_command
from rezovamy_runs.commands import note_options, page_opening, run_options
from rezovamy_runs.faults.fault import Fault
from rezovamy_runs.model import Run
from rezovamy_runs.processes import guard
from rezovamy_runs.quarantine import NOTHING, Quarantine
from rezovamy_runs.report.run_text import Printer
from rezovamy_runs.runner import run_facts
from rezovamy_runs.runner.line_stream import LineStream
from rezovamy_runs.runner.process_run import ProcessRun
from rezovamy_runs.runner.progress import Progress
from rezovamy_runs.runner.session_builder import Session, SessionBuilder
from rezovamy_runs.store import run_folder, whole_session
from rezovamy_runs.store.notes import RunNotes
from rezovamy_runs.store.run_folder import Store
from rezovamy_runs.streams.clock import Clock, arrival_clock, measured_clock
from rezovamy_runs.streams.run_state import Console
from rezovamy_runs.streams.session_writer import Suites
from rezovamy_runs.streams.texts import without_surrogates

SUMMARY = "run `cargo test` with the words after --, and record the run"
TAKES_REST = True
MOST_LINES = 200
# How often it is shown how far the lines are, while none comes.
PAUSE = 0.2


@dataclasses.dataclass(frozen=True)
class Options:
    """What the words of the command ask for; `rest` are those of cargo."""

    source: str | None
    status: int | None
    profile: str
    opens: bool
    shared: bool
    rest: list[str]


def add_options(parser: argparse.ArgumentParser) -> None:
    """Take how tests are run, or where lines come from that are there."""
    parser.usage = (
        "rezovamy-runs test [--profile NAME] [--page] [--open] [--junit] [OPTIONS OF A RUN] "
        "[-- WORDS OF CARGO TEST]\n"
        "       rezovamy-runs test --from FILE|- [--status N] [--profile NAME] [--page] [--open] "
        "[--junit]"
    )
    parser.add_argument(
        "--from",
        dest="source",
        metavar="FILE",
        help="read lines of a run that are there; - is standard input",
    )
    parser.add_argument(
        "--status",
        type=whole(-(2**31), 2**31 - 1),
        metavar="N",
        help="with --from, what cargo answered",
    )
    parser.add_argument(
        "--profile",
        type=without_surrogates,
        default="default",
        metavar="NAME",
        help="the run's profile (default)",
    )
    add_outputs(parser)
    run_options.add_options(parser)
    note_options.add_options(parser)
    note_options.add_shard(parser)


def add_outputs(parser: argparse.ArgumentParser) -> None:
    """Take what else is written of a run that was recorded."""
    parser.add_argument(
        "--page", action="store_true", help="write the run's page too, as `page` does"
    )
    page_opening.add_option(parser, "write the page and open it in a browser")
    parser.add_argument(
        "--junit", action="store_true", help="write its JUnit XML too, as `junit` does"
    )


def run(words: argparse.Namespace) -> int:
    """Run or read the tests, record them, and return their status."""
    options = options_of(Options, words)
    if options.source is None and options.status is not None:
        raise Fault(
            "--status is for --from, which can't know what cargo answered: leave it out",
            2,
        )
    if options.source is not None and options.rest:
        raise Fault(
            "--from takes lines that are there, and no words of cargo: leave one of them out",
            2,
        )
    recorder.find()
    runs = run_folder.here(manifest_of(options.rest))
    cli_args = ["cargo", "test", *options.rest]
    if options.source is not None:
        run_options.refuse_with_lines(words)
        outputs = outputs_of(words, runs, False)
        outputs.prepare()
        session = read_lines(options, options.source)
        status = outputs.keep(session)
        return opened_page(options.opens, runs, session.run_id, status)
    if options.shared:
        run_options.refuse_with_shared(words)
        note_options.refuse_shard(words)
    cargo_call.read(options.rest)
    outputs = outputs_of(words, runs, not options.shared)
    of_run = dataclasses.replace(
        run_options.options_of_run(words),
        shard=outputs.notes.shard,
        quarantine=outputs.quarantine,
    )
    process_run = ProcessRun([options.rest], of_run, options.profile, cli_args)
    status = guarded_status(lambda: outputs.run(process_run))
    return opened_page(options.opens, runs, process_run.run_id, status)


def opened_page(opens: bool, runs: Store, run_id: str, status: int) -> int:
    """Open the page of a run if that is wanted, and return the status that the run has."""
    if opens:
        first = runs.first_in_row(runs.path_of(run_id))
        page_opening.open_page(page_command.beside(first))
    return status


def outputs_of(words: argparse.Namespace, runs: Store, splits: bool) -> Outputs:
    """Return where the run goes; `splits` tells that a shard of its tests may be run."""
    notes = note_options.notes(words, runs, splits)
    excused, is_chosen = quarantine.of(runs), chosen_tests.chooses(words.rest)
    has_page = words.page or words.opens
    return Outputs(runs, has_page, words.junit, notes, is_chosen, excused)


def guarded_status(work: Callable[[], int]) -> int:
    """Do the work in a process of its own, so that no process is left; return its status."""
    status = guard.guarded(lambda: answer(work))
    if status >= 0:
        return status
    ended = f"{recorder.signal_of(-status)} ended the run"
    say(f"rezovamy-runs: {ended}: `rezovamy-runs list` has what was recorded of it")
    return 128 - status


# Says the status of a command by that of its run, and the tests that ran.
Judge = Callable[[int, Suites], int]


def same_status(status: int, suites: Suites) -> int:
    """Return the status of a run."""
    return status


@dataclasses.dataclass(frozen=True)
class Outputs:
    """Where a run is recorded, and what else is written of it."""

    runs: run_folder.Store
    page: bool
    junit: bool
    notes: RunNotes
    # Whether words of cargo choose some of the tests.
    is_chosen: bool = False
    quarantine: Quarantine = NOTHING

    def prepare(self) -> None:
        """Make the folder ready for a run that begins."""
        self.runs.prepare()
        if self.junit:
            junit_command.remove_older(self.runs)

    def keep(self, session: Session) -> int:
        """Record a session, print what came of it, and return the status of its tests.

        A quarantine doesn't change it: what else cargo would have run isn't known.
        """
        with self.runs.recording(session.run_id):
            self.runs.note(session.run_id, self._notes_of(session.suites))
            self._keep(
                session.status, lambda: whole_session.record(self.runs, session), has_told=False
            )
        return session.status

    def run(self, process_run: ProcessRun, judge: Judge = same_status) -> int:
        """Run tests as processes, record the run, and return what `judge` says of it.

        It is cargo's status if the build failed.
        """
        self.prepare()
        try:
            with self.runs.recording(process_run.run_id):
                made = process_run.run(self.runs, self._notes_of)
                status = self._keep(made.status, made.record, is_one_reader())
        except BuildFailed as failed:
            return failed.status
        return judge(status, made.suites)

    def _notes_of(self, suites: Suites, build_seconds: float | None = None) -> RunNotes:
        """Return what is known of a run with these tests."""
        tests = sum(map(len, suites.values()))
        part = run_facts.part_of(self.notes, tests, self.is_chosen)
        return dataclasses.replace(self.notes, part=part, build_seconds=build_seconds)

    def _keep(self, status: int, record: Callable[[], pathlib.Path], has_told: bool) -> int:
        """Record a run that ended with a status, print what came of it, and return its status.

        It is 0 if only tests in quarantine failed. If `has_told`, what failing tests printed has
        been printed for the same reader.
        """
        recorder.hear_signals()
        try:
            path = record()
            run = bundle.read_run(path)
            status = self.quarantine.status(run, status)
            print_lines(self._summary_of(run, path, has_told))
            is_whole = not (self.is_chosen or self.notes.parent or self.notes.shard)
            for line in self.quarantine.remarks(run, is_whole):
                say(f"rezovamy-runs: {formatting.name(line)}")
            self._write_more(path)
        except (Fault, OSError) as error:
            if status == 0:
                raise
            said = error if isinstance(error, Fault) else error.strerror or error
            raise Fault(f"the tests failed, and besides: {said}", status) from error
        return status

    def _summary_of(self, run: Run, path: pathlib.Path, has_told: bool) -> list[str]:
        """Return what is printed of a run that was recorded.

        If `has_told`, failures are only named.
        """
        paint = terminal.Paint(terminal.colours(sys.stdout))
        printer = Printer(paint, MOST_LINES, not has_told, self.quarantine)
        prefix = self.runs.prefixes().get(run.id, run.id)
        return [
            *printer.failures(run.tests),
            *printer.never_started(run),
            *printer.slowest(run),
            printer.end(run),
            f"recorded as {prefix} in {path}",
        ]

    def _write_more(self, path: pathlib.Path) -> None:
        """Write what else is asked for of a run that was recorded, and print where it is."""
        if self.page:
            print_out(f"{page_command.write_beside(self.runs, path)}\n")
        if self.junit:
            paths = [path]
            if self.notes.parent:
                paths = self.runs.with_reruns(self.runs.first_in_row(path))
            junit_command.write_beside(paths, self.runs)


class Following:
    """Reads lines as they come, and shows how far they are."""

    def __init__(self, clock: Clock) -> None:
        self.progress = Progress()
        self.builder = SessionBuilder(clock, Console(self.progress.print_line, "rezovamy-runs"))
        self.progress.reader = self.builder.reader

    def read(self, lines: LineStream) -> None:
        """Read the lines to their end."""
        for line in lines:
            self.builder.read(line)
            self.progress.refresh()


def opened(source: str) -> BinaryIO:
    """Open the lines of a run that are there."""
    try:
        return input_stream() if source == "-" else open(source, "rb")
    except OSError as error:
        do = "name a file with the lines of a run"
        raise Fault(f"{source} can't be read: {error.strerror or error}; {do}") from error


def clock_of(source: BinaryIO) -> Clock:
    """Return the clock of lines that are there.

    Those of a file have no instants, those of a pipe have that at which they come.
    """
    about = os.fstat(source.fileno())
    return measured_clock(int(about.st_mtime)) if stat.S_ISREG(about.st_mode) else arrival_clock()


def read_lines(options: Options, source: str) -> Session:
    """Return the session of lines that are there."""
    with opened(source) as stream:
        following = Following(clock_of(stream))
        progress, builder = following.progress, following.builder
        lines = LineStream(stream.fileno(), PAUSE, progress.refresh)
        try:
            following.read(lines)
        except IsADirectoryError as error:
            raise Fault(f"{source} is a folder: name a file with the lines of a run") from error
        try:
            return builder.session(options.status, lines.cancel_reason, options.profile, [])
        finally:
            progress.finish()


def is_one_reader() -> bool:
    """Tell whether both outputs are for one reader: both are a terminal, or none is."""
    return terminal.is_terminal(sys.stdout) == terminal.is_terminal(sys.stderr)
