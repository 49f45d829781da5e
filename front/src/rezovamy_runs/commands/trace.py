"""Prints the trace of a recorded run, as the program draws it."""

from __future__ import annotations

import argparse
import dataclasses
import select
import sys
from typing import TextIO

from rezovamy_runs import recorder
from rezovamy_runs.command_line import add_run, options_of
from rezovamy_runs.faults.fault import Fault
from rezovamy_runs.store import run_folder

SUMMARY = "print the trace of a run, for a viewer as ui.perfetto.dev"
TAKES_REST = False


@dataclasses.dataclass(frozen=True)
class Options:
    """The options of `trace`."""

    run: str
    group_by: str


def add_options(parser: argparse.ArgumentParser) -> None:
    """Take a run, and how its tests are grouped."""
    add_run(parser)
    parser.add_argument(
        "--group-by",
        choices=("binary", "slot"),
        default="binary",
        help="a process for each binary, or one for all (binary)",
    )


def has_no_reader(stream: TextIO) -> bool:
    """Tell whether what is written to a stream goes into a pipe that nobody reads any more."""
    poll = select.poll()
    poll.register(stream, select.POLLOUT)
    return any(events & select.POLLERR for _, events in poll.poll(0))


def run(words: argparse.Namespace) -> int:
    """Let the program print the trace, which isn't held here."""
    options = options_of(Options, words)
    path = run_folder.here().find(options.run)
    if sys.stdout is None:
        raise OSError("standard output is closed")
    try:
        recorder.run_on_bundle(
            ["trace", "--group-by", options.group_by], path, stdout=sys.stdout.buffer
        )
    except Fault as fault:
        if has_no_reader(sys.stdout):
            raise BrokenPipeError from fault
        raise
    return 0
