#!/usr/bin/env python3
r"""Makes a session of the JSON lines that a real test run prints.

    cargo test --no-fail-fast --message-format json-render-diagnostics -- \
        -Z unstable-options --format json --report-time 2>&1 |
        front/session_from_libtest > run.session
    NEXTEST_EXPERIMENTAL_LIBTEST_JSON=1 cargo nextest run --no-fail-fast \
        --message-format libtest-json-plus |
        front/session_from_libtest > run.session
    front/session_from_libtest --no-clock --status 101 < examples/sums.libtest.json > sums.session

Each event has the instant at which its line came, and a test starts as much before its end as its
`exec_time` says. With `--no-clock` a test ends its `exec_time` after its start, and starts where
the latest end so far is, so that the same lines give the same session. A test that ran when its
binary ended has failed, and so has a target that cargo says failed. Lines that aren't events go to
standard error. The session is printed once the input has ended, since its first line lists the
tests.

Status 0: a session was printed. 1: no line was an event of a run, or something can't be read or
written. 2: the options are wrong. 3: with `--build-error status`, the build failed. Nothing of
this is proved.
"""

from __future__ import annotations

import argparse
import dataclasses
import sys
import uuid
from collections.abc import Callable, Sequence

from rezovamy_runs import cargo
from rezovamy_runs.command_line import (
    command_line,
    input_stream,
    matching,
    print_out,
    say,
    whole,
)
from rezovamy_runs.json_values import JsonObject
from rezovamy_runs.runner.line_stream import LineStream
from rezovamy_runs.runner.session_builder import SessionBuilder
from rezovamy_runs.streams import cargo_metadata
from rezovamy_runs.streams.clock import Clock, Source, arrival_clock, measured_clock
from rezovamy_runs.streams.run_state import CancelReason, Console
from rezovamy_runs.streams.session_json import text
from rezovamy_runs.streams.session_writer import NEXTEST_VERSION, SessionOptions
from rezovamy_runs.streams.targets import Targets
from rezovamy_runs.streams.texts import without_surrogates

PROGRAM = "session_from_libtest"
NUMBER = r"(?:0|[1-9]\d{0,8})"
TAG = rf"(?:{NUMBER}|\d*[A-Za-z-][0-9A-Za-z-]*)"
TAGS = rf"{TAG}(?:\.{TAG})*"
BUILD = r"[0-9A-Za-z-]+(?:\.[0-9A-Za-z-]+)*"
VERSION = rf"{NUMBER}\.{NUMBER}\.{NUMBER}(?:-{TAGS})?(?:\+{BUILD})?"
NOTHING, NOT_BUILT = 1, 3


@dataclasses.dataclass(frozen=True)
class Options:
    """What the words of the script ask for, by the names of the options."""

    status: int | None = None
    build_error: str = "test"
    manifest_path: str | None = None
    package: str | None = None
    no_clock: bool = False
    start: int | None = None
    profile: str = "default"
    run_id: uuid.UUID | None = None
    nextest_version: str = NEXTEST_VERSION

    def clock(self, source: Source | None = None) -> Clock:
        """Return the clock of the run; `source` gives the instants of lines in place of time."""
        if self.no_clock:
            return measured_clock(self.start or 0)
        return Clock(source, 0) if source else arrival_clock()


class NoSession(Exception):
    """Why there is no session of the lines, with the status that says so."""

    def __init__(self, reason: str, status: int) -> None:
        super().__init__(reason)
        self.status = status


def words_parser() -> argparse.ArgumentParser:
    """Return the parser of the script's words."""
    parser = command_line(__doc__)
    parser.add_argument(
        "--status",
        type=whole(-(2**31), 2**31 - 1),
        metavar="N",
        help="what cargo answered (101 if something failed, else 0)",
    )
    parser.add_argument(
        "--build-error",
        choices=("test", "status"),
        default="test",
        help="a build that failed is a failed test (test), or makes no session and status 3",
    )
    parser.add_argument(
        "--manifest-path",
        metavar="PATH",
        help="ask cargo for the packages of this manifest, where no line names them",
    )
    parser.add_argument(
        "--package",
        metavar="NAME",
        help="with --manifest-path, ask only for this package",
    )
    parser.add_argument(
        "--no-clock",
        action="store_true",
        help="take the instants from the times that tests took",
    )
    parser.add_argument(
        "--start",
        type=whole(-(10**11), 10**11),
        metavar="SECS",
        help="the run's start with --no-clock (0)",
    )
    add_head_options(parser)
    return parser


def add_head_options(parser: argparse.ArgumentParser) -> None:
    """Take what only the head of the session has."""
    parser.add_argument(
        "--profile",
        type=without_surrogates,
        metavar="NAME",
        default="default",
        help="the name of the run's profile (default)",
    )
    parser.add_argument(
        "--run-id",
        type=uuid.UUID,
        metavar="UUID",
        help="the run's id (with --no-clock made of the input)",
    )
    parser.add_argument(
        "--nextest-version",
        type=matching(VERSION, str),
        metavar="VERSION",
        default=NEXTEST_VERSION,
        help="of the head (0.9.111)",
    )


def read_words(words: Sequence[str]) -> tuple[Options, Targets]:
    """Return what the words ask for, and the targets that cargo names."""
    parser, targets = words_parser(), Targets()
    options = Options(**vars(parser.parse_args(words)))
    if options.start is not None and not options.no_clock:
        parser.error("--start is for --no-clock")
    if options.package and not options.manifest_path:
        parser.error("--package is for --manifest-path")
    try:
        if options.manifest_path:
            packages = cargo_metadata.packages_of(cargo.metadata(options.manifest_path))
            targets.add_packages(cargo_metadata.named(packages, options.package))
    except cargo.FAULTS as error:
        parser.error(f"cargo can't be asked for {options.manifest_path}: {error}")
    return options, targets


def builder_of(
    options: Options,
    targets: Targets,
    write: Callable[[str], None],
    source: Source | None = None,
) -> SessionBuilder:
    """Return what reads the lines."""
    return SessionBuilder(options.clock(source), Console(write, PROGRAM), targets)


def finished(
    builder: SessionBuilder, options: Options, cancel_reason: CancelReason | None
) -> list[JsonObject]:
    """Return the session of the lines that were read."""
    run = builder.reader.run
    if cancel_reason:
        told = f"broken off by {cancel_reason}; the session is of what came before"
        run.console.warn(told)
    builder.finish(options.status, cancel_reason)
    if run.text_lines:
        run.console.warn(f"{run.text_lines} lines are no event of a run")
    if options.build_error == "status" and builder.has_failed_build():
        raise NoSession("the build failed", NOT_BUILT)
    if not builder.has_events():
        raise NoSession("no line is an event of a run", NOTHING)
    run_id = str(options.run_id or builder.run_id())
    profile, version = options.profile, options.nextest_version
    return builder.lines(SessionOptions(run_id, profile, version, options.status)).values()


def main() -> int:
    """Make a session of standard input, and return the status."""
    options, targets = read_words(sys.argv[1:])
    try:
        builder = builder_of(options, targets, say)
        lines = LineStream(input_stream().fileno())
        for line in lines:
            builder.read(line)
        values = finished(builder, options, lines.cancel_reason)
        print_out("".join(f"{text(value)}\n" for value in values))
    except NoSession as fault:
        say(f"{PROGRAM}: {fault}")
        return fault.status
    except OSError as error:
        say(f"{PROGRAM}: {error}")
        return NOTHING
    return 0


if __name__ == "__main__":
    sys.exit(main())
