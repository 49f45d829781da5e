"""The options with which `test` and `again` run tests as processes."""

from __future__ import annotations

import argparse
import re

from rezovamy_runs.command_line import matching, whole
from rezovamy_runs.faults.fault import Fault
from rezovamy_runs.streams.messages import SECOND
from rezovamy_runs.runner.process_run import RunOptions

MOST_RETRIES, MOST_SLOTS = 1000, 10_000
# As long as libtest takes to say that a test runs for long.
SLOW_AFTER = "60"
# The options by their names among the words that were read.
NAMES_WITH_SHARED = ("retries", "timeout")
NAMES_ALONE = ("slow_after", "test_threads", "fail_fast", "setup")


def nanoseconds(word: str) -> int:
    """Return a length of time that is given in seconds, which may have a fraction."""
    if re.fullmatch(r"\d{1,9}(\.\d{1,9})?", word, re.A) is None or not float(word):
        raise argparse.ArgumentTypeError(f"{word!r} is no number of seconds above 0")
    return round(float(word) * SECOND)


def name_and_command(word: str) -> tuple[str, str]:
    """Return the name and the command of a setup script."""
    name, _, command = word.partition("=")
    return name, command


def add_options(parser: argparse.ArgumentParser) -> None:
    """Take how tests are run."""
    parser.add_argument(
        "--retries",
        type=whole(0, MOST_RETRIES),
        metavar="N",
        help="run a test that fails up to N times more (0)",
    )
    parser.add_argument(
        "--timeout", type=nanoseconds, metavar="SECONDS", help="end a test that runs for longer"
    )
    parser.add_argument(
        "--slow-after",
        type=nanoseconds,
        metavar="SECONDS",
        help=f"call a test slow that runs for longer ({SLOW_AFTER})",
    )
    parser.add_argument(
        "--test-threads",
        type=whole(1, MOST_SLOTS),
        metavar="N",
        help="how many tests run at once (as many as there are processors)",
    )
    parser.add_argument(
        "--fail-fast",
        action=argparse.BooleanOptionalAction,
        help="start no further test once one has failed (--no-fail-fast)",
    )
    parser.add_argument(
        "--setup",
        type=matching(r"[^=\s]+=.*\S.*", name_and_command),
        action="append",
        metavar="NAME=COMMAND",
        help="run a command of the shell before the first test; may come more than once",
    )
    parser.add_argument(
        "--shared",
        action="store_true",
        help="run the tests of a binary in one process, as `cargo test` does",
    )


def options_of_run(words: argparse.Namespace) -> RunOptions:
    """Return how tests are run, as the words say it."""
    slow_after = words.slow_after
    return RunOptions(
        words.retries or 0,
        words.timeout,
        nanoseconds(SLOW_AFTER) if slow_after is None else slow_after,
        words.test_threads,
        bool(words.fail_fast),
        words.shared,
        tuple(words.setup or ()),
    )


def given(words: argparse.Namespace, names: tuple[str, ...]) -> str | None:
    """Return the first of these options that was given, or None if there is none."""
    found = next((name for name in names if getattr(words, name) is not None), None)
    return f"--{found.replace('_', '-')}" if found else None


def refuse_with_shared(words: argparse.Namespace) -> None:
    """Refuse options that need a process for each test."""
    found = given(words, NAMES_ALONE)
    if found:
        raise Fault(f"{found} is for tests in processes of their own: leave out --shared", 2)


def refuse_with_lines(words: argparse.Namespace) -> None:
    """Refuse options of a run beside the lines of one that is there."""
    found = "--shared" if words.shared else given(words, NAMES_WITH_SHARED + NAMES_ALONE)
    if found:
        raise Fault(f"{found} is for a run, and --from reads one that is there: leave it out", 2)
