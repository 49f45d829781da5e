"""The command `prune`: removes old runs."""

from __future__ import annotations

import argparse
import dataclasses
import sys
import time
from collections.abc import Sequence

from rezovamy_runs import formatting, instants
from rezovamy_runs.command_line import options_of, print_lines, print_out, whole
from rezovamy_runs.faults.fault import Fault
from rezovamy_runs.model import Summary
from rezovamy_runs.store import retention, run_folder
from rezovamy_runs.store.retention import Rule

SUMMARY = "remove old runs, by their number, their age or their size"
TAKES_REST = False


@dataclasses.dataclass(frozen=True)
class Options:
    """The options of `prune`."""

    keep: int | None
    older: float | None
    size: int | None
    dry_run: bool
    yes: bool


def add_options(parser: argparse.ArgumentParser) -> None:
    """Take which runs go."""
    parser.add_argument(
        "--keep",
        type=whole(0, 10**9),
        metavar="N",
        help="keep the latest N runs; alone, remove all others",
    )
    parser.add_argument(
        "--older",
        type=instants.age,
        metavar="AGE",
        help="remove runs that are older than this, as 12h or 30d",
    )
    parser.add_argument(
        "--size",
        type=instants.size,
        metavar="SIZE",
        help="remove the oldest runs until all bundles are at most this large, as 500M or 2G",
    )
    parser.add_argument(
        "--dry-run", action="store_true", help="print what would be removed, and remove nothing"
    )
    parser.add_argument("--yes", action="store_true", help="ask nothing on a terminal")


def run(words: argparse.Namespace) -> int:
    """Remove runs, and what recordings left that were killed long ago."""
    options = options_of(Options, words)
    if options.keep is None and options.older is None and options.size is None:
        raise Fault("nothing says which runs go: give --keep N, --older AGE or --size SIZE", 2)
    runs = run_folder.here()
    rule = Rule(options.keep, options.older, options.size)
    # A file that can't be read is no run of which it is known that it is old.
    old = retention.gone(runs.summaries(lambda line: None), rule, time.time())
    if options.dry_run:
        print_lines([*map(line_of, old), f"{told(old)} would be removed"])
        return 0
    if old and not options.yes and not is_agreed(old):
        print_lines(["nothing is removed"])
        return 0
    runs.prune(old)
    print_lines([f"{formatting.count(len(old), 'run')} removed, {size_of(old)} freed"])
    return 0


def line_of(run: Summary) -> str:
    """Return what is said of a run that would go."""
    return f"{run.id} {formatting.moment(run.started)} {formatting.size(run.size)}"


def size_of(runs: Sequence[Summary]) -> str:
    """Return how large the bundles of runs are."""
    return formatting.size(sum(run.size for run in runs))


def told(runs: Sequence[Summary]) -> str:
    """Return how many runs there are, and how large."""
    return f"{formatting.count(len(runs), 'run')} of {size_of(runs)}"


def is_agreed(old: Sequence[Summary]) -> bool:
    """Ask on a terminal whether runs may go; without one nobody is asked."""
    if not (sys.stdin and sys.stdin.isatty() and sys.stdout and sys.stdout.isatty()):
        return True
    since, until = formatting.moment(old[-1].started), formatting.moment(old[0].started)
    print_out(f"Remove {told(old)}, from {since} to {until}? [y/N] ")
    return sys.stdin.readline().strip().lower() in ("y", "yes")
