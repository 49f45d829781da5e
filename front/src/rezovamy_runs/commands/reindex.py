"""Makes the index of the recorded runs again."""

from __future__ import annotations

import argparse

from rezovamy_runs import formatting
from rezovamy_runs.command_line import print_lines
from rezovamy_runs.commands import history_options
from rezovamy_runs.history import opening
from rezovamy_runs.store import run_folder

SUMMARY = "make the index of the recorded runs again"
TAKES_REST = False


def add_options(parser: argparse.ArgumentParser) -> None:
    """Take nothing."""


def run(words: argparse.Namespace) -> int:
    """Remove the index beside the runs, or bring that of a server up to date; count its runs."""
    runs = run_folder.here()
    opening.remove(runs.folder / opening.FILE)
    count = history_options.ask(runs, lambda _, found: sum(len(run.rows) for run in found))
    print_lines([f"the index has {formatting.count(count, 'run')}"])
    return 0
