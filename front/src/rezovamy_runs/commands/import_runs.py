"""The command `import`: takes runs over from other folders."""

from __future__ import annotations

import argparse
import collections
import dataclasses
import enum
import os
import pathlib
import shutil
from collections.abc import Iterator

from rezovamy_runs import formatting
from rezovamy_runs.bundles import bundle, bundle_file
from rezovamy_runs.command_line import options_of, print_lines, say
from rezovamy_runs.faults.fault import Fault
from rezovamy_runs.store import run_folder
from rezovamy_runs.store.run_folder import Store

SUMMARY = "take runs over from other folders, as from the shards of a CI; these stay unchanged"
TAKES_REST = False


@dataclasses.dataclass(frozen=True)
class Options:
    """The options of `import`."""

    folders: list[pathlib.Path]


class Outcome(enum.StrEnum):
    """What became of a bundle, as it is told."""

    TAKEN = "taken over"
    THERE = "there already"
    UNREADABLE = "not readable"


def add_options(parser: argparse.ArgumentParser) -> None:
    """Take the folders."""
    parser.add_argument(
        "folders",
        nargs="+",
        type=pathlib.Path,
        metavar="FOLDER",
        help="a folder with bundles, in it or below it, or the path of a bundle",
    )


def run(words: argparse.Namespace) -> int:
    """Take the runs over, and say how many; the status is 1 if a bundle can't be read."""
    options = options_of(Options, words)
    runs = run_folder.here()
    found = [path for folder in options.folders for path in bundles_in(folder)]
    outcomes = collections.Counter(take(runs, path) for path in found)
    told = ", ".join(
        f"{formatting.count(outcomes[one], 'run')} {one}" for one in Outcome if outcomes[one]
    )
    print_lines([f"{told}; the runs are in {runs.folder}"])
    return 1 if outcomes[Outcome.UNREADABLE] else 0


def bundles_in(folder: pathlib.Path) -> list[pathlib.Path]:
    """Return the bundles in a folder and below it, or the one at a path; without any is a fault."""
    found = [folder] if folder.is_file() else sorted(walk(folder))
    if not found:
        what = "no bundle is in" if folder.is_dir() else "no folder is at"
        raise Fault(f"{what} {folder}: name a folder of runs, or the path of a bundle")
    return found


def walk(folder: pathlib.Path) -> Iterator[pathlib.Path]:
    """Find the bundles in a folder and below it. What is hidden may be half written."""
    for place, _, names in os.walk(folder):
        for name in names:
            if bundle_file.is_named_so(name) and not name.startswith("."):
                yield pathlib.Path(place, name)


def take(runs: Store, path: pathlib.Path) -> Outcome:
    """Take the run of a bundle over with its notes, and return what became of it."""
    try:
        run_id = bundle.read_summary(path).id
    except (Fault, FileNotFoundError) as fault:
        said = fault if isinstance(fault, Fault) else f"{path} is gone: name the folder again"
        say(f"rezovamy-runs: {said}")
        return Outcome.UNREADABLE
    if runs.path_of(run_id).exists():
        return Outcome.THERE
    known = runs.notes(path)
    with runs.recording(run_id):
        if known:
            runs.note(run_id, known)
        with runs.adding(run_id) as aside:
            shutil.copyfile(path, aside)
    return Outcome.TAKEN
