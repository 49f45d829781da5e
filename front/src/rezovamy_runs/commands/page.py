"""The command `page`: writes a run as one HTML page."""

from __future__ import annotations

import argparse
import dataclasses
import pathlib
import sys

from rezovamy_runs import quarantine
from rezovamy_runs.bundles import bundle_file
from rezovamy_runs.command_line import add_run, options_of, print_out, whole
from rezovamy_runs.commands import page_opening, page_past
from rezovamy_runs.faults.fault import Fault
from rezovamy_runs.page import document
from rezovamy_runs.page.data import MOST_OUTPUT
from rezovamy_runs.store import location, run_folder, whole_file
from rezovamy_runs.store.run_folder import Chosen, Store

SUMMARY = "write a run as one HTML page: timeline, failures, outputs"
TAKES_REST = False
STANDARD_OUTPUT = "-"


@dataclasses.dataclass(frozen=True)
class Options:
    """The options of `page`."""

    run: str
    to: str | None
    most_output: int
    source: str | None
    opens: bool


def add_options(parser: argparse.ArgumentParser) -> None:
    """Take the run, where the page goes, and how much of an output it has."""
    add_run(parser)
    parser.add_argument(
        "--to",
        metavar="FILE",
        help="where the page goes, - for standard output (beside the bundle, with its name "
        "and .html)",
    )
    parser.add_argument(
        "--most-output",
        type=whole(0, 10**9),
        metavar="BYTES",
        default=MOST_OUTPUT,
        help="the most bytes of an output; of a longer one the middle is left out "
        f"({MOST_OUTPUT})",
    )
    parser.add_argument(
        "--source",
        metavar="PATTERN",
        help="where the sources are, as https://host/project/blob/{commit}/{file}#L{line} "
        "(the run's note `source`)",
    )
    page_opening.add_option(parser, "open the page in a browser too")


def run(words: argparse.Namespace) -> int:
    """Write the page, and print where it is."""
    options = options_of(Options, words)
    if options.opens and options.to == STANDARD_OUTPUT:
        page_opening.refuse_for_output()
    runs = run_folder.here()
    chosen = runs.find_all(options.run)
    text, own = page_of(runs, chosen, options)
    if options.to == STANDARD_OUTPUT:
        print_page(text)
    else:
        target = pathlib.Path(options.to) if options.to else own
        print_out(f"{written(text, target)}\n")
        if options.opens:
            page_opening.open_page(target)
    return 0


def page_of(runs: Store, chosen: Chosen, options: Options) -> tuple[str, pathlib.Path]:
    """Return the page of a run, or of a group's runs, and where it goes if no file is named."""
    first = chosen.paths[0]
    text = page_text(runs, chosen, options.most_output, options.source)
    if chosen.group is None:
        return text, beside(first)
    return text, first.parent / f"group-{location.NOT_PLAIN.sub('_', chosen.group)}.html"


def page_text(
    runs: Store, chosen: Chosen, most_output: int = MOST_OUTPUT, source: str | None = None
) -> str:
    """Return the page of chosen runs, with what history and quarantine say."""
    paths = chosen.paths
    past, excused = page_past.past_of(runs, paths[0]), quarantine.of(runs)
    if chosen.group is None and len(paths) == 1:
        return document.page_of(paths[0], most_output, source, past, excused)
    return document.page_of_several(chosen.group, paths, most_output, source, past, excused)


def write_beside(runs: Store, path: pathlib.Path) -> pathlib.Path:
    """Write the page of a run and of its reruns beside its bundle, and return where it is.

    The page of a rerun is that of the run with which the reruns began.
    """
    first = runs.first_in_row(path)
    chosen = Chosen(tuple(runs.with_reruns(first)))
    return written(page_text(runs, chosen), beside(first))


def print_page(text: str) -> None:
    """Print a page on standard output."""
    if sys.stdout is None:
        raise Fault("standard output is closed: name a file with --to")
    print_out(document.bytes_of(text).decode())


def beside(path: pathlib.Path) -> pathlib.Path:
    """Return where the page of a bundle goes if no other file is named."""
    return bundle_file.beside(path, ".html")


def written(text: str, target: pathlib.Path, option: str = "--to") -> pathlib.Path:
    """Write a page, and return where it is; `option` is the one that names another file."""
    try:
        write(document.bytes_of(text), target)
    except OSError as error:
        raise Fault(
            f"the page can't be written to {target}: {error.strerror}; "
            f"name another file with {option}"
        ) from error
    return target


def write(data: bytes, target: pathlib.Path) -> None:
    """Write a file so that it is there whole or as it was; a pipe or a device is written to."""
    if target.exists() and not target.is_file():
        target.write_bytes(data)
        return
    path = target.resolve()
    aside = whole_file.made_aside(path, path.name)
    with whole_file.becoming(path, aside):
        aside.write_bytes(data)
