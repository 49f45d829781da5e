"""Writes reports of runs as JUnit XML, for tools of continuous integration.

    front/junit_xml --events run.bundle reports.json target/junit

Each line of REPORTS is the JSON of one report, as `rezovamy report` prints it; `-` stands for
standard input. The first report becomes `junit.xml` in the folder, the second `junit-2.xml`, and so
on; the paths are printed. Files of these names that are there before are removed first, whatever
comes then. With `--events` the run's bundle, or its session, says which tests never ended and
whether the run was broken off: these are errors. A session says besides why tests are ignored.
Escape sequences of terminals and characters that XML can't hold are left out, and long texts are
cut. The files are valid by the schema that the xUnit plugin of Jenkins has; `--dialect nextest`
adds what only `cargo nextest` writes.

Status 0: the files were written. 1: a line isn't a report, or something can't be read or written,
and no file is there. 2: the options are wrong, and nothing was touched. 3: there is no report, and
no file. 4: with `--fail`, the files were written, and a test failed in one of them, or has an
error.

Nothing of this is proved.
"""

from __future__ import annotations

import argparse
import contextlib
import dataclasses
import pathlib
import re
import sys

from rezovamy_runs.bundles import bundle, opening
from rezovamy_runs.command_line import command_line, input_stream, print_out, say, whole
from rezovamy_runs.faults.fault import Fault
from rezovamy_runs.report.junit import Document, documents_of
from rezovamy_runs.report.junit_elements import LEFT_OUT, JunitWriter
from rezovamy_runs.report.junit_texts import MOST
from rezovamy_runs.report.run_events import NoEvents, RunEvents, of_run, of_session
from rezovamy_runs.report.run_report import NoReport

FILE_NAME = re.compile(r"junit(?:-(?:[2-9]|[1-9]\d+))?\.xml", re.A)
STANDARD_INPUT = "-"
# What a bundle begins with.
BUNDLE = b"nxtcont1"
UNREADABLE, NOTHING, BAD = 1, 3, 4


@dataclasses.dataclass(frozen=True)
class Options:
    """What the words ask for."""

    reports: str
    folder: pathlib.Path
    events: pathlib.Path | None
    writer: JunitWriter
    fail: bool


def remove_older(folder: pathlib.Path) -> None:
    """Remove the files of an older run, so that nobody takes them for those of this one."""
    for path in folder.iterdir() if folder.is_dir() else ():
        if FILE_NAME.fullmatch(path.name):
            path.unlink()


def write_documents(documents: list[Document], folder: pathlib.Path) -> list[pathlib.Path]:
    """Write each document into a file of the folder, and return their paths."""
    folder.mkdir(parents=True, exist_ok=True)
    paths = []
    for number, document in enumerate(documents, 1):
        path = folder / ("junit.xml" if number == 1 else f"junit-{number}.xml")
        path.write_bytes(document.text.encode())
        paths.append(path)
    return paths


def report_documents(options: Options) -> list[Document]:
    """Read the reports, and the events where they are named, and return their documents."""
    if options.reports == STANDARD_INPUT:
        data = input_stream().read()
    else:
        data = pathlib.Path(options.reports).read_bytes()
    runs = runs_of(options.events) if options.events else None
    return documents_of(data.decode(), runs, options.writer)


def runs_of(path: pathlib.Path) -> list[RunEvents]:
    """Return what a bundle or a session says beside the reports of its runs."""
    with opening.plain(path) as file:
        data = file.read()
    if data.startswith(BUNDLE):
        return [of_run(bundle.read_run(path, outputs=False))]
    return of_session(data)


def run(options: Options) -> int:
    """Write what the words ask for, and return the status."""
    try:
        remove_older(options.folder)
        documents = report_documents(options)
        if not documents:
            say("junit_xml: there is no report: no run has ended")
            return NOTHING
        print_out("".join(f"{path}\n" for path in write_documents(documents, options.folder)))
    except (Fault, NoReport, NoEvents, OSError, UnicodeError) as error:
        say(f"junit_xml: {error}")
        with contextlib.suppress(OSError):
            remove_older(options.folder)
        return UNREADABLE
    return BAD if options.fail and any(document.has_failed for document in documents) else 0


def words_parser() -> argparse.ArgumentParser:
    """Return the parser of the program's words."""
    parser = command_line(__doc__)
    add_files(parser)
    add_options(parser)
    return parser


def add_files(parser: argparse.ArgumentParser) -> None:
    """Let words name the files that are read, and the folder that is written."""
    parser.add_argument(
        "reports",
        nargs="?",
        metavar="REPORTS",
        help="the file with the reports, or - for standard input",
    )
    parser.add_argument(
        "folder",
        nargs="?",
        type=pathlib.Path,
        metavar="FOLDER",
        help="the folder for the XML files",
    )
    parser.add_argument(
        "--events",
        type=pathlib.Path,
        metavar="FILE",
        help="the bundle or the session of the runs",
    )


def add_options(parser: argparse.ArgumentParser) -> None:
    """Let words say what stands in the files, and what the status tells."""
    parser.add_argument(
        "--dialect",
        choices=sorted(LEFT_OUT),
        default="jenkins",
        help="what stands in the files: only what a schema of Jenkins has (jenkins), "
        "or all that quick-junit writes (nextest)",
    )
    parser.add_argument(
        "--fail",
        action="store_true",
        help="status 4 where a test failed or has an error",
    )
    parser.add_argument(
        "--most-text",
        type=whole(1000, 10**18),
        metavar="BYTES",
        default=MOST,
        help="the most bytes of a text, and ten times those of an attribute; "
        f"a longer one is cut ({MOST})",
    )


def options_of(words: list[str]) -> Options:
    """Return what the words ask for; wrong ones end the process."""
    parser = words_parser()
    read = parser.parse_args(words)
    if read.folder is None:
        parser.error("a file and a folder are wanted")
    writer = JunitWriter(read.dialect, read.most_text)
    return Options(read.reports, read.folder, read.events, writer, read.fail)


def main() -> int:
    """Run the program on the words of the process, and return its status."""
    return run(options_of(sys.argv[1:]))
