"""The JUnit XML of runs: documents that are made of reports, and of what events say besides."""

from __future__ import annotations

import dataclasses

from rezovamy_runs.quarantine import NOTHING, Quarantine
from rezovamy_runs.report.junit_elements import JunitWriter, has_failed
from rezovamy_runs.report.quarantined_cases import without_excused
from rezovamy_runs.report.run_events import NoEvents, RunEvents
from rezovamy_runs.report.run_report import NoReport, Report, report_of
from rezovamy_runs.report.unfinished import with_events
from rezovamy_runs.report.xml_text import document_text


@dataclasses.dataclass(frozen=True)
class Document:
    """The XML of a run, and whether a test of it failed or has an error."""

    text: str
    has_failed: bool


def documents_of(reports: str, runs: list[RunEvents] | None, writer: JunitWriter) -> list[Document]:
    """Return a document for each report, which is a line of JSON, as `reports_of` reads it."""
    return [document(report, writer) for report in reports_of(reports, runs)]


def reports_of(reports: str, runs: list[RunEvents] | None) -> list[Report]:
    """Return the report of each line of JSON, with what is known of its run besides.

    Where the events of the runs are given, they are those of the reports, in the same order.
    """
    lines = [(number, line) for number, line in enumerate(reports.split("\n"), 1) if line.strip()]
    if lines and runs is not None and len(runs) != len(lines):
        raise NoEvents(f"{len(lines)} reports are there, and the events of {len(runs)} runs")
    return [
        one_report(number, line, runs[place] if runs else None)
        for place, (number, line) in enumerate(lines)
    ]


def one_report(number: int, line: str, run: RunEvents | None) -> Report:
    """Return a report, which stands in a line of this number."""
    try:
        report = report_of(line)
        return with_events(report, run) if run is not None else report
    except NoReport as error:
        raise NoReport(f"line {number} is no report: {error}") from error


def document(report: Report, writer: JunitWriter, quarantine: Quarantine = NOTHING) -> Document:
    """Return the document of a report, in which failures in quarantine are skipped cases."""
    counting = without_excused(report, quarantine)
    return Document(document_text(writer.report(counting)), has_failed(counting))
