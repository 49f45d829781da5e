"""What the program records of real runs, and the JUnit XML of their reports."""

from __future__ import annotations

import dataclasses
import itertools
import pathlib
from xml.etree import ElementTree

import pytest

from rezovamy_runs.report.junit_texts import clean
from tests.real_runs.cargo_runs import Answer
from tests.real_runs.conftest import RecordedRun
from tests.real_runs.recorder import Recorder, Written
from tests.real_runs.sessions import Outcome, Session, session_of
from workshop.try_commands import Program, try_session

pytestmark = [pytest.mark.cargo, pytest.mark.program]

# What never ended in each run is an error in its XML.
ERRORS: dict[str, list[str]] = {"whole": ["(run)"], "not built": [], "hanging": ["hangs", "(run)"]}
EVENTS = ("run.bundle", "run.session")
OWN_ELEMENTS: dict[str, list[str]] = {"passed": [], "ignored": ["skipped"]}


@dataclasses.dataclass(frozen=True)
class ReportedRun:
    """A session, the XML of its report, and the names of the errors in it."""

    session: Session
    xml: ElementTree.Element
    errors: list[str]

    @property
    def ended(self) -> list[ElementTree.Element]:
        """The cases of tests that ended."""
        return [case for case in self.xml.iter("testcase") if case.find("error") is None]


@pytest.fixture(scope="module")
def sessions(
    whole_run: RecordedRun, broken_build: Answer, hanging_run: Session
) -> dict[str, Session]:
    """The sessions of the runs."""
    not_built = session_of(broken_build.lines, "--status", str(broken_build.status))
    return {"whole": whole_run.session, "not built": not_built, "hanging": hanging_run}


@pytest.fixture(scope="module", params=itertools.product(ERRORS, EVENTS), ids=" by ".join)
def reported_run(
    request: pytest.FixtureRequest,
    sessions: dict[str, Session],
    program: pathlib.Path,
    tmp_path_factory: pytest.TempPathFactory,
) -> ReportedRun:
    """A run whose report is written as XML, with what a file of its events says besides."""
    name, events = request.param
    recorder = Recorder(program, tmp_path_factory.mktemp("reported"))
    return ReportedRun(sessions[name], written_xml(recorder, sessions[name], events), ERRORS[name])


def written_xml(recorder: Recorder, session: Session, events: str) -> ElementTree.Element:
    """Return the XML of a session's report, with what a file of its events says besides."""
    (recorder.folder / "run.session").write_bytes(session.text)
    reports = recorder.reports(session.text)
    written = recorder.write_xml(reports, "--fail", "--events", str(recorder.folder / events))
    assert written == Written(4, ("junit.xml",))
    return recorder.xml()


def elements_of(outcome: Outcome) -> list[str]:
    """Return the elements in the case of a test that ended so."""
    *retried, last = outcome.ended.split(", ")
    return OWN_ELEMENTS.get(last, ["failure"]) + ["flakyFailure"] * len(retried)


def test_all_commands_read_a_real_run(
    whole_run: RecordedRun, program: pathlib.Path, tmp_path: pathlib.Path
) -> None:
    try_session(Program(program, tmp_path), "whole", whole_run.session.text)


def test_each_test_that_ended_is_a_case(reported_run: ReportedRun) -> None:
    """It has the elements that its end asks for."""
    cases = [
        (
            case.get("classname"),
            case.get("name"),
            [child.tag for child in case if not child.tag.startswith("system-")],
        )
        for case in reported_run.ended
    ]
    assert sorted(cases) == [
        (outcome.binary, outcome.test, elements_of(outcome))
        for outcome in reported_run.session.outcomes
    ]


def test_what_never_ended_is_an_error(reported_run: ReportedRun) -> None:
    cases = reported_run.xml.iter("testcase")
    errors = [case.get("name") for case in cases if case.find("error") is not None]
    assert errors == reported_run.errors


def test_a_failure_has_the_words_of_the_session(reported_run: ReportedRun) -> None:
    """Its message is the first line of them."""
    said = {(row.binary, row.test): words for row, words in reported_run.session.said_outcomes}
    for case in reported_run.ended:
        failure = case.find("failure")
        if failure is not None:
            words = clean(said[case.get("classname", ""), case.get("name", "")])
            assert failure.get("message") == words.partition("\n")[0]
            assert failure.text == words


def test_a_session_says_why_a_test_is_ignored(whole_run: RecordedRun, recorder: Recorder) -> None:
    root = written_xml(recorder, whole_run.session, "run.session")
    skipped = {case.get("name"): case.find("skipped") for case in root.iter("testcase")}
    ignored = [row for row in whole_run.session.said_outcomes if row[0].ended == "ignored"]
    assert ignored
    for outcome, reason in ignored:
        element = skipped[outcome.test]
        assert element is not None
        assert reason in element.get("message", ""), outcome
