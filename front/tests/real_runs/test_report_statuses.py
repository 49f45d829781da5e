"""The statuses of `junit_xml` over reports of real runs."""

from __future__ import annotations

import pathlib

import pytest

from tests.real_runs.cargo_runs import Answer, Cargo
from tests.real_runs.recorder import Recorder, Written
from tests.real_runs.sessions import Session, session_of, tool_output

pytestmark = [pytest.mark.cargo, pytest.mark.program]

NONE = ()
ONE = ("junit.xml",)
TWO = ("junit-2.xml", "junit.xml")


@pytest.fixture(scope="module")
def reports(
    cargo: Cargo,
    program: pathlib.Path,
    tmp_path_factory: pytest.TempPathFactory,
    long_output: Session,
    broken_build: Answer,
) -> dict[str, bytes]:
    """The reports of runs, by what became of these."""
    recorder = Recorder(program, tmp_path_factory.mktemp("reports"))
    answer = cargo.events("-p", "ends", "--test", "it")
    session = session_of(answer.lines, "--status", str(answer.status)).text
    failed, passed = recorder.reports(long_output.text), recorder.reports(session)
    # As a recorder leaves it that was killed: no run has ended.
    unfinished = b"".join(session.splitlines(keepends=True)[:-1])
    return {
        "failed": failed,
        "passed": passed,
        "failed, and cut": failed[:-9],
        "passed, and cut": passed[:-9],
        "unfinished": recorder.reports(unfinished),
        "not built": tool_output(broken_build.lines, "--build-error", "status", status=3),
    }


@pytest.mark.parametrize(
    ("kinds", "options", "status", "files"),
    [
        (["failed"], [], 0, ONE),
        (["failed"], ["--fail"], 4, ONE),
        (["failed, and cut"], ["--fail"], 1, NONE),
        (["passed"], ["--fail"], 0, ONE),
        (["failed", "passed"], ["--fail"], 4, TWO),
        (["unfinished"], ["--fail"], 3, NONE),
        (["passed", "failed"], [], 0, TWO),
        (["not built"], [], 3, NONE),
        (["passed, and cut"], [], 1, NONE),
    ],
    ids=lambda value: " ".join(value) if isinstance(value, list) else None,
)
def test_a_status_tells_whether_something_failed(
    recorder: Recorder,
    reports: dict[str, bytes],
    kinds: list[str],
    options: list[str],
    status: int,
    files: tuple[str, ...],
) -> None:
    """No report is no success. Nothing is left of an older run."""
    assert recorder.write_xml(reports["failed"] + reports["passed"]) == Written(0, TWO)
    written = recorder.write_xml(b"".join(reports[kind] for kind in kinds), *options)
    assert written == Written(status, files)
