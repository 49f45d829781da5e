"""Runs that the built program records: their lines, what is written of them, and their statuses."""

from __future__ import annotations

import json
import os
import pathlib
import signal
import subprocess

import pytest

from tests import EXAMPLES
from tests.front_end import FrontEnd, hear_interrupts

LINES = EXAMPLES / "sums.libtest.json"
FROM_LINES = ["test", "--from", str(LINES)]
FROM_INPUT = ["test", "--from", "-"]
pytestmark = pytest.mark.program


@pytest.fixture(autouse=True)
def built(front_end: FrontEnd, program: pathlib.Path) -> None:
    """Let the front end start the built program."""
    front_end.environment["REZOVAMY"] = str(program)


def listed(front_end: FrontEnd) -> list[dict[str, object]]:
    """Return what `list` tells of the runs, the latest first."""
    return [dict(run) for run in json.loads(front_end.output("list", "--json"))]


def started(front_end: FrontEnd) -> subprocess.Popen[bytes]:
    """Start a recording of what it will be given, which signals can break off."""
    return subprocess.Popen(
        front_end.words(*FROM_INPUT),
        cwd=front_end.folder,
        env=front_end.environment,
        stdin=subprocess.PIPE,
        stdout=subprocess.DEVNULL,
        stderr=subprocess.PIPE,
        preexec_fn=hear_signals,
    )


def hear_signals() -> None:
    """Let a process be ended by signals, also where this one isn't."""
    hear_interrupts()
    signal.signal(signal.SIGHUP, signal.SIG_DFL)


def test_lines_that_are_there(front_end: FrontEnd) -> None:
    done = front_end.run(*FROM_LINES, "--profile", "ci")
    assert done.returncode == 101
    assert "7 tests in 1.0s: 5 passed, 2 failed, 1 skipped\n" in done.stdout
    assert f"{front_end.runs}/" in done.stdout
    (run,) = listed(front_end)
    assert (run["profile"], run["passed"], run["failed"], run["skipped"]) == ("ci", 5, 2, 1)
    assert sorted(os.listdir(front_end.runs)) == [f"{run['id']}.bundle.gz", f"{run['id']}.json"]
    trace = json.loads(front_end.output("trace", "--group-by", "slot"))
    assert trace["otherData"]["run_id"] == run["id"]


def test_the_xml_of_a_recorded_run(front_end: FrontEnd) -> None:
    front_end.run(*FROM_LINES)
    assert front_end.output("junit", "--to", "xml") == "xml/junit.xml\n"
    assert 'failures="2"' in (front_end.folder / "xml/junit.xml").read_text()
    assert front_end.run("junit", "--to", "xml", "--fail").returncode == 4


@pytest.mark.parametrize(("status", "told"), [("0", 101), ("3", 3), ("256", 1), ("259", 3)])
def test_no_status_of_tests_that_failed_becomes_0(
    front_end: FrontEnd, status: str, told: int
) -> None:
    assert front_end.run(*FROM_LINES, "--status", status).returncode == told


def test_all_of_it_in_one_command(front_end: FrontEnd) -> None:
    done = front_end.run(*FROM_LINES, "--page", "--junit")
    assert done.returncode == 101
    *_, page, report = map(pathlib.Path, done.stdout.splitlines())
    assert (page.parent, page.suffix) == (front_end.runs, ".html")
    assert page.read_text().startswith("<!DOCTYPE html>\n")
    assert report == front_end.runs.parent / "rezovamy-junit/junit.xml"
    assert 'failures="2"' in report.read_text()


def test_a_run_of_which_nothing_is_recorded_leaves_no_xml_of_an_older_one(
    front_end: FrontEnd,
) -> None:
    front_end.run(*FROM_LINES, "--junit")
    report = front_end.runs.parent / "rezovamy-junit/junit.xml"
    assert report.exists()
    assert front_end.run("test", "--from", os.devnull, "--junit").returncode == 1
    assert not report.exists()


def test_a_trace_that_nobody_reads(front_end: FrontEnd) -> None:
    front_end.run(*FROM_LINES)
    done = front_end.run_without_reader("trace")
    assert (done.returncode, done.stderr) == (141, "")


def test_lines_of_a_pipe(front_end: FrontEnd) -> None:
    assert front_end.run(*FROM_INPUT, given=LINES.read_text()).returncode == 101


def test_two_at_once(front_end: FrontEnd) -> None:
    both = [started(front_end), started(front_end)]
    for one in both:
        one.communicate(LINES.read_bytes())
    assert [one.returncode for one in both] == [101, 101]
    assert len(listed(front_end)) == 2


@pytest.mark.parametrize(("number", "status"), [(signal.SIGINT, 130), (signal.SIGHUP, 143)])
def test_a_run_that_is_broken_off(front_end: FrontEnd, number: signal.Signals, status: int) -> None:
    """What came of its lines is recorded."""
    with started(front_end) as one:
        assert one.stdin and one.stderr
        one.stdin.write(b"marked\n" + b"".join(LINES.read_bytes().splitlines(True)[:20]))
        one.stdin.flush()
        while b"marked" not in one.stderr.readline():
            pass
        one.send_signal(number)
        one.stderr.read()
        assert one.wait(60) == status
    run, *_ = listed(front_end)
    assert (run["status"], run["exit-code"]) == ("cancelled", status)
    assert f"{run['id']}.bundle.gz" in os.listdir(front_end.runs)


def test_a_recording_that_fails_leaves_nothing(front_end: FrontEnd) -> None:
    front_end.environment["REZOVAMY"] = "/bin/false"
    assert front_end.run(*FROM_LINES).returncode == 101
    assert os.listdir(front_end.runs) == []
