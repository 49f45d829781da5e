"""Runs of more tests than there are threads: none is drawn as running that waited for one."""

from __future__ import annotations

import dataclasses
import json

import pytest

from tests.real_runs.cargo_runs import Cargo
from tests.real_runs.recorder import Recorder
from tests.real_runs.sessions import Session, live_session, session_of

pytestmark = pytest.mark.cargo

WAITS = ["-p", "ends", "--test", "waits"]
COUNT = 24


@dataclasses.dataclass(frozen=True)
class ThreadedRun:
    """A run with a number of threads: its lines, and the session that is made meanwhile."""

    threads: int
    printed: bytes
    session: Session


@pytest.fixture(scope="module", params=[1, 2], ids=["one thread", "two threads"])
def threaded_run(request: pytest.FixtureRequest, cargo: Cargo) -> ThreadedRun:
    """A run of more tests than it has threads."""
    threads: int = request.param
    return ThreadedRun(threads, *live_session(cargo, [WAITS], [f"--test-threads={threads}"]))


def measured_times(printed: bytes) -> dict[str, int]:
    """Return the nanoseconds that each test ran, as its line says."""
    values = [
        json.loads(line)
        for line in printed.splitlines()
        if b'"exec_time"' in line and b'"test"' in line
    ]
    return {value["name"]: round(value["exec_time"] * 10**9) for value in values}


def check_threads(session: Session, threads: int, times: dict[str, int]) -> None:
    """See that no more tests run at once than there are threads, each as long as it took."""
    running: set[str] = set()
    for event in session.events:
        if event.kind == "test-started":
            running.add(event.test)
            assert len(running) <= threads
            slot = event.members.inner("slot-assignment").whole_number("global-slot")
            assert slot < threads
        elif event.kind == "test-finished":
            running.remove(event.test)
            attempt = event.attempts[-1]
            assert event.at - attempt.start == times[event.test] == attempt.taken


def test_lines_that_are_taken_as_they_come(threaded_run: ThreadedRun) -> None:
    """A test ends when its line comes."""
    times = measured_times(threaded_run.printed)
    assert len(times) == COUNT
    check_threads(threaded_run.session, threaded_run.threads, times)


def test_lines_without_their_clock(threaded_run: ThreadedRun) -> None:
    """A test starts where a thread is free."""
    times = measured_times(threaded_run.printed)
    check_threads(session_of(threaded_run.printed), threaded_run.threads, times)


@pytest.mark.program
def test_the_trace_has_a_row_for_each_thread(threaded_run: ThreadedRun, recorder: Recorder) -> None:
    trace = json.loads(recorder.record(threaded_run.session.text, "--group-by", "slot"))
    rows = {
        (event["pid"], event["tid"])
        for event in trace["traceEvents"]
        if event["ph"] == "B" and event["cat"] == "test"
    }
    assert len(rows) == threaded_run.threads
