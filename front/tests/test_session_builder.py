"""Sessions of lines, and what is said meanwhile."""

from __future__ import annotations

import json

import pytest

from rezovamy_runs.faults.fault import Fault
from rezovamy_runs.json_values import JsonObject
from rezovamy_runs.runner.session_builder import Session, SessionBuilder
from rezovamy_runs.streams.clock import measured_clock
from rezovamy_runs.streams.run_state import CancelReason, Console

SUITE: JsonObject = {"type": "suite", "event": "started", "test_count": 3}
ONE: JsonObject = {**SUITE, "test_count": 1}
END: JsonObject = {"type": "suite", "event": "ok"}


def event(name: str, kind: str, **more: object) -> JsonObject:
    """Return an event of a test."""
    return {"type": "test", "event": kind, "name": name, **more}


PASSED = [ONE, event("t", "started"), event("t", "ok"), END]
FAILED = [ONE, event("t", "started"), event("t", "failed"), END]


def builder_of(said: list[str]) -> SessionBuilder:
    """Return what makes a session of a file that is there, and keeps what is said."""
    return SessionBuilder(measured_clock(1000), Console(said.append, "rezovamy-runs"))


def session_of(
    events: list[JsonObject],
    status: int | None = None,
    cancel_reason: CancelReason | None = None,
    said: list[str] | None = None,
) -> Session:
    """Return the session of events."""
    builder = builder_of([] if said is None else said)
    for value in events:
        builder.read(json.dumps(value).encode() + b"\n")
    return builder.session(status, cancel_reason, "ci", ["cargo", "test"])


def test_words_that_cargo_does_not_take_are_no_run() -> None:
    """Nothing is recorded of them."""
    builder = builder_of([])
    builder.read(b"error: unexpected argument '--bogus' found\n")
    with pytest.raises(Fault, match="didn't take its words") as caught:
        builder.session(1, None, "default", [])
    assert caught.value.status == 1
    assert builder.reader.run.timeline.tests == []


def test_a_build_that_fails_is_a_run() -> None:
    """It is recorded with cargo's status."""
    builder = builder_of([])
    builder.read(b"error: could not compile `x` (lib test) due to 1 previous error\n")
    assert builder.session(101, None, "default", []).status == 101


def test_the_head_and_the_run_have_the_words_of_cargo() -> None:
    """They have its profile and its id too."""
    made = session_of([SUITE, event("t", "started"), event("t", "ok", exec_time=1.5)], 0)
    head, started, *_ = [json.loads(line) for line in made.data.splitlines()]
    assert head["cli-args"] == started["cli-args"] == ["cargo", "test"]
    assert started["profile-name"] == "ci"
    assert (head["run-id"], head["started-at"]["secs"]) == (made.run_id, 1000)


@pytest.mark.parametrize(
    ("events", "status", "expected"),
    [
        pytest.param(PASSED, 0, 0, id="passed and 0"),
        pytest.param(PASSED, None, 0, id="passed"),
        pytest.param(FAILED, 101, 101, id="failed and 101"),
        pytest.param(FAILED, None, 101, id="failed"),
        pytest.param(FAILED, 0, 101, id="failed and 0"),
        pytest.param(PASSED, 3, 3, id="passed and 3"),
    ],
)
def test_the_status_is_that_of_the_tests(
    events: list[JsonObject], status: int | None, expected: int
) -> None:
    """Cargo's answer counts where nothing failed."""
    assert session_of(events, status).status == expected


def test_the_status_of_a_run_that_is_broken_off() -> None:
    """It is that of a shell."""
    assert session_of(PASSED, cancel_reason="interrupt").status == 130


def test_a_kept_run_has_the_same_id_each_time() -> None:
    """Other lines have another id."""
    events = [SUITE, event("t", "started"), event("t", "ok")]
    assert session_of(events).run_id == session_of(events).run_id
    assert session_of(events).run_id != session_of(events[:2]).run_id


def test_without_tests_nothing_is_recorded() -> None:
    """What was read is said, and that no test ran."""
    said: list[str] = []
    with pytest.raises(Fault, match="no test ran") as caught:
        session_of([{"odd": 1}], 0, said=said)
    assert caught.value.status == 1
    assert said == ['{"odd": 1}']


@pytest.mark.parametrize(("reason", "status"), [("interrupt", 130), ("signal", 143)])
def test_what_is_broken_off_before_a_test_is_not_recorded(
    reason: CancelReason, status: int
) -> None:
    """The status is that of a shell."""
    with pytest.raises(Fault, match="broken off before a test ran") as caught:
        session_of([{"odd": 1}], cancel_reason=reason)
    assert caught.value.status == status


def test_a_text_that_looks_like_a_warning_is_said_as_it_is() -> None:
    """A test may print what a program here says."""
    said: list[str] = []
    builder = builder_of(said)
    for text in (b"session_from_libtest: 3 lines are no event of a run\n", b"rezovamy-runs: a\n"):
        builder.read(text)
    assert said == ["session_from_libtest: 3 lines are no event of a run", "rezovamy-runs: a"]


def test_a_test_of_a_run_that_has_ended_may_end_once_more() -> None:
    """One that its suite didn't announce was taken back then."""
    said: list[str] = []
    builder = builder_of(said)
    events = [ONE, event("b", "started"), event("a", "started"), event("b", "ok")]
    for value in events:
        builder.read(json.dumps(value).encode() + b"\n")
    builder.reader.end_cargo_run(101)
    builder.read(json.dumps(event("a", "ok")).encode() + b"\n")
    assert builder.session(101, None, "ci", []).status == 101
