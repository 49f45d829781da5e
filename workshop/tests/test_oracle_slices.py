"""The slices of the independent model are those of a trace, and those of a view."""

from __future__ import annotations

import json
import pathlib
import random
from collections.abc import Iterable
from typing import TypedDict

import pytest

from rezovamy_runs.bundles import bundle
from rezovamy_runs.json_values import JsonObject, members_of
from tests import EXAMPLES, made
from tests.made import (
    event,
    exit_code,
    failed,
    finished,
    of_test,
    retried,
    session_of,
    started,
    status,
)
from tests.page_sessions import nasty_session
from workshop.oracle import slices
from workshop.oracle.events import event_of, microseconds, time_of
from workshop.oracle.slices import Drawing, Slice

SECOND = 1_000_000
RUNNING = {"setup_scripts_running": 0, "running": 1}

Pieces = list[list[Slice]]


class TraceEvent(TypedDict, total=False):
    """What is read here of an event of a trace."""

    ph: str
    cat: str
    pid: int
    tid: int
    ts: int
    args: dict[str, str]


def random_session(seed: int) -> str:
    """A session in which tests start, fail, start again and end, between pauses and cancels."""
    chance = random.Random(seed)
    running: dict[str, int] = {}
    waiting: list[str] = []
    events: list[object] = [made.run_started()]
    for second in range(1, 80):
        name = f"t{second}"
        match chance.choice(["start", "start", "end", "fail", "retry", "pause", "go on", "cancel"]):
            case "start":
                running[name] = second
                events.append(started(second, name, second))
            case "end" if running:
                name = chance.choice(sorted(running))
                events.append(finished(second, name, status(running.pop(name), 1)))
            case "fail" if running:
                waiting.append(chance.choice(sorted(running)))
                attempt = status(running.pop(waiting[-1]), 1, exit_code(), 1, 2)
                events.append(failed(second, waiting[-1], attempt))
            case "retry" if waiting:
                running[waiting[-1]] = second
                events.append(retried(second, waiting.pop(), 2, 2, second))
            case "pause":
                events.append(event("run-paused", second, **RUNNING))
            case "go on":
                events.append(event("run-continued", second, **RUNNING))
            case "cancel":
                events.append(event("run-begin-cancel", second, **RUNNING, reason="signal"))
    return session_of(events)


SESSIONS = [
    *(path.read_text() for path in sorted(EXAMPLES.glob("*.session"))),
    nasty_session(),
    *map(random_session, range(40)),
]


def draw(events: Iterable[object]) -> Drawing:
    """The slices of events as they are logged."""
    return slices.draw(map(event_of, events))


def traced(events: Iterable[TraceEvent]) -> dict[tuple[str, str], Pieces]:
    """The slices of each attempt by its test, from the begins and ends of a trace."""
    rows: dict[tuple[int, int], list[Slice]] = {}
    begins: dict[tuple[int, int], int] = {}
    found: dict[tuple[str, str], Pieces] = {}
    for one in events:
        row, args = (one["pid"], one["tid"]), one.get("args")
        if one["ph"] == "B" and one["cat"] == "test":
            begins[row] = one["ts"]
            if args:
                rows[row] = []
                found.setdefault((args["binary_id"], args["test_name"]), []).append(rows[row])
        elif one["ph"] == "E" and one["cat"] == "test":
            rows[row].append((begins[row], one["ts"]))
    return found


def drawn(events: Iterable[object]) -> dict[str, list[list[tuple[float, float]]]]:
    """The slices of each attempt by its test's name, in seconds after the second 1000."""

    def seconds(time: int) -> float:
        return (time - 1000 * SECOND) / SECOND

    return {
        name: [
            [(seconds(begin), seconds(end)) for begin, end in span.slices]
            for spans in times
            for span in spans
        ]
        for (_, name), times in draw(events).tests.items()
    }


def test_the_example_is_drawn_as_its_trace() -> None:
    lines = (EXAMPLES / "pause_and_retry.session").read_text().splitlines()
    drawing = draw(made.stored(json.loads(line), {}) for line in lines[1:])
    found: dict[tuple[str, str], Pieces] = {
        names: [span.slices for spans in times for span in spans]
        for names, times in drawing.tests.items()
    }
    trace = json.loads((EXAMPLES / "pause_and_retry.trace.json").read_text())
    assert found == traced(trace["traceEvents"])
    assert found["alpha::a", "t2"] == [
        [(1001 * SECOND, 1003 * SECOND), (1006 * SECOND, 1007 * SECOND)],
        [(1008 * SECOND, 1010 * SECOND)],
    ]
    assert drawing.pauses == [(1003 * SECOND, 1006 * SECOND)]


@pytest.mark.program
@pytest.mark.parametrize("session", SESSIONS, ids=range(len(SESSIONS)))
def test_a_view_has_the_same_slices(tmp_path: pathlib.Path, session: str) -> None:
    lines = session.splitlines()
    drawing = draw(made.stored(json.loads(line), {}) for line in lines[1:] if line.strip())
    path = tmp_path / "run.bundle"
    path.write_bytes(made.bundle_of(session))
    run = bundle.read_run(path)
    found: dict[tuple[str, str], Pieces] = {}
    for test in run.tests:
        if test.attempts:
            found.setdefault(test.key, []).extend(list(one.slices) for one in test.attempts)
    assert found == {
        names: [span.slices for spans in times for span in spans]
        for names, times in drawing.tests.items()
    }
    assert [list(script.attempt.slices) for script in run.scripts] == [
        span.slices for span in drawing.scripts
    ]
    assert list(run.pauses) == drawing.pauses
    assert run.extent == (drawing.begin, drawing.end)
    assert [(one.at, one.reason) for one in run.cancellations] == drawing.cancellations


def test_pauses_cut() -> None:
    events = [
        started(0, "a", 0),
        event("run-paused", 1),
        event("run-paused", 2),
        event("run-continued", 3),
        event("run-continued", 4),
        event("run-paused", 5),
        event("run-continued", 6),
        finished(7, "a", status(0, 4)),
    ]
    assert drawn(events) == {"a": [[(0, 1), (3, 5), (6, 7)]]}
    assert draw(events).pauses == [
        (1001 * SECOND, 1003 * SECOND),
        (1005 * SECOND, 1006 * SECOND),
    ]


def test_what_starts_or_ends_in_a_pause_has_a_slice_without_length() -> None:
    events = [
        started(0, "a", 0),
        event("run-paused", 1),
        finished(2, "a", status(0, 1)),
        started(3, "b", 1),
        event("run-continued", 4),
        finished(6, "b", status(3, 2)),
    ]
    assert drawn(events) == {"a": [[(0, 1), (2, 2)]], "b": [[(3, 3), (4, 6)]]}


def test_attempts_have_their_slots_and_numbers() -> None:
    events = [
        started(0, "a", 4),
        failed(1, "a", status(0, 1, exit_code(), 1, 3)),
        retried(2, "a", 2, 3, 7),
        finished(3, "a", status(0, 1, exit_code(), 1, 3), status(2, 1, "pass", 2, 3)),
    ]
    ((spans,),) = draw(events).tests.values()
    assert [(span.slot, span.number) for span in spans] == [(4, 1), (7, 2)]


def test_a_span_is_that_of_the_last_attempt_where_one_start_is_known() -> None:
    events = [
        started(0, "a", 4),
        finished(3, "a", status(0, 0, exit_code(), 1, 2), status(2, 1, "pass", 2, 2)),
    ]
    ((spans,),) = draw(events).tests.values()
    assert [span.number for span in spans] == [2]


def test_a_test_that_runs_again_is_another_one() -> None:
    events = [
        started(0, "a", 0),
        finished(1, "a", status(0, 1)),
        started(2, "a", 0),
        finished(3, "a", status(2, 1)),
    ]
    ((first, second),) = draw(events).tests.values()
    assert (len(first), len(second)) == (1, 1)


def test_what_never_ends_ends_with_the_last_event() -> None:
    events = [
        started(0, "a", 0),
        of_test("test-slow", 5, "a"),
        event("run-begin-cancel", 9, reason="interrupt"),
    ]
    drawing = draw(events)
    assert drawn(events) == {"a": [[(0, 9)]]}
    (((span,),),) = drawing.tests.values()
    assert span.slow == [1005 * SECOND]
    assert drawing.cancellations == [(1009 * SECOND, "interrupt")]
    events = [
        started(0, "a", 0),
        event("run-paused", 1),
        event("run-begin-cancel", 9, reason="signal"),
    ]
    assert drawn(events) == {"a": [[(0, 1)]]}


def test_scripts_are_known_by_their_indices() -> None:
    script: JsonObject = {"script_id": "database", "index": 1, "program": "sh", "args": []}
    events = [
        event("setup-script-started", 0, **script),
        event("run-paused", 1),
        event("run-continued", 2),
        event("setup-script-finished", 3, run_status=status(0, 2), **script),
    ]
    assert [(span.slot, span.slices) for span in draw(events).scripts] == [
        (1, [(1000 * SECOND, 1001 * SECOND), (1002 * SECOND, 1003 * SECOND)]),
    ]


@pytest.mark.parametrize(
    ("time", "rounded"),
    [
        ({"secs": 1, "nanos": 1999}, 1_000_001),
        ({"secs": -2, "nanos": 999_999_999}, -1_000_001),
    ],
)
def test_instants_are_rounded_down(time: JsonObject, rounded: int) -> None:
    assert microseconds(time_of(members_of(time))) == rounded
