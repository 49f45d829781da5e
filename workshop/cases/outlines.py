"""Cases of traces: what `record` prints of a session and `trace` of a bundle with the same events,
by texts and by outlines.
"""

from __future__ import annotations

import json
import re
from collections.abc import Sequence
from typing import Any, TypeAlias

from workshop.cases.case import Beside, Case, Holds, Wanted, Words, begins
from workshop.cases.histories import Line, traced_bundle, traced_session
from workshop.cases.made import text
from workshop.oracle.container import MAGIC

TRACE = re.compile(rb'\{"displayTimeUnit":"ms","otherData":(\{.*?\}),"traceEvents":\[(.*)\]\}')
# A trace event, by its members.
TraceEvent: TypeAlias = dict[str, Any]
GROUPINGS = ("binary", "slot")


def unwrapped(lines: str) -> str:
    """A text in which a line that begins with four blanks goes on with the one before."""
    return lines.replace("\n    ", "")


def events_of(trace: bytes) -> bytes | None:
    """The text of the trace events of a trace in one line, None where this is no trace."""
    found = TRACE.fullmatch(trace)
    return found[2] if found else None


def listed(trace: bytes) -> list[TraceEvent] | None:
    """The trace events of a trace in one line, None where this is no trace."""
    events = events_of(trace)
    return None if events is None else json.loads(b"[" + events + b"]")


def details(event: TraceEvent) -> str:
    """The number of an arrow, and the args of what is no slice, each after a blank."""
    if event["ph"] in "BE":
        return ""
    return " " + text(event.get("id" if event["ph"] in "sf" else "args"))


def event_line(event: TraceEvent) -> str:
    """A trace event by its phase, category, name, row and instant, with its details."""
    return (
        f"{event['ph']} {event['cat']}:{event['name']} {event['pid']}/{event['tid']} "
        f"{event['ts']}{details(event)}\n"
    )


def outline_of(trace: bytes, phases: str) -> str | None:
    """The trace events of these phases, a line for each, None where this is no trace."""
    events = listed(trace)
    return (
        None
        if events is None
        else "".join(event_line(event) for event in events if event["ph"] in phases)
    )


def outline(phases: str, lines: str) -> Holds:
    """A trace that has this outline."""
    return Holds(
        f"a trace with the outline {lines!r}", lambda trace: outline_of(trace, phases) == lines
    )


def process_named(pid: int, name: str) -> str:
    """The outline of a process that gets its name."""
    return (
        f'M :process_name {pid}/0 0 {{"name":"{name}"}}\n'
        f'M :process_sort_index {pid}/0 0 {{"sort_index":{pid}}}\n'
    )


def row_named(pid: int, tid: int, name: str) -> str:
    """The outline of a row that gets its name."""
    return (
        f'M :thread_name {pid}/{tid} 0 {{"name":"{name}"}}\n'
        f'M :thread_sort_index {pid}/{tid} 0 {{"sort_index":{tid}}}\n'
    )


# A run that begins at second 1000, and the first row of a test.
RUN_BEGUN = (
    process_named(0, "nextest run (default)")
    + row_named(0, 1, "run")
    + "B run:test run 0/1 1000000000\n"
)
FIRST_TEST_NAMED = process_named(2, "alpha::a") + row_named(2, 10000, "slot-0")


def concurrency(first: int, running: str) -> str:
    """The outline of what runs at each second from the first on, as SCRIPTS/TESTS."""
    counts = [count.split("/") for count in running.split()]
    return "".join(
        f"C run:concurrency 0/0 {secs}000000 "
        f'{{"running_scripts":{scripts},"running_tests":{tests}}}\n'
        for secs, (scripts, tests) in enumerate(counts, first)
    )


def failures(secs: int, failed: int) -> str:
    """The outline of the results at this second, where so many tests failed."""
    return f'C run:test results 0/0 {secs}000000 {{"failed":{failed},"flaky":0,"passed":0}}\n'


def after(before: bytes, lines: str) -> Holds:
    """A trace that has the trace events of an earlier one, and then these, each in a line."""
    earlier = events_of(before)
    events = b",".join([*([earlier] if earlier else []), *unwrapped(lines).encode().splitlines()])
    return Holds(
        f"a trace with the trace events {events!r}", lambda trace: events_of(trace) == events
    )


def options(group_by: str, message_format: str = "json") -> Words:
    return "--group-by", group_by, "--message-format", message_format


def of_both(
    name: str,
    lines: Sequence[Line],
    live: Wanted | Beside,
    logged: Wanted | Beside,
    group_by: str,
    message_format: str = "json",
) -> list[Case]:
    """The cases of events of which `record` and `trace` print this."""
    words = options(group_by, message_format)
    return [
        Case(
            f"{name}, record by {group_by}",
            ("record", "b", *words),
            traced_session(lines),
            out=live,
            file=begins(MAGIC),
        ),
        Case(f"{name}, trace by {group_by}", ("trace", *words), traced_bundle(lines), out=logged),
    ]


def printed(
    name: str,
    lines: Sequence[Line],
    out: Wanted,
    group_by: str = "binary",
    message_format: str = "json",
) -> list[Case]:
    """The cases of events whose trace is this, or of which that is said."""
    return of_both(name, lines, out, out, group_by, message_format)


def outlined(name: str, phases: str, lines: Sequence[Line], wanted: str) -> list[Case]:
    """The cases of events whose trace by binary has this outline."""
    return printed(name, lines, outline(phases, wanted))


def drawn(
    name: str, before: Sequence[Line], last: Line, wanted: str, group_by: str = "binary"
) -> list[Case]:
    """The cases of an event that draws these trace events after those before it, which draw what
    they draw without it.
    """
    live, logged = (
        Beside(form(before), lambda trace: after(trace, wanted))
        for form in (traced_session, traced_bundle)
    )
    return of_both(name, [*before, last], live, logged, group_by)


def kinds_of(lines: Sequence[Line]) -> str:
    """The kinds of these events, and when the last of them is."""
    kinds = [str(line.members["kind"]) if line.members else "no event" for line in lines]
    return f"{', '.join(kinds)} at {lines[-1].secs}"


def refused_by_record(lines: Sequence[Line], status: int, line: str, group_by: str) -> Case:
    words = ("record", "b", *options(group_by))
    name = f"{kinds_of(lines)}: {line}, record by {group_by}"
    return Case(name, words, traced_session(lines), status, err=f"{line}\n".encode())


def refused_by_trace(lines: Sequence[Line], status: int, line: str, group_by: str) -> Case:
    words = ("trace", *options(group_by))
    name = f"{kinds_of(lines)}: {line}, trace by {group_by}"
    return Case(name, words, traced_bundle(lines), status, err=f"{line}\n".encode())


def refused(
    lines: Sequence[Line], status: int, line: str, groupings: Sequence[str] = GROUPINGS
) -> list[Case]:
    """The cases of events that neither command draws."""
    return [
        form(lines, status, line, group_by)
        for group_by in groupings
        for form in (refused_by_record, refused_by_trace)
    ]
