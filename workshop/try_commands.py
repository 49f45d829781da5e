"""Tries the commands of the built program on real and generated sessions, and prints what is wrong.

    python3 -m workshop.try_commands [crates/rezovamy/out/rezovamy]

The real session is that of `examples/`, of a run of a small crate's tests. Of the made ones one is
of `python3 -m workshop.make_kinds`, with each kind of event, and one has a pause and a retry, with
its trace written by hand. Each is recorded; its bundle is looked into, its trace is drawn again,
its events are replayed, and it has a report for each run that ended. What is printed is held to the
session, event by event, and how slots were used to sums over the gaps between its events. Each
bundle is upgraded and salvaged, which gives the same bytes. Of the XML that becomes of the reports
`front/tests/test_junit_of_sessions.py` says more.
"""

from __future__ import annotations

import json
import subprocess
import sys
import tempfile
from collections import Counter
from collections.abc import Sequence
from pathlib import Path
from typing import TypedDict

from rezovamy_runs.command_line import command_line, demand_program
from workshop import PROGRAM, TOP
from workshop.oracle.container import entries

OUTPUT_KINDS = ("setup-script-finished", "test-attempt-failed-will-retry", "test-finished")
SLOT_KINDS = ("busy", "paused", "idle")


class Instant(TypedDict):
    """When an event was."""

    secs: int
    nanos: int


# The members of an event that are looked at here, and those of a trace event.
Event = TypedDict(
    "Event",
    {
        "kind": str,
        "timestamp": Instant,
        "test-instance": dict[str, str],
        "slot-assignment": dict[str, int],
    },
    total=False,
)
Drawn = TypedDict("Drawn", {"ph": str, "name": str})


class Fault(Exception):
    """What is wrong."""


def demand(condition: bool, what: str) -> None:
    """Raise a fault where a condition doesn't hold."""
    if not condition:
        raise Fault(what)


class Program:
    """The program, run in a folder."""

    def __init__(self, path: Path, folder: Path) -> None:
        self.path, self.folder = path.resolve(), folder

    def run(self, words: Sequence[str], source: bytes = b"") -> bytes:
        """Return what a command prints that is done without a fault."""
        done = subprocess.run(
            [self.path, *words], cwd=self.folder, input=source, capture_output=True
        )
        demand(
            done.returncode == 0 and done.stderr == b"",
            f"{words} ends with {done.returncode} and {done.stderr!r}",
        )
        return done.stdout

    def written(self, name: str) -> bytes:
        """Return what a command wrote into a file of the folder."""
        return (self.folder / name).read_bytes()


def events_of(session: bytes) -> list[Event]:
    """Return the events of a session, which stand after its head."""
    return [json.loads(line) for line in session.splitlines()[1:]]


def try_session(program: Program, name: str, session: bytes) -> None:
    """Try all commands on a session."""
    head, events = json.loads(session.splitlines()[0]), events_of(session)
    trace = program.run(["record", f"{name}.bundle"], session)
    bundle = program.written(f"{name}.bundle")
    demand(program.run(["trace"], bundle) == trace, f"{name}: another trace is drawn of the bundle")
    manifest = json.loads(program.run(["info"], bundle))
    demand(manifest["run"]["run-id"] == head["run-id"], f"{name}: the manifest is of another run")
    try_trace(name, json.loads(trace)["traceEvents"], events)
    try_lines(program, name, bundle, events)
    reports = program.run(["report"], bundle).splitlines()
    ended = sum(event["kind"] == "run-finished" for event in events)
    demand(len(reports) == ended, f"{name}: not a report for each run that ended")


def try_trace(name: str, drawn: Sequence[Drawn], events: Sequence[Event]) -> None:
    """Hold a trace against its events.

    Each test and script begins as often as it ends; a run without a pause has one slice for each
    attempt.
    """
    begins = Counter(event["name"] for event in drawn if event["ph"] == "B")
    ends = Counter(event["name"] for event in drawn if event["ph"] == "E")
    if any(event["kind"] == "run-paused" for event in events):
        demand(sum(begins.values()) - sum(ends.values()) in (0, 1, 2), f"{name}: slices don't end")
        return
    starts = Counter(
        event["test-instance"]["test-name"]
        for event in events
        if event["kind"] in ("test-started", "test-retry-started")
    )
    is_drawn = all(begins[test] == count for test, count in starts.items())
    demand(is_drawn, f"{name}: a test isn't drawn once an attempt")
    demand(begins == ends, f"{name}: slices don't end")


def try_lines(program: Program, name: str, bundle: bytes, events: Sequence[Event]) -> None:
    """Hold a replay against its events.

    It has a line for the run and for each event, in order; those with outputs say how long these
    are.
    """
    loaded = program.run(["replay"], bundle).decode().splitlines()
    skipped = program.run(["replay", "--output", "skip"], bundle).decode().splitlines()
    kinds = [event["kind"] for event in events]
    for lines in (loaded, skipped):
        demand(lines[0].startswith("header "), f"{name}: a replay without a header")
        shown = [line.split(" ")[1] for line in lines[1:]]
        demand(shown == kinds, f"{name}: a replay of other events")
    for kind, line in zip(kinds, skipped[1:]):
        says = line.endswith((" not-loaded", " start-error"))
        what = f"{name}: outputs are loaded although they are skipped: {line}"
        demand(says == (kind in OUTPUT_KINDS), what)


# ---- slots


def instant_of(event: Event) -> int:
    """Return the instant of an event, in nanoseconds."""
    return event["timestamp"]["secs"] * 10**9 + event["timestamp"]["nanos"]


def usage_of(events: Sequence[Event]) -> str:
    """Return what `slots` prints of the events of one run.

    It is for each slot the time of the gaps in which it is busy, paused and idle.
    """
    kinds = [event["kind"] for event in events]
    begin, end = kinds.index("run-started"), kinds.index("run-finished")
    slots = {event["slot-assignment"]["global-slot"] for event in events if is_start(event)}
    used: dict[int, Counter[str]] = {slot: Counter() for slot in sorted(slots)}
    running: dict[str, int] = {}
    is_paused = False
    for event, following in zip(events[begin:end], events[begin + 1 :]):
        is_paused = {"run-paused": True, "run-continued": False}.get(event["kind"], is_paused)
        test = json.dumps(event.get("test-instance"))
        if is_start(event):
            running[test] = event["slot-assignment"]["global-slot"]
        elif event["kind"] in ("test-attempt-failed-will-retry", "test-finished"):
            del running[test]
        for slot, times in used.items():
            what = "paused" if is_paused else "busy" if slot in running.values() else "idle"
            times[what] += instant_of(following) - instant_of(event)
    lines = [f"run={instant_of(events[end]) - instant_of(events[begin])}"]
    lines += [f"slot={slot} {times_of(times)}" for slot, times in used.items()]
    return "".join(f"{line}\n" for line in lines)


def is_start(event: Event) -> bool:
    """Return whether an attempt starts on a slot."""
    return "slot-assignment" in event


def times_of(times: Counter[str]) -> str:
    """Return the times of a slot as they are printed."""
    return " ".join(f"{kind}={times[kind]}" for kind in SLOT_KINDS)


def try_slots(program: Program, name: str, session: bytes) -> None:
    """Hold how the slots of a run were used against the gaps between its events."""
    printed = program.run(["slots"], program.written(f"{name}.bundle")).decode()
    demand(printed == usage_of(events_of(session)), f"{name}: its slots are used so: {printed}")


def try_again(program: Program, name: str) -> None:
    """Hold a bundle against what it is upgraded to and what is salvaged of it: itself."""
    bundle = program.written(f"{name}.bundle")
    parts = entries(bundle)
    outputs = sum(path.startswith(b"out/") for path in entries(parts[b"store.zip"]))
    counts = f"events={len(parts[b'run.log.zst'].splitlines())} outputs={outputs}\n".encode()
    for command, printed in (("upgrade", b""), ("salvage", counts)):
        said = program.run([command, f"{name}.{command}"], bundle)
        demand(said == printed, f"{name}: {command} prints {said!r}")
        again = program.written(f"{name}.{command}")
        demand(again == bundle, f"{name}: {command} writes another bundle")


# ---- the sessions


def try_pause_and_retry(program: Program, session: bytes) -> None:
    """Try four tests, one of which is tried twice, beside a pause.

    The trace is held against one that was written by hand, and the bundle against its counts.
    """
    trace = program.run(["record", "pause.bundle"], session)
    wanted = (TOP / "examples/pause_and_retry.trace.json").read_bytes()
    demand(trace == wanted, f"pause: the trace is {trace!r}")
    demand(len(json.loads(trace)["traceEvents"]) == 54, "pause: not 54 trace events")
    bundle = program.written("pause.bundle")
    demand(program.run(["trace"], bundle) == trace, "pause: another trace is drawn of the bundle")
    try_slots(program, "pause", session)
    sizes = json.loads(program.run(["info"], bundle))["run"]["sizes"]
    counted = (sizes["log"]["entries"], sizes["store"]["entries"])
    demand(counted == (14, 6), f"pause: the bundle has {sizes}")
    first, second = b"ba7816bf8f01cfea", b"2cf24dba5fb0a30e"
    passed, failed = (bundle.find(b"out/%s-stdout" % name) for name in (first, second))
    demand(0 < passed < failed, "pause: the outputs are not stored in the order of their first use")


def try_log_line(program: Program, session: bytes) -> None:
    """See that a line of a session is logged with its members in order."""
    paused = (
        b'{"timestamp":{"secs":1002,"nanos":0,"offset":0},"elapsed":{"secs":2,"nanos":0},'
        b'"kind":"run-paused","setup-scripts-running":0,"running":1}'
    )
    logged = (
        b'{"elapsed":{"nanos":0,"secs":2},"kind":"run-paused","running":1,'
        b'"setup-scripts-running":0,"timestamp":{"nanos":0,"offset":0,"secs":1002}}'
    )
    program.run(["record", "line.bundle"], session.splitlines()[0] + b"\n" + paused)
    demand(program.written("line.bundle").count(logged) == 1, "line: it is logged as another")


def try_sample(program: Program) -> None:
    """Try a generated session of twenty tests."""
    said = program.run(["sample", "20", "sample.bundle"])
    demand(said == b"events=42 outputs=16\n", f"sample: it prints {said!r}")
    reports = program.run(["report"], program.written("sample.bundle"))
    demand(len(reports.splitlines()) == 1, "sample: not one report")


def try_all(program: Program) -> None:
    """Try each session."""
    sums = (TOP / "examples/sums.session").read_bytes()
    try_session(program, "sums", sums)
    try_slots(program, "sums", sums)
    pause = (TOP / "examples/pause_and_retry.session").read_bytes()
    try_pause_and_retry(program, pause)
    try_log_line(program, pause)
    words = [sys.executable, "-m", "workshop.make_kinds"]
    kinds = subprocess.run(words, cwd=TOP, capture_output=True, check=True).stdout
    try_session(program, "kinds", kinds)
    try_sample(program)
    for name in ("sums", "pause", "kinds", "sample"):
        try_again(program, name)


def main() -> None:
    """Try the program that is named."""
    parser = command_line(__doc__)
    parser.add_argument("program", nargs="?", default=PROGRAM, help="the built program")
    path = parser.parse_args().program
    demand_program(parser, path)
    with tempfile.TemporaryDirectory() as folder:
        try:
            try_all(Program(Path(path), Path(folder)))
        except Fault as fault:
            sys.exit(f"FAULT: {fault}")


if __name__ == "__main__":
    main()
