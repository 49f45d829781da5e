"""What a page knows of a run, as the JSON value that its script reads.

Instants are whole microseconds since the run's begin. Each different output stands in it once;
bytes that aren't UTF-8 are halves of surrogate pairs in its text (`surrogateescape`), which the
page spells. A member that has nothing to say is left out.
"""

from __future__ import annotations

import dataclasses
import json
from collections.abc import Sequence
from typing import Literal, NotRequired, TypeAlias, TypedDict

from rezovamy_runs import formatting
from rezovamy_runs.model import Attempt, Run, Script, Status, Test, TestName, Verdict
from rezovamy_runs.page.about import PageCommand, PageFact, command_of, facts_of
from rezovamy_runs.page.bands import PageBand
from rezovamy_runs.page.causes import PageCause, cause_of, grouped
from rezovamy_runs.page.past import PagePast, Past, page_past
from rezovamy_runs.quarantine import NOTHING, Entry, Quarantine
from rezovamy_runs.store.notes import RunNotes

State: TypeAlias = Literal[
    "failed", "unfinished", "not-started", "flaky", "passed", "skipped", "script"
]


class PageOutput(TypedDict):
    """An output: its size as it was printed, and the text that the page has of it."""

    size: int
    text: str
    note: NotRequired[str]


class PageAttempt(TypedDict):
    """An attempt of a test, or the run of a setup script.

    `outputs` has streams with the places of their outputs, and `slices` begins and ends in turn.
    """

    number: int
    total: int
    result: str
    detail: NotRequired[str]
    slow: NotRequired[bool]
    bad: NotRequired[bool]
    error: NotRequired[str]
    outputs: NotRequired[list[tuple[str, int]]]
    slot: NotRequired[int]
    seconds: NotRequired[float]
    slices: NotRequired[list[int]]
    slow_at: NotRequired[list[int]]


class PageTest(TypedDict):
    """A test, or a setup script, which has a command and no binary."""

    name: str
    state: State
    command: NotRequired[str]
    binary: NotRequired[int]
    reason: NotRequired[str]
    stress: NotRequired[int]
    flaky_fails: NotRequired[bool]
    quarantine: NotRequired[str]
    attempts: NotRequired[list[PageAttempt]]


class PageRun(TypedDict):
    """A run without its tests."""

    id: str
    profile: str
    when: str
    seconds: float
    status: str
    exit: int | None
    ended: str
    args: list[str]
    bundle: str


class PageData(TypedDict):
    """All that a page knows; `marks` are instants with what is written at them.

    `unnamed` is how many tests were announced, never started and have no name.
    """

    run: PageRun
    facts: list[PageFact]
    source: str | None
    binaries: list[str]
    commands: list[PageCommand | None]
    tests: list[PageTest]
    unnamed: int
    causes: list[PageCause]
    outputs: list[PageOutput]
    notes: list[str]
    pauses: list[tuple[int, int]]
    marks: list[tuple[int, str]]
    end: int
    bands: list[PageBand]
    past: PagePast | None


STATES: dict[Verdict, State] = {
    Verdict.FAIL: "failed",
    Verdict.UNFINISHED: "unfinished",
    Verdict.FLAKY: "flaky",
    Verdict.PASS: "passed",
    Verdict.SKIP: "skipped",
}
# The most bytes of an output, of all of them as JSON, and the most characters of an error.
MOST_OUTPUT, MOST_OUTPUTS, MOST_ERROR, LEAST_ERROR = 200_000, 20_000_000, 20_000, 500
# The bytes of a character of UTF-8 after its first one.
CONTINUATION = bytes(range(0x80, 0xC0))
# The order in which outputs may take the room that there is.
URGENCY: tuple[State, ...] = ("failed", "unfinished", "flaky", "script", "passed", "skipped")


def cut_middle(data: bytes, most: int) -> tuple[bytes, bytes, int]:
    """Return the begin and the end of an output, and how many bytes are left out between them.

    Both together have at most so many bytes. A character of UTF-8 is left out whole.
    """
    if len(data) <= most:
        return data, b"", 0
    half = most // 2
    begin, end = data[:half], data[-half:] if half else b""
    begin = begin[: len(begin) - begun_character(begin)]
    end = end[len(end[:3]) - len(end[:3].lstrip(CONTINUATION)) :]
    return begin, end, len(data) - len(begin) - len(end)


def begun_character(data: bytes) -> int:
    """Return how many bytes at the end begin a character of UTF-8 without ending it."""
    for length in range(1, min(4, len(data) + 1)):
        lead = data[-length]
        if lead >= 0xC0:
            return length if length < (2 if lead < 0xE0 else 3 if lead < 0xF0 else 4) else 0
        if lead < 0x80:
            return 0
    return 0


class Outputs:
    """The outputs of a page, each different one once, as long as there is room."""

    def __init__(self, most_each: int = MOST_OUTPUT, most_all: int = MOST_OUTPUTS) -> None:
        self.most_each = most_each
        self.room = most_all
        self.kept: list[PageOutput] = []
        self.left_out = 0
        self.places: dict[tuple[bytes, int | None], int] = {}

    def place(self, data: bytes, recorded_size: int | None = None) -> int:
        """Return the place of an output; one that the recording cut had `recorded_size` before."""
        key = data, recorded_size
        if key not in self.places:
            self.places[key] = len(self.kept)
            self.kept.append(self.value(data, recorded_size))
        return self.places[key]

    def value(self, data: bytes, recorded_size: int | None) -> PageOutput:
        """Return what the page has of an output, for which some of the room is taken."""
        most = min(self.most_each, max(0, self.room))
        text, notes = "", []
        if recorded_size is not None:
            kept = f"of {recorded_size:,} bytes {len(data):,} were kept"
            notes.append(f"It was cut in the recording: {kept}.")
        if data and most < min(len(data), 100):
            self.left_out += 1
            notes.append("This page has no more room for outputs. `rezovamy-runs show` prints it.")
        else:
            text, missing = self.text(data, most)
            if missing:
                left_out = f"{missing:,} bytes in the middle are left out here"
                notes.append(f"{left_out}. `rezovamy-runs show` prints them.")
        size = len(data) if recorded_size is None else recorded_size
        made: PageOutput = {"size": size, "text": text}
        if notes:
            made["note"] = " ".join(notes)
        return made

    def text(self, data: bytes, most: int) -> tuple[str, int]:
        """Return the text of an output, and how many bytes are left out of it."""
        begin, end, missing = cut_middle(data, most)
        between = f"\n\n... [{missing} bytes are left out] ...\n\n" if missing else ""
        begin_text = begin.decode("utf-8", "surrogateescape")
        text = begin_text + between + end.decode("utf-8", "surrogateescape")
        self.room -= len(json.dumps(text))
        return text, missing

    def error(self, text: str) -> str:
        """Return what is shown of an attempt's errors."""
        most = MOST_ERROR if self.room > 0 else LEAST_ERROR
        self.room -= min(len(text), most)
        if len(text) <= most:
            return text
        return f"{text[:most]}\n... [{len(text) - most} characters are left out] ..."


def placed_outputs(attempt: Attempt, outputs: Outputs) -> list[tuple[str, int]]:
    """Return the streams of an attempt with the places of what was captured of them."""
    return [
        (stream, outputs.place(data, attempt.truncated.get(stream)))
        for stream, data in attempt.outputs.items()
    ]


def page_attempt(attempt: Attempt, begin: int, outputs: Outputs) -> PageAttempt:
    """Return an attempt; its instants count from the run's begin."""
    has_ended = attempt.ended is not None
    placed = placed_outputs(attempt, outputs)
    made: PageAttempt = {
        "number": attempt.number,
        "total": attempt.total,
        "result": attempt.result,
    }
    if attempt.detail:
        made["detail"] = attempt.detail
    if attempt.is_slow:
        made["slow"] = True
    if has_ended and not attempt.passed:
        made["bad"] = True
    if attempt.errors:
        made["error"] = outputs.error(attempt.errors)
    if placed:
        made["outputs"] = placed
    if attempt.slot is not None:
        made["slot"] = attempt.slot
    if has_ended:
        made["seconds"] = round(active_seconds(attempt), 9)
    if attempt.slices:
        made["slices"] = [time - begin for piece in attempt.slices for time in piece]
    if attempt.slow_at:
        made["slow_at"] = [time - begin for time in attempt.slow_at]
    return made


def active_seconds(attempt: Attempt) -> float:
    """Return how long an attempt ran, without the pauses that cut it."""
    if attempt.active is None or len(attempt.slices) < 2:
        return attempt.seconds
    return attempt.active


class Binaries:
    """The binaries of a page, each of which has a place."""

    def __init__(self) -> None:
        self.places: dict[str, int] = {}

    def place(self, binary: str) -> int:
        """Return the place of a binary."""
        return self.places.setdefault(binary, len(self.places))


def page_test(test: Test, begin: int, outputs: Outputs, binaries: Binaries) -> PageTest:
    """Return a test with its attempts."""
    made: PageTest = {"name": test.name, "state": STATES[test.verdict]}
    made["binary"] = binaries.place(test.binary)
    if test.reason:
        made["reason"] = test.reason
    if test.stress is not None:
        made["stress"] = test.stress
    if test.flaky_fails:
        made["flaky_fails"] = True
    attempts = [page_attempt(attempt, begin, outputs) for attempt in test.attempts]
    if attempts:
        made["attempts"] = attempts
    return made


def page_tests(
    tests: Sequence[Test], begin: int, outputs: Outputs, binaries: Binaries
) -> list[PageTest]:
    """Return the tests; those that matter more have the first go at the room for outputs."""
    by_urgency = sorted(
        range(len(tests)), key=lambda place: URGENCY.index(STATES[tests[place].verdict])
    )
    made = {place: page_test(tests[place], begin, outputs, binaries) for place in by_urgency}
    return [made[place] for place in range(len(tests))]


def page_script(script: Script, begin: int, outputs: Outputs) -> PageTest:
    """Return a setup script."""
    made: PageTest = {
        "name": script.id,
        "state": "script",
        "command": " ".join([script.program, *script.args]),
    }
    if script.stress is not None:
        made["stress"] = script.stress
    # In the timeline each script has a row of its own.
    attempt = dataclasses.replace(script.attempt, slot=script.index)
    made["attempts"] = [page_attempt(attempt, begin, outputs)]
    return made


def page_waiting(key: TestName, binaries: Binaries) -> PageTest:
    """Return a test that never started."""
    return {"name": key.test, "state": "not-started", "binary": binaries.place(key.binary)}


def notes_of(run: Run, outputs: Outputs) -> list[str]:
    """Return what a reader has to know before all else."""
    notes = []
    if run.status is Status.INCOMPLETE:
        notes.append("The run was broken off, or the recording of it was: it has no end.")
    if run.cancelled_for:
        notes.append(f"The run was cancelled: {reason_text(run.cancelled_for)}.")
    if outputs.left_out:
        left_out = formatting.count(outputs.left_out, "different output")
        have = "has" if outputs.left_out == 1 else "have"
        notes.append(f"{left_out} {have} no room in this page. `rezovamy-runs show` prints all.")
    return notes


def reason_text(reason: str) -> str:
    """Return why a run was cancelled in words."""
    return reason.replace("-", " ")


def page_run(run: Run) -> PageRun:
    """Return what is known of a run without its tests."""
    ended = run.status if run.exit_code is None else f"{run.status}, exit code {run.exit_code}"
    return {
        "id": run.id,
        "profile": run.profile,
        "when": formatting.moment(run.started),
        "seconds": round(run.elapsed, 9),
        "status": run.status,
        "exit": run.exit_code,
        "ended": ended,
        "args": list(run.cli_args),
        "bundle": run.bundle.name,
    }


def causes_of(run: Run) -> list[PageCause]:
    """Return why setup scripts and tests failed; a page has the scripts before the tests."""
    scripts = [
        (place, cause_of(script.id, [script.attempt]))
        for place, script in enumerate(run.scripts)
        if not script.attempt.passed
    ]
    tests = [
        (len(run.scripts) + place, cause_of(test.binary, test.attempts))
        for place, test in enumerate(run.tests)
        if test.verdict in (Verdict.FAIL, Verdict.UNFINISHED)
    ]
    return grouped(scripts + tests)


def quarantined(
    tests: Sequence[PageTest], names: Sequence[TestName], excused: Quarantine
) -> list[PageTest]:
    """Return tests with these names; those in quarantine say until when and why."""
    found: list[PageTest] = []
    for test, name in zip(tests, names, strict=True):
        entry = excused.entry_of(name)
        if entry:
            test = test.copy()
            test["quarantine"] = quarantine_text(entry)
        found.append(test)
    return found


def quarantine_text(entry: Entry) -> str:
    """Return what is said of a test in quarantine."""
    until = f" until {entry.until}" if entry.until else ""
    return f"in quarantine{until}{f': {entry.reason}' if entry.reason else ''}"


def names_of(run: Run) -> list[TestName]:
    """Return the names of all tests of a run, in the order in which its page has them."""
    return [*(test.key for test in run.tests), *run.never_started]


def page_data(
    run: Run,
    outputs: Outputs,
    notes: RunNotes | None = None,
    source: str | None = None,
    past: Past | None = None,
    excused: Quarantine = NOTHING,
) -> PageData:
    """Return all that a page knows of a run.

    `source` is the pattern of links to its sources, `past` how its tests ended before, and
    `excused` says which are in quarantine.
    """
    binaries = Binaries()
    begin, end = run.extent
    scripts = [page_script(script, begin, outputs) for script in run.scripts]
    ran = page_tests(run.tests, begin, outputs, binaries)
    waiting = [page_waiting(key, binaries) for key in run.never_started]
    return {
        "run": page_run(run),
        "facts": facts_of(notes),
        "source": source,
        "binaries": list(binaries.places),
        "commands": [command_of(binary) for binary in binaries.places],
        "tests": [*scripts, *quarantined([*ran, *waiting], names_of(run), excused)],
        "unnamed": run.unnamed,
        "causes": causes_of(run),
        "outputs": outputs.kept,
        "notes": notes_of(run, outputs),
        "pauses": [(since - begin, until - begin) for since, until in run.pauses],
        "marks": [
            (one.at - begin, f"cancelled: {reason_text(one.reason)}") for one in run.cancellations
        ],
        "end": end - begin,
        "bands": [],
        "past": page_past(past, names_of(run)) if past else None,
    }
