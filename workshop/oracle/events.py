"""The events of a log, as values; docs/FORMATS.md describes their JSON.

Only what is told of a run is read of them. Kinds of which nothing is told are a plain `Event`.
Instants and lengths of time are nanoseconds.
"""

from __future__ import annotations

import dataclasses
from collections.abc import Callable, Mapping

from rezovamy_runs.json_values import Members, WrongMember, members_of
from rezovamy_runs.model import Result, Stream, TestName

SECOND = 10**9
STREAMS = {stream.value: stream for stream in Stream}
# What a result counts as whose value says so, by its kind.
COUNTED = {
    ("leak", "pass"): Result.LEAK,
    ("leak", "fail"): Result.LEAK_FAIL,
    ("timeout", "pass"): Result.TIMEOUT_PASS,
    ("timeout", "fail"): Result.TIMEOUT,
}


@dataclasses.dataclass(frozen=True, slots=True)
class Output:
    """An output of an attempt: its file in the store, None where it is empty."""

    stream: Stream
    file_name: str | None
    # How many bytes it had before it was cut, None where it is whole.
    original_size: int | None = None


@dataclasses.dataclass(frozen=True, slots=True)
class AttemptEnd:
    """What is told of an attempt of a test, or of a setup script, once it has ended."""

    number: int
    total: int
    started: int
    taken: int
    is_slow: bool
    result: Result
    detail: str
    errors: str | None
    outputs: tuple[Output, ...]


@dataclasses.dataclass(frozen=True, slots=True)
class Event:
    """An event, with its instant and the time since the run's start."""

    at: int
    elapsed: int


@dataclasses.dataclass(frozen=True, slots=True)
class RunStarted(Event):
    """A run has started."""

    profile: str
    cli_args: tuple[str, ...]


@dataclasses.dataclass(frozen=True, slots=True)
class RunFinished(Event):
    """A run has finished."""

    taken: int
    # How many tests never started or never ended, and those of them that are named.
    unseen: int
    unseen_names: tuple[TestName, ...]
    # How many tests were flaky and how many were skipped; None in a stress run.
    flaky: int | None
    skipped: int | None


@dataclasses.dataclass(frozen=True, slots=True)
class RunCancelled(Event):
    """A run is about to be cancelled."""

    reason: str


@dataclasses.dataclass(frozen=True, slots=True)
class RunPaused(Event):
    """A run stands still."""


@dataclasses.dataclass(frozen=True, slots=True)
class RunContinued(Event):
    """A run goes on."""


@dataclasses.dataclass(frozen=True, slots=True)
class ScriptStarted(Event):
    """A setup script has started."""

    index: int
    id: str
    program: str
    args: tuple[str, ...]
    stress: int | None


@dataclasses.dataclass(frozen=True, slots=True)
class ScriptFinished(Event):
    """A setup script has ended."""

    index: int
    end: AttemptEnd


@dataclasses.dataclass(frozen=True, slots=True)
class TestStarted(Event):
    """The first attempt of a test has started."""

    test: TestName
    slot: int
    stress: int | None


@dataclasses.dataclass(frozen=True, slots=True)
class TestRetried(Event):
    """A further attempt of a test has started."""

    test: TestName
    slot: int
    stress: int | None
    number: int
    total: int


@dataclasses.dataclass(frozen=True, slots=True)
class TestSlow(Event):
    """An attempt of a test is slow."""

    test: TestName


@dataclasses.dataclass(frozen=True, slots=True)
class AttemptFailed(Event):
    """An attempt of a test has failed, and another one follows."""

    test: TestName
    end: AttemptEnd


@dataclasses.dataclass(frozen=True, slots=True)
class TestFinished(Event):
    """A test has ended, with all its attempts."""

    test: TestName
    ends: tuple[AttemptEnd, ...]
    flaky_fails: bool


@dataclasses.dataclass(frozen=True, slots=True)
class TestSkipped(Event):
    """A test was left out."""

    test: TestName
    reason: str
    stress: int | None


def event_of(value: object) -> Event:
    """Return the event that a value of JSON is."""
    members = members_of(value)
    read = READERS.get(members.text("kind"))
    return read(members) if read else Event(*when(members))


def time_of(members: Members) -> int:
    """Return the nanoseconds of an instant, since 1970-01-01 UTC, or of a length of time."""
    return members.whole_number("secs") * SECOND + members.whole_number("nanos")


def seconds(time: int) -> float:
    """Return an instant or a length of time in seconds."""
    return time // SECOND + time % SECOND / 1e9


def microseconds(time: int) -> int:
    """Return an instant or a length of time in whole microseconds, rounded down."""
    return time // 1000


def when(event: Members) -> tuple[int, int]:
    """Return what each event begins with."""
    return time_of(event.inner("timestamp")), time_of(event.inner("elapsed"))


def test_name(members: Members) -> TestName:
    """Return the name of a test."""
    return TestName(members.text("binary-id"), members.text("test-name"))


def test_of(event: Members) -> TestName:
    """Return the name of an event's test."""
    return test_name(event.inner("test-instance"))


def stress_of(event: Members) -> int | None:
    """Return the number of the sub-run of an event, None where it is of none."""
    index = event.optional_inner("stress-index")
    return index.whole_number("current") if index else None


def slot_of(event: Members) -> int:
    """Return the slot on which an attempt starts."""
    return event.inner("slot-assignment").whole_number("global-slot")


def unseen_of(run_end: Members) -> tuple[int, tuple[TestName, ...]]:
    """Return how many tests never started or never ended by a run's end, and the named ones."""
    unseen = run_end.optional_inner("outstanding-not-seen")
    if unseen is None:
        return 0, ()
    return unseen.whole_number("total-not-seen"), tuple(
        map(test_name, unseen.inner_list("not-seen"))
    )


def attempt_numbers(members: Members) -> tuple[int, int]:
    """Return which attempt it is, of how many; the only one where nothing says so."""
    retry = members.optional_inner("retry-data")
    if retry is None:
        return 1, 1
    return retry.whole_number("attempt"), retry.whole_number("total-attempts")


def result_of(value: object) -> tuple[Result, str]:
    """Return a result, and its exit code or signal in words."""
    if isinstance(value, str):
        return Result(value), ""
    result = members_of(value, "a result")
    for kind in ("leak", "timeout"):
        if result.has(kind):
            return COUNTED[kind, result.text(kind)], ""
    failure = result.inner("fail").inner("failure")
    signal = failure.optional_inner("abort")
    if signal is None:
        return Result.FAIL, f"exit code {failure.whole_number('exit-code')}"
    name = signal.optional_text("name")
    return Result.ABORT, f"signal {signal.whole_number('signal')}{f', {name}' if name else ''}"


def outputs_of(members: Members) -> tuple[Output, ...]:
    """Return the outputs that an attempt's log names."""
    named = members.inner("split") if members.has("split") else members
    return tuple(
        output_of(stream, named.required(name))
        for name, stream in STREAMS.items()
        if named.has(name)
    )


def output_of(stream: Stream, value: object) -> Output:
    """Return an output, by its name in the store."""
    if value == "empty":
        return Output(stream, None)
    place = members_of(value, "an output")
    cut = place.optional_inner("truncated")
    if cut is None:
        return Output(stream, place.text("full"))
    return Output(stream, cut.text("file-name"), cut.whole_number("original-size"))


def errors_of(status: Members, captured: Members) -> str | None:
    """Return what went wrong in an attempt, by its own words or by its summary."""
    errors = "\n".join(captured.optional_texts("errors"))
    if errors:
        return errors
    summary = status.optional_inner("error-summary")
    return summary.text("description") if summary else None


def attempt_end(status: Members) -> AttemptEnd:
    """Return what is told of an attempt that ended."""
    output = status.inner("output")
    errors, outputs = output.optional_text("start-error"), tuple[Output, ...]()
    if errors is None:
        captured = output.inner("output")
        errors = errors_of(status, captured)
        outputs = outputs_of(captured.inner("output"))
    return AttemptEnd(
        *attempt_numbers(status),
        time_of(status.inner("start-time")),
        time_of(status.inner("time-taken")),
        status.truth("is-slow"),
        *result_of(status.required("result")),
        errors,
        outputs,
    )


def run_started(event: Members) -> RunStarted:
    """Read the start of a run."""
    return RunStarted(*when(event), event.text("profile-name"), event.texts("cli-args"))


def run_finished(event: Members) -> RunFinished:
    """Read the end of a run."""
    stats = event.optional_inner("run-stats")
    single = stats.optional_inner("single") if stats else None
    return RunFinished(
        *when(event),
        time_of(event.inner("run-elapsed")),
        *unseen_of(event),
        single.whole_number("flaky") if single else None,
        single.whole_number("skipped") if single else None,
    )


def script_started(event: Members) -> ScriptStarted:
    """Read the start of a setup script."""
    return ScriptStarted(
        *when(event),
        event.whole_number("index"),
        event.text("script-id"),
        event.text("program"),
        event.texts("args"),
        stress_of(event),
    )


def script_finished(event: Members) -> ScriptFinished:
    """Read the end of a setup script."""
    end = attempt_end(event.inner("run-status"))
    return ScriptFinished(*when(event), event.whole_number("index"), end)


def test_started(event: Members) -> TestStarted:
    """Read the start of a test."""
    return TestStarted(*when(event), test_of(event), slot_of(event), stress_of(event))


def test_retried(event: Members) -> TestRetried:
    """Read the start of a further attempt."""
    test, slot, stress = test_of(event), slot_of(event), stress_of(event)
    return TestRetried(*when(event), test, slot, stress, *attempt_numbers(event))


def attempt_failed(event: Members) -> AttemptFailed:
    """Read the end of an attempt after which another one follows."""
    return AttemptFailed(*when(event), test_of(event), attempt_end(event.inner("run-status")))


def test_finished(event: Members) -> TestFinished:
    """Read the end of a test."""
    told = event.inner("run-statuses")
    ends = tuple(map(attempt_end, told.inner_list("statuses")))
    if not ends:
        raise WrongMember("'statuses' has no attempt")
    flaky_fails = told.optional_text("flaky-result") == "fail"
    return TestFinished(*when(event), test_of(event), ends, flaky_fails)


def test_skipped(event: Members) -> TestSkipped:
    """Read that a test was left out."""
    return TestSkipped(*when(event), test_of(event), event.text("reason"), stress_of(event))


READERS: Mapping[str, Callable[[Members], Event]] = {
    "run-started": run_started,
    "run-finished": run_finished,
    "run-begin-cancel": lambda it: RunCancelled(*when(it), it.text("reason")),
    "run-paused": lambda it: RunPaused(*when(it)),
    "run-continued": lambda it: RunContinued(*when(it)),
    "setup-script-started": script_started,
    "setup-script-finished": script_finished,
    "test-started": test_started,
    "test-retry-started": test_retried,
    "test-slow": lambda it: TestSlow(*when(it), test_of(it)),
    "test-attempt-failed-will-retry": attempt_failed,
    "test-finished": test_finished,
    "test-skipped": test_skipped,
}
