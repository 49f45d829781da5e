"""Random streams: whatever lines come in whatever order, the events don't contradict each other."""

from __future__ import annotations

import itertools
import random
from collections.abc import Iterator

import pytest

from rezovamy_runs.commands.session_from_libtest import NoSession
from tests.stream_notation import (
    CAUSE,
    DOC,
    FAILED,
    INTEGRATION,
    NAMED,
    NOT_BUILT,
    OTHER,
    UNIT,
    Json,
    convert,
    stream,
)

NAMES = ("a", "b", "c", "s", "t", "(build)")
TIMES = ("", "", " 1", " 0.5", " 70")
STREAMS = 250
CARGO_LINES = [
    UNIT,
    INTEGRATION,
    OTHER,
    DOC,
    FAILED,
    FAILED,
    CAUSE % "signal: 9, SIGKILL: kill",
    CAUSE % "exit code: 0xc0000005, X",
    NOT_BUILT,
    *NAMED.split(" > "),
]


class Streams:
    """Makes streams of the lines that libtest, cargo and nextest print."""

    def __init__(self, seed: int) -> None:
        self.random = random.Random(seed)

    def one_of(self, *choices: str) -> str:
        """Choose a text."""
        return self.random.choice(choices)

    def line(self, with_nextest: bool) -> str:
        """Make a line."""
        name, taken = self.one_of(*NAMES), self.one_of(*TIMES)
        suite = self.one_of("suite 0", "suite 1", "suite 3", "end", "end 1")
        test = self.one_of(
            f"started {name}",
            f"started {name}",
            f"ok {name}{taken}",
            f"failed {name}{taken}",
            f"ignored {name}",
            f"timeout {name}",
        )
        cargo, text = self.one_of(*CARGO_LINES), self.one_of("=text", "=text|")
        words = [suite, test, test, test, cargo, text]
        if with_nextest:
            kind = self.one_of("started", "ok", "failed", "timeout")
            attempt = self.one_of("", "#2", "#3")
            words += ["suite 2 plus", "end - plus", f"{kind} a::t${name}{attempt}{taken}"]
        return self.one_of(*words)

    def next(self) -> tuple[str, list[str], bool]:
        """Make a stream in brief, options for it, and whether it has a clock."""
        with_nextest = self.random.choice([True, False, False])
        count = self.random.randrange(1, 25)
        words = " > ".join(self.line(with_nextest) for _ in range(count))
        status = self.one_of("", "", "0", "101", "137")
        options = ["--status", status] if status else []
        return words, options, self.random.choice([True, False])


class Events:
    """Follows the events of a session, and demands that none contradicts another."""

    def __init__(self, head: Json) -> None:
        self.suites = head["test-list"]["suites"]
        self.slots: dict[tuple[str, str], int] = {}
        self.last: tuple[int, int] | None = None
        self.finished = 0

    def follow(self, event: Json) -> None:
        """Take the next event."""
        kind, test = event["kind"], event.get("test-instance")
        moment = event["timestamp"]["secs"], event["timestamp"]["nanos"]
        assert self.last is None or self.last <= moment, f"an earlier instant at {event}"
        self.last = moment
        if test is None:
            return
        key = test["binary-id"], test["test-name"]
        assert key[1] in self.suites[key[0]], f"a test that isn't listed at {event}"
        if kind in ("test-started", "test-retry-started"):
            slot = event["slot-assignment"]["global-slot"]
            is_free = key not in self.slots and slot not in self.slots.values()
            assert is_free, f"a test or a slot that is taken at {event}"
            self.slots[key] = slot
        elif kind != "test-skipped":
            assert key in self.slots, f"a test that doesn't run at {event}"
        if kind in ("test-finished", "test-attempt-failed-will-retry"):
            self.slots.pop(key, None)
            self.finished += kind == "test-finished"

    def end(self, event: Json) -> None:
        """Take the run's end, which counts what came, and names what didn't end."""
        counts = event["run-stats"]["single"]
        unseen = event.get("outstanding-not-seen", {"not-seen": [], "total-not-seen": 0})
        ended = counts["passed"] + counts["failed"] + counts["failed-timed-out"]
        assert counts["finished-count"] == self.finished == ended
        assert counts["initial-run-count"] == self.finished + unseen["total-not-seen"]
        missing = [(test["binary-id"], test["test-name"]) for test in unseen["not-seen"]]
        assert sorted(self.slots) == sorted(missing)


def streams() -> Iterator[tuple[str, list[str], bool]]:
    """Return the random streams."""
    made = Streams(1)
    return (made.next() for _ in range(STREAMS))


@pytest.mark.parametrize(("words", "options", "has_clock"), streams(), ids=range(STREAMS))
def test_a_random_stream(words: str, options: list[str], has_clock: bool) -> None:
    """The events of its session don't contradict each other, if there is a session."""
    ticks = itertools.count(10**18, 10**6).__next__ if has_clock else None
    try:
        values = convert(stream(words), *options, source=ticks).values
    except NoSession:
        return
    events = Events(values[0])
    for value in values[1:]:
        events.follow(value)
    events.end(values[-1])
