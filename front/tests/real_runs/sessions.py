"""Sessions of real runs, and what they say of tests."""

from __future__ import annotations

import dataclasses
import json
import re
import subprocess
from collections.abc import Sequence
from typing import NamedTuple

from rezovamy_runs.json_values import JsonObject, Members, members_of
from tests import FRONT
from tests.real_runs.cargo_runs import Cargo, event_words

TOOL = str(FRONT / "session_from_libtest")


class Outcome(NamedTuple):
    """How a test ended, each of its attempts by a name or a status."""

    binary: str
    test: str
    ended: str


@dataclasses.dataclass(frozen=True)
class Attempt:
    """An attempt of a test that ended: its start and its length are nanoseconds."""

    ended: str
    errors: str
    printed: str
    start: int
    taken: int

    @classmethod
    def of(cls, status: Members) -> Attempt:
        """Return the attempt that has a status."""
        output = status.inner("output").inner("output")
        printed = output.inner("output").optional_text("combined") or ""
        return cls(
            ended=ended_of(status.required("result")),
            errors="\n".join(output.optional_texts("errors")),
            printed=bytes.fromhex(printed).decode(),
            start=nanoseconds(status.inner("start-time")),
            taken=nanoseconds(status.inner("time-taken")),
        )


@dataclasses.dataclass(frozen=True)
class Event:
    """A line of a session after its head; what is of no test has no binary and no test."""

    kind: str
    binary: str
    test: str
    at: int
    attempts: tuple[Attempt, ...]
    members: Members

    @classmethod
    def of(cls, members: Members) -> Event:
        """Return the event that has these members."""
        test = members.optional_inner("test-instance")
        ended = members.optional_inner("run-statuses")
        return cls(
            kind=members.text("kind"),
            binary=test.text("binary-id") if test else "",
            test=test.text("test-name") if test else "",
            at=nanoseconds(members.inner("timestamp")),
            attempts=tuple(map(Attempt.of, ended.inner_list("statuses"))) if ended else (),
            members=members,
        )

    @property
    def outcome(self) -> Outcome | None:
        """How the test ended, if it did."""
        if self.kind == "test-skipped":
            return Outcome(self.binary, self.test, "ignored")
        if self.kind == "test-finished":
            ended = ", ".join(attempt.ended for attempt in self.attempts)
            return Outcome(self.binary, self.test, ended)
        return None

    @property
    def said(self) -> str:
        """What is said of the end of the test."""
        if self.attempts:
            return self.attempts[-1].errors
        return self.members.optional_text("message") or ""


@dataclasses.dataclass(frozen=True)
class Session:
    """The bytes of a session, and its values."""

    text: bytes
    head: Members
    events: tuple[Event, ...]

    @classmethod
    def of(cls, text: bytes) -> Session:
        """Return the session that is written so."""
        head, *events = [members_of(json.loads(line)) for line in text.splitlines()]
        return cls(text, head, tuple(map(Event.of, events)))

    @property
    def status(self) -> JsonObject:
        """How the run ended."""
        return self.head.inner("status").values

    @property
    def binaries(self) -> list[str]:
        """The test binaries, in the order in which they are listed."""
        return list(self.head.inner("test-list").inner("suites").values)

    @property
    def not_seen(self) -> object:
        """Which tests never ended, as the end of the run tells."""
        return self.events[-1].members.required("outstanding-not-seen")

    @property
    def ends(self) -> list[Event]:
        """The events by which tests end."""
        return [event for event in self.events if event.outcome]

    @property
    def said_outcomes(self) -> list[tuple[Outcome, str]]:
        """How each test ended, in order, and what is said of it."""
        return sorted((event.outcome, event.said) for event in self.events if event.outcome)

    @property
    def outcomes(self) -> list[Outcome]:
        """How each test ended, in order."""
        return [outcome for outcome, _ in self.said_outcomes]

    @property
    def failed_binaries(self) -> set[str]:
        """The binaries of which a test failed in any attempt."""
        return {binary for binary, _, ended in self.outcomes if re.search("exit|SIG", ended)}


def nanoseconds(span: Members) -> int:
    """Return an instant or a length of time in nanoseconds."""
    return span.whole_number("secs") * 10**9 + span.whole_number("nanos")


def ended_of(result: object) -> str:
    """Return how an attempt ended, as `outcomes.txt` has it."""
    if result == "pass":
        return "passed"
    failure = members_of(result).inner("fail").inner("failure")
    if failure.has("abort"):
        return failure.inner("abort").text("name")
    return f"exit {failure.whole_number('exit-code')}"


def tool_output(lines: bytes, *options: str, status: int = 0) -> bytes:
    """Return what the tool prints for these lines, and see that it ends so."""
    words = [TOOL, "--no-clock", *options]
    done = subprocess.run(words, input=lines, capture_output=True, check=False)
    assert done.returncode == status, done.stderr.decode()
    return done.stdout


def session_of(lines: bytes, *options: str) -> Session:
    """Return the session that the tool makes of these lines."""
    return Session.of(tool_output(lines, *options))


def live_session(
    cargo: Cargo, runs: Sequence[Sequence[str]], tests: Sequence[str] = ()
) -> tuple[bytes, Session]:
    """Return what runs of cargo print, and the session that the tool makes meanwhile."""
    printed = []
    with subprocess.Popen(
        [TOOL], stdin=subprocess.PIPE, stdout=subprocess.PIPE, stderr=subprocess.DEVNULL
    ) as tool:
        assert tool.stdin is not None
        for line in cargo.live_lines([event_words(words, tests) for words in runs]):
            printed.append(line)
            tool.stdin.write(line)
            tool.stdin.flush()
        text = tool.communicate()[0]
    assert tool.returncode == 0
    return b"".join(printed), Session.of(text)
