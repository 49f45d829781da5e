"""Why tests failed: those with one cause are one group.

A cause is what a test said, without the numbers and addresses in it; or a crash, a timeout or
another end without words.
"""

from __future__ import annotations

import dataclasses
import re
from collections.abc import Sequence
from typing import NotRequired, TypedDict

from rezovamy_runs.escapes import without_escapes
from rezovamy_runs.model import Attempt, Result

PANIC = re.compile(
    r"(?:thread '[^\n]*' (?:\(\d+\) )?)?panicked at (?P<place>\S[^\n]*?:\d+):\d+:?\s*(?P<said>.*)",
    re.S,
)
# A message that doesn't say what is wrong, so where it stands is a part of the cause.
BARE = re.compile(r"(?:assertion `[^`\n]*` failed|explicit panic|not (?:yet )?implemented)?$")
NUMBER = re.compile(r"0x[0-9a-fA-F]+|\b(?=[a-f]*\d)[0-9a-f]{8,}\b|\d+(?:[.,:]\d+)*")
CRASH = re.compile(r"the test binary ended while this test ran: ([^\n]*)\n(No other test|Beside)")
ANY_NUMBER = "…"
LONGEST = 300
FLAKY_FAILS = "it passed at a later attempt, which counts as a failure"
ENDINGS = {
    Result.FAIL: "failed",
    Result.ABORT: "crashed",
    Result.EXEC_FAIL: "couldn't be started",
    Result.TIMEOUT: "timed out",
    Result.LEAK_FAIL: "passed, and left a process that holds its output open",
    Result.UNFINISHED: "never ended",
}
# The ends of which the errors say why.
TELLING = (Result.FAIL, Result.EXEC_FAIL)


class PageCause(TypedDict):
    """A cause with the places of its tests; if it is `shared`, one of them crashed the others."""

    title: str
    tests: list[int]
    shared: NotRequired[bool]


@dataclasses.dataclass(frozen=True)
class Cause:
    """Why a test failed: `key` is the same for all tests with this cause."""

    key: str
    title: str
    is_shared: bool = False


def without_numbers(text: str) -> str:
    """Return a text with one sign in place of each number and address."""
    return NUMBER.sub(ANY_NUMBER, text)


def first_line(text: str) -> str:
    """Return the first line of a text that isn't empty, or the beginning of a long one."""
    line = next((line.strip() for line in text.split("\n") if line.strip()), "")
    return line[:LONGEST]


def cause_of_message(text: str) -> Cause:
    """Return the cause that errors tell."""
    found = PANIC.match(text)
    said = first_line(found["said"] if found else text)
    if found and BARE.match(said):
        title = f"{said or 'panicked'} at {first_line(found['place'])}"
        return Cause(title, title)
    return Cause(without_numbers(said), said)


def cause_of(binary: str, attempts: Sequence[Attempt]) -> Cause:
    """Return why a test of a binary, or a setup script, didn't pass."""
    bad = next((one for one in reversed(attempts) if not one.passed), None)
    if not attempts or bad is None or attempts[-1].passed:
        title = FLAKY_FAILS if attempts else ENDINGS[Result.UNFINISHED]
        return Cause(title, title)
    errors = without_escapes(bad.errors or "").strip()
    if crash := CRASH.match(errors):
        title = f"{binary} ended while these tests ran: {crash[1].strip()}"
        return Cause(title, title, crash[2] == "Beside")
    if bad.result not in TELLING or not errors:
        ending = ENDINGS[bad.result]
        title = f"{ending}, {bad.detail}" if bad.detail else ending
        return Cause(title, title)
    return cause_of_message(errors)


def grouped(causes: Sequence[tuple[int, Cause]]) -> list[PageCause]:
    """Return the groups of tests, given by their places, the largest group first."""
    groups: dict[str, list[tuple[int, Cause]]] = {}
    for place, cause in causes:
        groups.setdefault(cause.key, []).append((place, cause))
    found = []
    for key, members in sorted(groups.items(), key=lambda group: -len(group[1])):
        titles = {cause.title for _, cause in members}
        made: PageCause = {
            "title": titles.pop() if len(titles) == 1 else key,
            "tests": [place for place, _ in members],
        }
        if len(members) > 1 and members[0][1].is_shared:
            made["shared"] = True
        found.append(made)
    return found
