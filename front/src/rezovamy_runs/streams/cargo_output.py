"""What cargo says for people: which binary runs, what failed and how, and why a build failed."""

from __future__ import annotations

import re

from rezovamy_runs.streams.targets import Announcement
from rezovamy_runs.streams.test_runs import FAILED, Ending

RUNNING = re.compile(r"\bRunning\b")
SOURCE = re.compile(r"\bRunning (?:unittests )?([^\s`]+) \(")
FILE = re.compile(r"[/\\]([^/\\\s]+?-[0-9a-f]{16})(?:\.exe)?(?=[)`'\s]|\Z)")
DOC_TESTS = re.compile(r"(.*?)\bDoc-tests (\S+)", re.S)
FAILURE = re.compile(r"(.*?)error: (?:test|doctest|bench) failed, to rerun pass `([^`]*)`\s*", re.S)
CAUSE = re.compile(
    r"\s*process didn't exit successfully: `.*` \(([^()]*(?:\([^()]*\)[^()]*)?)\)\s*",
    re.S,
)
SIGNAL = re.compile(r"signal: (\d{1,3})(?:, (SIG\w+))?.*", re.S)
EXIT = re.compile(r"exit (?:status|code): (-?\d{1,10}|0x[0-9a-fA-F]{1,8}).*", re.S)
ERROR = re.compile(r"error(?:\[\w+\])?: .*", re.S)
NOT_COMPILED = re.compile(r"error: could not compile .*", re.S)
# One of these stands in each line of cargo's that one of the patterns above finds.
WORDS = ("Running", "Doc-tests", "error", "process didn't exit successfully")


def ending_of(cause: str) -> Ending:
    """Return how a process ended, as cargo says it."""
    signal, code = SIGNAL.fullmatch(cause), EXIT.fullmatch(cause)
    if signal:
        return Ending(None, int(signal[1]), signal[2], cause)
    number = int(code[1], 0) if code else 101
    number = number - 2**32 if 2**31 <= number < 2**32 else number
    return Ending(number if abs(number) < 2**31 else FAILED.code, None, None, cause)


def announcement_of(line: str) -> Announcement | None:
    """Return cargo's announcement of a binary or of doctests; None where a line is none."""
    line = line.rstrip()
    binary = binary_announcement(line)
    if binary:
        return binary
    doctests = DOC_TESTS.fullmatch(line)
    return Announcement(doctests[1].rstrip(), crate=doctests[2]) if doctests else None


def binary_announcement(line: str) -> Announcement | None:
    """Return cargo's announcement of a binary; None where a line is none.

    The parts are searched one by one, so that a line of any length takes no more time than it has
    characters.
    """
    first = RUNNING.search(line)
    files = list(FILE.finditer(line, first.end())) if first else []
    if not first or not files:
        return None
    sources = list(SOURCE.finditer(line, 0, files[-1].start()))
    begin = sources[-1] if sources else first
    source = sources[-1][1] if sources else None
    return Announcement(line[: begin.start()].rstrip(), files[-1][1], source)
