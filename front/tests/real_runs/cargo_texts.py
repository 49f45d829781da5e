"""What `cargo test` prints for people of the tests that ran."""

from __future__ import annotations

import re
from typing import NamedTuple

ENDED = re.compile(
    r".*?test (.+?)(?: - should panic| - compile fail)? \.\.\. (ok|FAILED|ignored)(?:, .*)?"
)
TARGET = re.compile(
    r".*?\s(?:Running (?:unittests )?(\S+) \(\S*/([^/]+)-[0-9a-f]{16}\)|Doc-tests (\S+))"
)
FAILED_TARGET = re.compile(r"    `(-p .+)`")
CAUSE = re.compile(
    r".*error: (?:test|doctest) failed, to rerun pass `([^`]+)`\n\nCaused by:\n.* \(([^()]+)\)\n"
)
OUTCOMES = {"ok": "passed", "FAILED": "exit 101", "ignored": "ignored"}


class EndedTest(NamedTuple):
    """A test by cargo's words for its target, and how it ended."""

    target: str
    test: str
    outcome: str


def target_words(binary: str) -> str:
    """Return the words by which cargo runs a binary of a session again."""
    package, _, target = binary.partition("::")
    kind, _, name = target.rpartition("/")
    words = "--lib" if not target else "--doc" if kind == "doc" else f"--{kind or 'test'} {name}"
    return f"-p {package} {words}"


def ended_tests(printed: str) -> list[EndedTest]:
    """Return the tests of both packages of which cargo says how they ended."""
    found = []
    package, target = "ends", ""
    for line in printed.splitlines():
        if section := TARGET.fullmatch(line):
            path, name, crate = section.groups()
            package = crate or ("names" if name == "names" else package)
            target = target_of(path, name)
        elif said := ENDED.fullmatch(line):
            found.append(EndedTest(f"-p {package} {target}", said[1], OUTCOMES[said[2]]))
    return found


def target_of(path: str | None, name: str) -> str:
    """Return cargo's words for a target of the package, whose source is at a path."""
    if path is None:
        return "--doc"
    if path == "src/lib.rs":
        return "--lib"
    return f"--{'bin' if 'bin/' in path else 'test'} {name}"


def failed_targets(printed: str) -> set[str]:
    """Return the words for each target that cargo names as failed."""
    return set(FAILED_TARGET.findall(printed))


def ends_of_processes(printed: str) -> list[tuple[str, str]]:
    """Return the words for each target whose process cargo tells the end of, and that end."""
    return [(words, end_of(cause)) for words, cause in CAUSE.findall(printed)]


def end_of(cause: str) -> str:
    """Return the signal or the status that ended a process."""
    name = re.search(r"SIG\w+", cause) if "signal" in cause else None
    return name[0] if name else f"exit {cause.split()[-1]}"
