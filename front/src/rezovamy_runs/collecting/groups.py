"""The tests of each binary as a group, which runs in one process as `cargo test` runs it."""

from __future__ import annotations

from collections.abc import Iterable, Sequence

from rezovamy_runs.collecting.collect import Listed
from rezovamy_runs.collecting.test_words import options_of
from rezovamy_runs.processes.jobs import Group, Job
from rezovamy_runs.streams.targets import own_names

EVENTS = ("-Z", "unstable-options", "--format", "json", "--show-output")
# What stands in the words already, or what libtest rejects beside them.
REPLACED = ("--show-output", "-q", "--quiet")
# With this value libtest has its unstable options, and a compiler that a test runs is stable.
BOOTSTRAP, STABLE_COMPILER = b"RUSTC_BOOTSTRAP", b"-1"


def groups_of(listed: Iterable[Listed]) -> list[Group]:
    """Return the groups of those binaries that have libtest and tests to run."""
    return [group_of(one) for one in listed if any(job.runs_tests for job in one.jobs)]


def group_of(listed: Listed) -> Group:
    """Return the group of a binary."""
    binary, first = listed.binary, listed.jobs[0]
    environment = {BOOTSTRAP: STABLE_COMPILER, **binary.program.environment}
    names = {job.test_name for job in listed.jobs}
    own = own_names(binary.target.id)
    itself = next((name for name in own if name not in names), own[-1])
    return Group(
        binary.program._replace(environment=environment),
        (*EVENTS, *words_beside_events(binary.words)),
        listed.jobs,
        Job(binary.target.id, itself, binary.whole, runs_tests=False),
        frozenset(listed.ignored),
        first.log_file,
    )


def words_beside_events(words: Sequence[str]) -> list[str]:
    """Return the words of a binary without those that say how events are printed."""
    kept: list[str] = []
    filters: list[str] = []
    for option, value in options_of(words):
        if option == "":
            filters.append(value or "")
        elif option not in REPLACED and (option, value) != ("-Z", "unstable-options"):
            kept += [option] if value is None else [option, value]
    return [*kept, *(["--", *filters] if filters else [])]
