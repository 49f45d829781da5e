"""What the program's command `rerun` prints, and the words of cargo that run the tests again."""

from __future__ import annotations

import dataclasses
import json
import os
import re
from collections.abc import Collection, Mapping, Sequence

from rezovamy_runs.collecting.cargo_line import split_words
from rezovamy_runs.json_values import JsonObject, members_of
from rezovamy_runs.streams.targets import own_names

LINE = re.compile(r"(run|skip|gone) ([^ ]*) (.*)")
# A binary by the names that `targets.target_of` gives; no word of it can be taken for an option.
BINARY = re.compile(
    r"(?P<package>\w[\w-]*)(?:::(?:(?P<kind>bin|example|bench|doc)/)?(?P<name>\w[\w.-]*))?"
)
# A command line above some megabytes isn't started; the names of more tests than this go into
# another one.
MOST_BYTES = 500_000

TestNames = dict[str, list[str]]


class NoPlan(Exception):
    """Why a text is none that `rerun` prints."""


@dataclasses.dataclass
class Plan:
    """What is to be run again after a run, by binary; the information is for the next run's head.

    The tests of the run's list are those of `run` and of `skip`; those of `gone` have not passed,
    and the list lacks them. Those of `forgotten` were taken out of `run`. Of a rerun that is the
    same build as the run before, `is_same_build` says so.
    """

    info: JsonObject
    run: TestNames = dataclasses.field(default_factory=dict)
    skip: TestNames = dataclasses.field(default_factory=dict)
    gone: TestNames = dataclasses.field(default_factory=dict)
    forgotten: TestNames = dataclasses.field(default_factory=dict)
    is_same_build: bool = False

    def forget(self, binary_id: str, names: Collection[str]) -> None:
        """Let tests of a binary be run no more."""
        if names:
            forgotten = set(names)
            self.forgotten.setdefault(binary_id, []).extend(names)
            left = [name for name in self.run.pop(binary_id) if name not in forgotten]
            self.run.update({binary_id: left} if left else {})

    def listed(self, suites: Mapping[str, Sequence[str]]) -> TestNames:
        """Return the test list of the run together with these tests, by binary."""
        names: dict[str, dict[str, None]] = {}
        for part in (self.run, self.skip, suites):
            for binary_id, tests in part.items():
                names.setdefault(binary_id, {}).update(dict.fromkeys(tests))
        return {binary_id: list(tests) for binary_id, tests in names.items()}


def read(text: str) -> Plan:
    """Return the plan that a text of `rerun` is."""
    first, *lines = text.removesuffix("\n").split("\n")
    try:
        info = members_of(json.loads(first)).values
    except (ValueError, RecursionError):
        info = {}
    if "parent-run-id" not in info:
        raise NoPlan("line 1 has no rerun information")
    plan = Plan(info)
    tests = {"run": plan.run, "skip": plan.skip, "gone": plan.gone}
    for number, line in enumerate(lines, 2):
        found = LINE.fullmatch(line)
        if found is None:
            raise NoPlan(f"line {number} names no test")
        tests[found[1]].setdefault(found[2], []).append(found[3])
    return plan


@dataclasses.dataclass(frozen=True)
class Selection:
    """One run of cargo: the words that name a test binary, and those that name its tests.

    Without the second all of it runs.
    """

    target: list[str]
    tests: list[str]

    def words(self, given: list[str]) -> list[str]:
        """Return the words of `cargo test`, where others are given.

        After a word `--` are those for the binaries.
        """
        own, of_tests = split_words(given)
        after = [*of_tests, *self.tests]
        return [*own, *self.target, *(["--", *after] if after else [])]


def target_words(binary_id: str) -> list[str] | None:
    """Return the words by which cargo runs a binary alone; None where it has none."""
    found = BINARY.fullmatch(binary_id)
    if found is None:
        return None
    kind, name = found["kind"], found["name"]
    package = ["-p", found["package"]]
    if kind == "doc":
        return [*package, "--doc"]
    return [*package, f"--{kind or 'test'}", name] if name else [*package, "--lib"]


def runs_whole(binary_id: str, names: Collection[str]) -> bool:
    """Return whether all of a binary runs.

    Cargo takes no names of doctests, and a binary that failed by itself runs as it did.
    """
    return "::doc/" in binary_id or not set(names).isdisjoint(own_names(binary_id))


def parts_of(names: list[str]) -> list[list[str]]:
    """Split the names into parts, of which each fits a command line."""
    parts: list[list[str]] = [[]]
    size = 0
    for name in names:
        size += len(os.fsencode(name)) + 1
        if size > MOST_BYTES and parts[-1]:
            parts.append([])
            size = len(os.fsencode(name)) + 1
        parts[-1].append(name)
    return parts


def exact(names: list[str]) -> list[str]:
    """Return the words that have libtest run the tests of these names alone."""
    ends_options = ["--"] if any(name.startswith("-") for name in names) else []
    return ["--exact", *ends_options, *names]


def selections(plan: Plan) -> list[Selection]:
    """Return the runs of cargo that run the tests of a plan again, in the order of the binaries."""
    found = []
    for binary_id, names in plan.run.items():
        target = target_words(binary_id)
        if target and runs_whole(binary_id, names):
            found.append(Selection(target, []))
        elif target:
            found += [Selection(target, exact(part)) for part in parts_of(names)]
    return found


def is_nameless(plan: Plan) -> bool:
    """Return whether there is a test to run again of what cargo can't be asked for."""
    return any(target_words(binary_id) is None for binary_id in plan.run)


def not_found(plan: Plan, suites: Mapping[str, Sequence[str]]) -> list[str]:
    """Return a line for each binary with tests of a plan that a run lacks; `suites` are its tests.

    Cargo says nothing of these.
    """
    found = []
    for binary_id, names in plan.run.items():
        is_asked = target_words(binary_id) and not runs_whole(binary_id, names)
        there = set(suites.get(binary_id, ()))
        lacking = [name for name in names if name not in there] if is_asked else []
        if lacking:
            didnt_run = "no test of this name is there, as it is built now, so that it didn't run"
            found.append(f"{binary_id} {first_of(lacking)}: {didnt_run}")
    return found


def first_of(names: Sequence[str]) -> str:
    """Return the first of the names, and how many more there are."""
    return f"{names[0]}, and {len(names) - 1} more of it" if len(names) > 1 else names[0]


def remarks(plan: Plan) -> list[str]:
    """Return what the runs of cargo don't do as they should, a line each."""
    found = [remark_of(plan, binary_id, names) for binary_id, names in plan.run.items()]
    lacks = "the run's test list lacks it, so that it isn't run"
    gone = gone_tests(plan).items()
    return [
        *(remark for remark in found if remark is not None),
        *(f"{binary_id} {first_of(names)}: {lacks}" for binary_id, names in gone),
    ]


def remark_of(plan: Plan, binary_id: str, names: Sequence[str]) -> str | None:
    """Return what the run of a binary doesn't do as it should; None where it does."""
    if target_words(binary_id) is None:
        return f"{binary_id} {names[0]}: cargo has no word for it alone; run all tests again"
    if not plan.skip.get(binary_id):
        return None
    if "::doc/" in binary_id:
        return f"{binary_id}: cargo can't be given the names of doctests, so that all of them run"
    if runs_whole(binary_id, names):
        return f"{binary_id}: it may have failed by its own name, so that all of its tests run"
    return None


def gone_tests(plan: Plan) -> TestNames:
    """Return the tests that are gone.

    Failures of binaries themselves that have run well since aren't among them: these list their
    tests.
    """
    found = {}
    for binary_id, names in plan.gone.items():
        is_known = binary_id in plan.run or binary_id in plan.skip
        own = own_names(binary_id) if is_known else []
        found[binary_id] = [name for name in names if name not in own]
    return {binary_id: names for binary_id, names in found.items() if names}
