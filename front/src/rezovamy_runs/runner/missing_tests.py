"""Tells which tests of a plan are gone, so that no rerun asks for them again.

A test that a binary lacks may have been deleted; it may also have another name now, or be built
only with other words. It is gone where the build was asked for with the same words, no source of
its package has its name, and the binary has no test that is new.
"""

from __future__ import annotations

import dataclasses
import os
import pathlib
import re
from collections.abc import Collection, Iterator

from rezovamy_runs import cargo
from rezovamy_runs.bundles import bundle
from rezovamy_runs.collecting.cargo_line import split_words
from rezovamy_runs.faults.fault import Fault
from rezovamy_runs.runner import rerun_plan
from rezovamy_runs.runner.rerun_plan import Plan
from rezovamy_runs.streams.cargo_metadata import Package, packages_of
from rezovamy_runs.streams.run_state import RunState
from rezovamy_runs.streams.targets import LIBRARIES, doctests_of, own_names, target_of

# The words of cargo that decide what is built, those with a value apart.
FLAGS = {"--all-features", "--no-default-features", "--release", "-r"}
VALUES = (
    "--features",
    "-F",
    "--profile",
    "--target",
    "--config",
    "-Z",
    "--manifest-path",
)
# The file of a target directory by which cargo knows its compiler again.
BUILT_MARK = ".rustc_info.json"


def build_words(words: list[str]) -> list[tuple[str, ...]]:
    """Return those of the words of `cargo test` that decide what is built."""
    own, _ = split_words(words)
    found: list[tuple[str, ...]] = []
    for place, word in enumerate(own):
        option = next((option for option in VALUES if word.startswith(option)), None)
        if option and word == option:
            found.append((option, *own[place + 1 : place + 2]))
        elif option or word in FLAGS or word.startswith("+"):
            found.append((word,))
    return sorted(found)


def is_same_build(first: pathlib.Path, words: list[str]) -> bool:
    """Return whether the words ask for the build of the run with which a row of reruns began.

    Its bundle may be gone.
    """
    try:
        before = list(bundle.read_summary(first).cli_args)
    except (FileNotFoundError, Fault):
        return False
    is_cargo = list(before[:2]) == ["cargo", "test"]
    return is_cargo and build_words(list(before[2:])) == build_words(words)


def forget_targets(plan: Plan, manifest: str | None) -> list[str]:
    """Take out of a plan the binaries whose targets no package has any more; a line for each."""
    if not any(map(rerun_plan.target_words, plan.run)):
        return []
    try:
        packages = packages_of(cargo.metadata(manifest))
    except cargo.FAULTS:
        return []
    ids = {package.name: ids_of(package) for package in packages}
    found = []
    for binary_id, names in list(plan.run.items()):
        package = binary_id.partition("::")[0]
        is_asked = package in ids and rerun_plan.target_words(binary_id)
        if is_asked and binary_id not in ids[package]:
            told = f"{package} has no such target any more, so that it isn't run"
            found.append(f"{binary_id} {rerun_plan.first_of(names)}: {told}")
            plan.forget(binary_id, names)
    return found


def ids_of(package: Package) -> set[str]:
    """Return the ids that the test binaries and the doctests of a package may have."""
    libraries = [target.name for target in package.targets if target.kind in LIBRARIES]
    documented = {doctests_of(package.name, name.replace("-", "_")).id for name in libraries}
    targets = (target_of(package.name, target.kind, target.name) for target in package.targets)
    return documented | {target.id for target in targets}


def forget_tests(plan: Plan, state: RunState) -> None:
    """Take out of a plan the tests that are gone by what a run of it has told."""
    for binary_id, names in list(plan.run.items()):
        runs = [binary for binary in state.binaries if binary.id == binary_id]
        there = {test.name for binary in runs for test in binary.tests()}
        if runs and all(binary.is_complete() for binary in runs):
            number, folder = runs[-1].number_of_tests(), state.targets.folders.get(binary_id)
            forget(plan, names, Found(binary_id, there, number, folder))


@dataclasses.dataclass(frozen=True)
class Found:
    """The tests that are there of a binary: their names as far as they are known, and how many.

    `folder` is that of the package, None where nothing says it.
    """

    binary_id: str
    names: Collection[str]
    number: int
    folder: pathlib.Path | None


def forget(plan: Plan, names: Collection[str], found: Found) -> None:
    """Take out of a plan those tests of a binary that are gone."""
    lacking = [name for name in names if name not in found.names]
    if lacking:
        plan.forget(found.binary_id, MissingTests(plan, found, lacking).gone())


class MissingTests:
    """The tests of a plan that their binary lacks."""

    def __init__(self, plan: Plan, found: Found, names: Collection[str]) -> None:
        self.plan, self.found, self.names = plan, found, names

    def gone(self) -> list[str]:
        """Return those that are gone."""
        return [name for name in self.names if self._is_gone(name)]

    def _is_gone(self, name: str) -> bool:
        binary_id, folder = self.found.binary_id, self.found.folder
        if name in own_names(binary_id):
            # The binary failed by its own name before, and ended well now.
            return rerun_plan.runs_whole(binary_id, self.plan.run[binary_id])
        if not self.plan.is_same_build:
            return False
        if "::doc/" in binary_id:
            return True
        is_known = self.found.number <= self._number_known()
        return is_known and folder is not None and not is_named(folder, name)

    def _number_known(self) -> int:
        """Count the tests of the binary that the plan names, without those that it lacks."""
        binary_id, plan = self.found.binary_id, self.plan
        named = {*plan.run[binary_id], *plan.skip.get(binary_id, ())}
        return len(named - set(own_names(binary_id))) - len(self.names)


def is_named(folder: pathlib.Path, name: str) -> bool:
    """Return whether a source of a package has the last part of a test's name as a word."""
    word = re.compile(rf"\b{re.escape(name.rpartition('::')[2])}\b")
    return any(word.search(text_of(path)) for path in sources(folder))


def sources(folder: pathlib.Path) -> Iterator[pathlib.Path]:
    """Return the sources below a folder, without those in what cargo has built."""
    for place, folders, names in os.walk(folder):
        folders[:] = [
            one for one in folders if not os.path.exists(os.path.join(place, one, BUILT_MARK))
        ]
        yield from (pathlib.Path(place, one) for one in names if one.endswith(".rs"))


def text_of(path: pathlib.Path) -> str:
    """Return the text of a source; nothing of one that can't be read."""
    try:
        return path.read_text(errors="replace")
    except OSError:
        return ""


def lines(plan: Plan, suites: Collection[str]) -> list[str]:
    """Return a line for each binary that ran, and of which tests were found to be gone."""
    found = []
    for binary_id, names in plan.forgotten.items():
        named = [name for name in names if name not in own_names(binary_id)]
        if named and binary_id in suites:
            told = "it is gone, since neither the binary nor a source has a test of this name"
            found.append(f"{binary_id} {rerun_plan.first_of(named)}: {told}")
    return found
