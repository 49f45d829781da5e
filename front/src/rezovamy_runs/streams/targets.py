"""The targets that cargo builds and tests, and what tells which of them runs."""

from __future__ import annotations

import dataclasses
import pathlib
import re
from collections.abc import Iterable

from rezovamy_runs.streams.cargo_metadata import Package
from rezovamy_runs.streams.messages import Artifact
from rezovamy_runs.streams.texts import without_surrogates

LIBRARIES = {"lib", "rlib", "dylib", "cdylib", "staticlib", "proc-macro"}
DOCTESTS = ("--doc",)
# How many characters stand after the name of a target in that of its file: `-` and 16 digits.
HASH_LENGTH = 17


@dataclasses.dataclass(frozen=True)
class Target:
    """What is tested: its id in a session, its package, and cargo's words to run it again.

    The package and the words may be unknown.
    """

    id: str
    package: str | None = None
    words: tuple[str, ...] | None = None


@dataclasses.dataclass(frozen=True)
class Announcement:
    """Cargo's words that say which binary or which doctests run next.

    `text` is what stands before them in the line. A binary has the name of its file, and perhaps
    the path of its source; doctests have the name of their crate.
    """

    text: str
    file_name: str | None = None
    source: str | None = None
    crate: str | None = None


def package_name(package_id: str) -> str:
    """Return the name of a package, of the id that cargo gives it."""
    path, _, tail = package_id.rpartition("#")
    if not path:
        return package_id.split(" ")[0]
    return tail.split("@")[0] if re.match(r"[^\d]", tail) else path.rstrip("/").rpartition("/")[2]


def target_of(package: str, kind: str, name: str) -> Target:
    """Return a target by the names that `cargo nextest` has for it."""
    if kind in LIBRARIES:
        return Target(package, package, ("--lib",))
    binary_id = f"{package}::{name}" if kind == "test" else f"{package}::{kind}/{name}"
    return Target(binary_id, package, (f"--{kind}", name))


def doctests_of(package: str | None, crate: str) -> Target:
    """Return the doctests of a crate."""
    return Target(f"{package or crate}::doc/{crate}", package, DOCTESTS)


def own_names(binary_id: str) -> list[str]:
    """Return the names that a test has by which a binary itself failed, the likeliest first."""
    return [
        binary_id.rpartition("::")[2].rpartition("/")[2],
        binary_id,
        f"({binary_id})",
    ]


def split_hint(hint: str) -> tuple[str | None, tuple[str, ...]]:
    """Split cargo's words to run a target again: the package if they name it, and the target."""
    words = tuple(hint.split())
    return (words[1], words[2:]) if words[:1] == ("-p",) and len(words) > 1 else (None, words)


def matches_hint(target: Target | None, hint: str) -> bool:
    """Return whether this is how cargo would say that the target is to be run again."""
    package, words = split_hint(hint)
    return target is None or (
        (None in (package, target.package) or package == target.package)
        and target.words in (None, words)
    )


def target_of_hint(hint: str) -> Target:
    """Return the target that cargo says failed, where no other line names it."""
    package, words = split_hint(hint)
    kind, name = (words[0].lstrip("-"), words[-1].lstrip("-")) if words else ("lib", "lib")
    made = target_of(package or "unknown", kind, name)
    is_named = package is not None or kind in LIBRARIES
    return Target(made.id if is_named else without_surrogates(name), package, words)


def shared_folders(folder: pathlib.PurePath, file: str) -> int:
    """Count the folders with which a path begins, and a package's folder ends."""
    above, below = folder.parts, pathlib.PurePosixPath(file.replace("\\", "/")).parts
    lengths = range(len(below))
    return max(
        (length for length in lengths if above[len(above) - length :] == below[:length]),
        default=0,
    )


class Targets:
    """The targets that cargo has built, by its lines of JSON, or by its words for people.

    `waiting` are test binaries that cargo has built and hasn't run yet, by their files, and
    `retracted` the files that a test announced, and cargo hasn't. `folders` are those of the
    packages of binaries, by the ids of these. Of the libraries of a name there are the packages
    with their folders: in `built_libraries` those that were built, in `libraries` those of a
    manifest. `sources` are the targets of a manifest by the paths of their sources and their names.
    """

    def __init__(self) -> None:
        self.built: dict[str, Target] = {}
        self.waiting: dict[str, Target] = {}
        self.retracted: set[str] = set()
        self.folders: dict[str, pathlib.Path] = {}
        self.built_libraries: dict[str, dict[str, pathlib.PurePath | None]] = {}
        self.libraries: dict[str, dict[str, pathlib.PurePath | None]] = {}
        self.sources: dict[tuple[str | None, str], list[Target]] = {}
        self.documented: set[tuple[str | None, str]] = set()
        self._names: dict[str, str] = {}

    def add_packages(self, packages: Iterable[Package]) -> None:
        """Learn of packages which targets their sources are."""
        for package in packages:
            folder = pathlib.Path(package.manifest_path).parent
            for target in package.targets:
                source = pathlib.Path(target.source)
                inside = source.is_relative_to(folder)
                path = (source.relative_to(folder) if inside else source).as_posix()
                crate = target.name.replace("-", "_")
                self.sources.setdefault((path, crate), []).append(
                    target_of(package.name, target.kind, target.name)
                )
                if target.kind in LIBRARIES:
                    self.libraries.setdefault(crate, {})[package.name] = folder

    def add_artifact(self, artifact: Artifact) -> None:
        """Take what cargo says it built."""
        package = without_surrogates(package_name(artifact.package_id))
        if artifact.executable is not None:
            self._add_executable(artifact, package, artifact.executable)
        if artifact.kind in LIBRARIES:
            # Those of a registry have no folder of the workspace.
            folder = pathlib.PurePosixPath(*re.split(r"[/\\]", artifact.manifest_path or "")[:-1])
            packages = self.built_libraries.setdefault(artifact.target.replace("-", "_"), {})
            packages[package] = folder if "path+" in artifact.package_id else None

    def _add_executable(self, artifact: Artifact, package: str, executable: str) -> None:
        file_name = re.split(r"[/\\]", executable)[-1].removesuffix(".exe")
        target = target_of(package, artifact.kind, without_surrogates(artifact.target))
        self.built[file_name] = target
        if artifact.manifest_path is not None:
            self.folders[target.id] = pathlib.Path(artifact.manifest_path).parent
        if artifact.is_test:
            self.waiting[file_name] = target

    def announced(self, announcement: Announcement) -> Target | None:
        """Return the target that runs next; None where it isn't one that was built."""
        if announcement.crate is not None:
            return self._doctests(announcement.crate)
        return self._binary(announcement.file_name or "", announcement.source)

    @property
    def are_named(self) -> bool:
        """Whether cargo has named what it built, so that nothing else is believed."""
        return bool(self.built or self.built_libraries)

    def restore(self, waiting: dict[str, Target], documented: set[tuple[str | None, str]]) -> None:
        """Take back the announcements since a place at which these were waiting and documented."""
        self.retracted |= waiting.keys() - self.waiting.keys()
        self.waiting, self.documented = waiting, documented

    def never_ran(self) -> list[Target]:
        """Return the targets that a test announced, and that cargo never ran."""
        names = sorted(name for name in self.retracted if name in self.waiting)
        self.retracted = set()
        return [self.waiting[name] for name in names]

    def can_fail(self, hint: str) -> bool:
        """Return whether cargo can say that the target of a hint failed.

        Once it has named what it built, the target is one of these.
        """
        words = split_hint(hint)[1]
        known = (target.words for target in self.built.values())
        return not self.built or words == DOCTESTS or words in known

    def failed(self, hint: str) -> Target:
        """Return the target that cargo says failed."""
        for target in self.built.values():
            if matches_hint(target, hint):
                return target
        return target_of_hint(hint)

    def doctests_by_file(self, target: Target, name: str) -> Target:
        """Return the doctests to which one of this name belongs.

        Where several packages have a library of that name, the test's file tells the package.
        """
        crate = target.id.rpartition("/")[2]
        folders = self._library_folders(crate)
        if len(folders) < 2:
            return target
        file = name.partition(" - ")[0]
        shared = {package: shared_folders(folder, file) for package, folder in folders.items()}

        # What isn't in a folder that has a package's name is in the package at the top.
        def rank(package: str) -> tuple[int, int, bool]:
            return (
                -shared[package],
                len(folders[package].parts),
                package != target.package,
            )

        return doctests_of(min(folders, key=rank), crate)

    def _library_folders(self, crate: str) -> dict[str, pathlib.PurePath]:
        """Return the packages that have a library of this name, with their folders.

        Those of a registry are among them only where there is no other one.
        """
        found = (self.built_libraries or self.libraries).get(crate.replace("-", "_"), {})
        own = {package: folder for package, folder in found.items() if folder}
        return own or dict.fromkeys(found, pathlib.PurePosixPath())

    def _doctests(self, crate: str) -> Target | None:
        """Return the doctests of a library; None where it isn't one that was built.

        Of several packages that have one of its name it is the next one, in the order of their
        names, in which cargo takes them.
        """
        packages = sorted(self._library_folders(crate))
        if self.built_libraries and not packages:
            return None
        left = [package for package in packages if (package, crate) not in self.documented]
        package = next(iter(left or packages), None)
        self.documented.add((package, crate))
        return doctests_of(package, without_surrogates(crate))

    def _binary(self, file_name: str, source: str | None) -> Target | None:
        """Return the target of a file; None where it isn't one that was built.

        Two of which only the files are known may differ in their hashes alone.
        """
        if self.built:
            self.waiting.pop(file_name, None)
            return self.built.get(file_name)
        stem = file_name[:-HASH_LENGTH]
        path = source.replace("\\", "/") if source else source
        found = self.sources.get((path, stem.replace("-", "_")), [])
        if len(found) == 1:
            return found[0]
        if file_name not in self._names:
            self._names[file_name] = self._free_name(without_surrogates(stem))
        return Target(self._names[file_name])

    def _free_name(self, name: str) -> str:
        """Return the name, or one with a number where another file has it."""
        taken = set(self._names.values())
        numbered = (f"{name}-{number}" for number in range(2, len(taken) + 3))
        return name if name not in taken else next(one for one in numbered if one not in taken)
