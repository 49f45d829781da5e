"""What cargo called: the test binaries and the doctests, each with its id and its program."""

from __future__ import annotations

import dataclasses
import functools
import os
import pathlib
import tomllib
from collections.abc import Iterable, Mapping, Sequence

from rezovamy_runs.collecting.cargo_call import Runner
from rezovamy_runs.collecting.records import RUSTDOC, Call
from rezovamy_runs.json_values import JsonObject
from rezovamy_runs.processes.jobs import Program
from rezovamy_runs.streams.messages import Artifact
from rezovamy_runs.streams.targets import LIBRARIES, Target, doctests_of, target_of
from rezovamy_runs.streams.texts import without_surrogates

RUSTDOC_VARIABLE, PACKAGE_VARIABLE = b"RUSTDOC", b"CARGO_PKG_NAME"
RUN_TOOL, RUN_TOOL_WORD = "--test-runtool", "--test-runtool-arg"
# Cargo gives this since its own messages are JSON.
JSON_ERRORS = ("--error-format", "json")


@dataclasses.dataclass(frozen=True)
class Binary:
    """A test binary, or the doctests of a library.

    `program` is the user's runner, if there is one, and the binary; `words` are what cargo gives it
    besides. `folder` is that of the package, None where cargo doesn't tell it.
    """

    target: Target
    program: Program
    words: tuple[str, ...]
    has_libtest: bool
    folder: pathlib.Path | None = None

    def with_words(self, words: Sequence[str]) -> Program:
        """Return the program with words of its own."""
        return self.program._replace(words=(*self.program.words, *words))

    @property
    def whole(self) -> Program:
        """Return the program as cargo calls it."""
        return self.with_words(self.words)


class Binaries:
    """Reads the calls of cargo, with what it said of the files that it built."""

    def __init__(self, artifacts: Iterable[Artifact], runners: Mapping[str, Runner]) -> None:
        self._artifacts = {
            os.path.realpath(artifact.executable): artifact
            for artifact in artifacts
            if artifact.executable
        }
        self._runners = runners

    def of(self, call: Call, rustdoc: str) -> Binary:
        """Return what a call is of, where the real rustdoc is this."""
        environment = dict(call.environment)
        own = os.environ.get("RUSTDOC")
        if own is None:
            environment.pop(RUSTDOC_VARIABLE, None)
        else:
            environment[RUSTDOC_VARIABLE] = os.fsencode(own)
        call = call._replace(environment=environment)
        return self._doctests(call, rustdoc) if call.kind == RUSTDOC else self._binary(call)

    def _runner(self, path: str) -> tuple[str, ...]:
        """Return the user's runner of a binary: that of its target, of which its path tells."""
        parts = pathlib.PurePath(path).parts
        for triple, runner in self._runners.items():
            if len(self._runners) == 1 or triple in parts:
                return runner.words
        return ()

    def _binary(self, call: Call) -> Binary:
        path, *words = call.words
        artifact = self._artifacts.get(os.path.realpath(os.path.join(call.directory, path)))
        runner = self._runner(path)
        program = Program((*runner, path), call.directory, call.environment)
        if artifact is None:
            name = without_surrogates(pathlib.PurePath(path).name)
            return Binary(Target(name), program, tuple(words), False)
        package = without_surrogates(os.fsdecode(call.environment.get(PACKAGE_VARIABLE, b"")))
        target = target_of(package, artifact.kind, without_surrogates(artifact.target))
        manifest = artifact.manifest_path
        folder = pathlib.Path(manifest).parent if manifest else None
        return Binary(target, program, tuple(words), has_libtest(artifact), folder)

    def _doctests(self, call: Call, rustdoc: str) -> Binary:
        words = list(call.words)
        crate = words[words.index("--crate-name") + 1] if "--crate-name" in words else "doctests"
        package = without_surrogates(os.fsdecode(call.environment.get(PACKAGE_VARIABLE, b"")))
        target = doctests_of(package or None, without_surrogates(crate))
        runner = self._runner(option_value(words, "--target") or "")
        own = words_of_rustdoc(words, runner)
        program = Program((rustdoc,), call.directory, call.environment)
        return Binary(target, program, tuple(own), False)


def option_value(words: Sequence[str], option: str) -> str | None:
    """Return the value that stands after an option, None where the option isn't there."""
    return next((value for word, value in zip(words, words[1:]) if word == option), None)


def words_of_rustdoc(words: Sequence[str], runner: Sequence[str]) -> list[str]:
    """Return the words of rustdoc as cargo gives them without the front end.

    The user's runner stands where that of the front end stood.
    """
    own: list[str] = []
    left = iter(words)
    for word in left:
        if word in (RUN_TOOL, RUN_TOOL_WORD):
            next(left, None)
        else:
            own.append(word)
    pairs = list(zip(own, own[1:]))
    if JSON_ERRORS in pairs:
        place = pairs.index(JSON_ERRORS)
        del own[place : place + 2]
    if runner:
        own += [RUN_TOOL, runner[0]]
        own += [part for word in runner[1:] for part in (RUN_TOOL_WORD, word)]
    return own


def has_libtest(artifact: Artifact) -> bool:
    """Tell whether a target is built with libtest: its manifest doesn't say `harness = false`."""
    try:
        manifest = manifest_at(artifact.manifest_path or "")
    except (OSError, ValueError):
        return True
    kind = "lib" if artifact.kind in LIBRARIES else artifact.kind
    tables = manifest.get(kind)
    listed = tables if isinstance(tables, list) else [tables]
    return not any(
        isinstance(table, dict)
        and (kind == "lib" or table.get("name") == artifact.target)
        and table.get("harness") is False
        for table in listed
    )


@functools.cache
def manifest_at(path: str) -> JsonObject:
    """Return the manifest at a path."""
    with open(path, "rb") as file:
        return tomllib.load(file)
