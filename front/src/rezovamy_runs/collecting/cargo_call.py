"""The words of `cargo test`, and the call of cargo that collects instead of running tests."""

from __future__ import annotations

import dataclasses
import json
import pathlib
from collections.abc import Mapping, Sequence

from rezovamy_runs.collecting import test_words
from rezovamy_runs.collecting.cargo_line import has_option, split_words
from rezovamy_runs.faults.fault import Fault

# With these no test runs, or the front end can't read what was built.
WITHOUT_TESTS = ("--no-run", "--help", "-h", "--version", "-V", "--list")
OPTIONS_OF_CARGO = ("--config", "--target")


@dataclasses.dataclass(frozen=True)
class CargoWords:
    """The words of `cargo test`: a toolchain as `+nightly`, cargo's own, and the binaries'."""

    toolchain: tuple[str, ...]
    own: tuple[str, ...]
    of_tests: tuple[str, ...]

    def values(self, option: str) -> list[str]:
        """Return the values of an option of cargo's."""
        found = []
        for place, word in enumerate(self.own):
            if word.startswith(option + "="):
                found.append(word.removeprefix(option + "="))
            elif word == option:
                found += self.own[place + 1 : place + 2]
        return found

    def configurations(self) -> list[str]:
        """Return the options of cargo's that change its configuration."""
        return [word for value in self.values("--config") for word in ("--config", value)]


@dataclasses.dataclass(frozen=True)
class Runner:
    """What the user has cargo call in place of a test binary.

    `is_text` tells that the configuration has it as one text, and not as a list.
    """

    words: tuple[str, ...] = ()
    is_text: bool = False


def read(words: Sequence[str]) -> CargoWords:
    """Return the words of `cargo test`, which must let the front end see what runs."""
    own, of_tests = split_words(list(words))
    toolchain = own[:1] if own and own[0].startswith("+") else []
    own = own[len(toolchain) :]
    if has_option(own, "--message-format"):
        raise Fault("--message-format is what the front end sets: leave it out", 2)
    found = next((word for word in own if word in WITHOUT_TESTS), None)
    if found:
        nothing = f"with {found} no test runs, so there is nothing to record"
        raise Fault(f"{nothing}: hand it to `cargo test` itself", 2)
    test_words.refuse(of_tests)
    return CargoWords(tuple(toolchain), tuple(own), tuple(of_tests))


def collecting_words(
    words: CargoWords, runner: pathlib.Path, users: Mapping[str, Runner]
) -> list[str]:
    """Return the call of cargo that builds, and calls a runner in place of each binary.

    `users` are the user's own runners by triple. Cargo wants the same form, list or text.
    """
    set_runners = []
    for triple, own in users.items():
        value = json.dumps(str(runner) if own.is_text else [str(runner)])
        set_runners += ["--config", f"target.{triple}.runner={value}"]
    added = [] if has_option(words.own, "--no-fail-fast") else ["--no-fail-fast"]
    added += ["--message-format", "json-render-diagnostics"]
    of_tests = ["--", *words.of_tests] if words.of_tests else []
    return ["cargo", *words.toolchain, "test", *added, *words.own, *set_runners, *of_tests]
