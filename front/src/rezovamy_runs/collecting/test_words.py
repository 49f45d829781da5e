"""The words of a libtest binary: which choose tests, and which are for each test."""

from __future__ import annotations

import dataclasses
from collections.abc import Iterator, Sequence

from rezovamy_runs.faults.fault import Fault

# The options that have a value, in the next word or after `=`.
WITH_VALUE = (
    "--skip",
    "--test-threads",
    "--color",
    "--format",
    "--logfile",
    "--shuffle-seed",
    "-Z",
)
# What is for each test as for all of them. The other options are about several tests, or about
# what is printed of them.
KEPT = ("-Z", "--test", "--bench", "--force-run-in-process", "--exclude-should-panic")
# With these a binary runs no test, or doesn't say how tests end as the front end reads it.
WITHOUT_TESTS = ("--list", "--help", "-h")
SET_HERE = ("--format", "--logfile")


@dataclasses.dataclass(frozen=True)
class BinaryWords:
    """What words ask of a binary.

    `kept` are options for each test. `chosen` choose tests together with `filters`; without
    `includes_ignored` and `only_ignored`, ignored tests are skipped. `threads` is how many tests
    run at once.
    """

    kept: tuple[str, ...] = ()
    chosen: tuple[str, ...] = ()
    filters: tuple[str, ...] = ()
    includes_ignored: bool = False
    only_ignored: bool = False
    threads: str | None = None

    def listing(self, *more: str) -> list[str]:
        """Return the words that list the tests which these ask for, ignored ones too."""
        ends_options = ["--"] if any(one.startswith("-") for one in self.filters) else []
        chosen = [*self.kept, *self.chosen, *ends_options, *self.filters]
        return ["--list", "--format", "terse", *more, *chosen]

    def of_test(self, name: str, is_ignored: bool) -> list[str]:
        """Return the words that run a test alone, and show what it prints."""
        ignored = ["--include-ignored"] if is_ignored else []
        return [*self.kept, "--nocapture", *ignored, "--exact", name]


def read(words: Sequence[str]) -> BinaryWords:
    """Return what the words of a binary ask for."""
    kept: list[str] = []
    chosen: list[str] = []
    filters: list[str] = []
    values: dict[str, str] = {}
    for option, value in options_of(words):
        spelled = [option] if value is None else [option, value]
        if option == "":
            filters.append(value or "")
        elif option in KEPT:
            kept += spelled
        elif option in ("--skip", "--exact"):
            chosen += spelled
        else:
            values[option] = value or ""
    return BinaryWords(
        tuple(kept),
        tuple(chosen),
        tuple(filters),
        "--include-ignored" in values,
        "--ignored" in values,
        values.get("--test-threads"),
    )


def options_of(words: Sequence[str]) -> Iterator[tuple[str, str | None]]:
    """Return the options with their values; a word that is a filter is the value of no option."""
    left = iter(words)
    for word in left:
        if word == "--":
            yield from (("", filter_word) for filter_word in left)
        elif word.startswith("-Z") and word != "-Z":
            yield "-Z", word[2:]
        elif word in WITH_VALUE:
            yield word, next(left, "")
        elif word.startswith("--") and "=" in word:
            option, _, value = word.partition("=")
            yield option, value
        elif word.startswith("-") and word != "-":
            yield word, None
        else:
            yield "", word


def refuse(words: Sequence[str]) -> None:
    """Refuse words with which no test runs, or which the front end sets."""
    for option, _ in options_of(words):
        if option in WITHOUT_TESTS:
            nothing = f"with {option} no test runs, so there is nothing to record"
            raise Fault(f"{nothing}: hand it to `cargo test` itself", 2)
        if option in SET_HERE:
            raise Fault(
                f"{option} of the test binaries is what the front end sets: leave it out", 2
            )
