"""Says whether words of `cargo test` choose some of the tests."""

from __future__ import annotations

from collections.abc import Iterator, Sequence

from rezovamy_runs.collecting import test_words
from rezovamy_runs.collecting.cargo_line import split_words

# The options of cargo that choose packages or targets. Those that name all, or all of the kinds
# that have tests, aren't among them.
CHOOSING = (
    "-p",
    "--package",
    "--exclude",
    "--lib",
    "--bins",
    "--bin",
    "--examples",
    "--example",
    "--benches",
    "--bench",
    "--test",
    "--doc",
)
# The other options of cargo whose value may be the next word.
WITH_VALUE = (
    "-j",
    "--jobs",
    "-F",
    "--features",
    "-C",
    "-Z",
    "--color",
    "--config",
    "--lockfile-path",
    "--manifest-path",
    "--message-format",
    "--profile",
    "--target",
    "--target-dir",
)


def chooses(words: Sequence[str]) -> bool:
    """Tell whether these words of `cargo test` leave out tests that it would run without them."""
    own, of_tests = split_words(list(words))
    if any(option in ("", *CHOOSING) for option in options_of(own)):
        return True
    read = test_words.read(of_tests)
    return bool(read.filters or "--skip" in read.chosen or read.only_ignored)


def options_of(own: Sequence[str]) -> Iterator[str]:
    """Return cargo's options among its own words, without values; a filter of tests is empty."""
    left = iter(own)
    for word in left:
        if word.startswith("+"):
            continue
        if word.startswith("-p") and word != "-p":
            yield "-p"
        elif word.startswith("-"):
            yield word.partition("=")[0]
            if word in WITH_VALUE:
                next(left, None)
        else:
            yield ""
