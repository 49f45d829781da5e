"""Finds words of `cargo test` that stand before the `--` after which they belong."""

from __future__ import annotations

import shlex
from collections.abc import Iterable, Sequence

from rezovamy_runs.collecting.cargo_line import split_words

WITH_VALUE = frozenset(
    "--bench --bin --color --config --example --exclude --features --jobs --manifest-path "
    "--message-format --package --target --target-dir --test -C -F -j -p -Z".split()
)
WITHOUT_VALUE = frozenset(
    "--all --all-features --all-targets --benches --bins --doc --examples --frozen "
    "--future-incompat-report --ignore-rust-version --keep-going --lib --locked "
    "--no-default-features --no-run --offline --quiet --release --tests --timings --unit-graph "
    "--verbose --workspace -q -r -v -vv".split()
)
# Options of the test binaries, which stand after another `--`.
OF_TESTS_WITH_VALUE = frozenset(("--shuffle-seed", "--skip"))
OF_TESTS = OF_TESTS_WITH_VALUE | frozenset(
    "--ensure-time --exact --ignored --include-ignored --list --nocapture --no-capture "
    "--report-time --show-output --shuffle".split()
)
CARGOS = WITH_VALUE | WITHOUT_VALUE | OF_TESTS


def hint(program: str, own: Sequence[str], unknown: Sequence[str], rest: Sequence[str]) -> str:
    """Return what is said of a line whose unknown words are cargo's; nothing if they aren't.

    `own` are the words before `--`, the unknown ones among them, and `rest` those after it.
    """
    options = [word.partition("=")[0] for word in unknown if word.startswith("-")]
    if not unknown or not CARGOS.issuperset(options):
        return ""
    what = "options" if options else "words"
    line = shlex.join([program, *moved(own, unknown, rest)])
    return f"cargo's {what} go after `--`: {line}"


def moved(own: Iterable[str], unknown: Sequence[str], rest: Sequence[str]) -> list[str]:
    """Return the words of a line, where the unknown ones are moved to where they belong."""
    left = list(unknown)
    kept: list[str] = []
    of_cargo: list[str] = []
    of_tests: list[str] = []
    words = iter(own)
    for word in words:
        if word not in left:
            kept.append(word)
            continue
        left.remove(word)
        place = of_tests if word.partition("=")[0] in OF_TESTS else of_cargo
        place.append(word)
        if word in WITH_VALUE | OF_TESTS_WITH_VALUE and (value := next(words, None)) is not None:
            place.append(value)
            if value in left:
                left.remove(value)
    cargos, tests = split_words(list(rest))
    behind = [*of_tests, *tests]
    return [*kept, "--", *of_cargo, *cargos, *(["--", *behind] if behind else [])]
