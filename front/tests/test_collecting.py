"""The words of cargo, of the test binaries and of rustdoc, and the settings of a target."""

from __future__ import annotations

import pathlib

import pytest

from rezovamy_runs.collecting import cargo_call, cfg, test_words
from rezovamy_runs.collecting.binaries import words_of_rustdoc
from rezovamy_runs.collecting.cargo_call import Runner
from rezovamy_runs.collecting.collect import names_in
from rezovamy_runs.collecting.records import environment_of
from rezovamy_runs.faults.fault import Fault

LIST = ["--list", "--format", "terse"]
TRIPLE = "x86_64-unknown-linux-gnu"
SETTINGS = ["unix", "debug_assertions", 'target_os="linux"', 'target_arch="x86_64"']


@pytest.mark.parametrize(
    ("words", "listing", "of_test"),
    [
        ([], [], ["--nocapture", "--exact", "a"]),
        (["one", "two"], ["one", "two"], ["--nocapture", "--exact", "a"]),
        (["--exact", "one"], ["--exact", "one"], ["--nocapture", "--exact", "a"]),
        (["--skip", "one"], ["--skip", "one"], ["--nocapture", "--exact", "a"]),
        (["--skip=one", "two"], ["--skip", "one", "two"], ["--nocapture", "--exact", "a"]),
        (["--", "--skip", "-x"], ["--", "--skip", "-x"], ["--nocapture", "--exact", "a"]),
        (["--nocapture", "--show-output", "-q"], [], ["--nocapture", "--exact", "a"]),
        (["--test-threads", "3", "one"], ["one"], ["--nocapture", "--exact", "a"]),
        (["--color=always", "--report-time"], [], ["--nocapture", "--exact", "a"]),
        (["--bench"], ["--bench"], ["--bench", "--nocapture", "--exact", "a"]),
        (
            ["-Zunstable-options", "-Z", "x"],
            ["-Z", "unstable-options", "-Z", "x"],
            ["-Z", "unstable-options", "-Z", "x", "--nocapture", "--exact", "a"],
        ),
    ],
)
def test_words_of_a_binary(words: list[str], listing: list[str], of_test: list[str]) -> None:
    read = test_words.read(words)
    assert read.listing() == LIST + listing
    assert read.of_test("a", False) == of_test


@pytest.mark.parametrize(
    ("words", "includes", "only"),
    [
        ([], False, False),
        (["--ignored"], False, True),
        (["--include-ignored"], True, False),
        (["--", "--ignored"], False, False),
        (["--skip", "--ignored"], False, False),
    ],
)
def test_which_words_are_about_ignored_tests(words: list[str], includes: bool, only: bool) -> None:
    read = test_words.read(words)
    assert (read.includes_ignored, read.only_ignored) == (includes, only)
    assert "--include-ignored" in read.of_test("a", True)


@pytest.mark.parametrize(
    ("words", "threads"),
    [([], None), (["--test-threads", "3"], "3"), (["--test-threads=1"], "1")],
)
def test_how_many_tests_run_at_once(words: list[str], threads: str | None) -> None:
    assert test_words.read(words).threads == threads


@pytest.mark.parametrize(
    "words",
    [
        ["--message-format", "json"],
        ["--message-format=short"],
        ["--no-run"],
        ["--help"],
        ["--", "--list"],
        ["--", "-h"],
        ["--", "--format", "json"],
        ["--", "--format=json"],
        ["--", "--logfile", "x"],
    ],
)
def test_words_that_are_refused(words: list[str]) -> None:
    with pytest.raises(Fault) as fault:
        cargo_call.read(words)
    assert fault.value.status == 2


@pytest.mark.parametrize("words", [["--", "--skip", "--list"], ["--", "--", "--list"], ["-q"]])
def test_words_that_only_look_so(words: list[str]) -> None:
    cargo_call.read(words)


@pytest.mark.parametrize(
    ("words", "own", "expected"),
    [
        ([], Runner(), ["cargo", "test", "--no-fail-fast", *"F R".split()]),
        (["--lib"], Runner(), ["cargo", "test", "--no-fail-fast", *"F --lib R".split()]),
        (["+beta"], Runner(), ["cargo", "+beta", "test", "--no-fail-fast", *"F R".split()]),
        (["--no-fail-fast"], Runner(), ["cargo", "test", *"F --no-fail-fast R".split()]),
        ([], Runner(("qemu", "-L"), True), ["cargo", "test", "--no-fail-fast", *"F T".split()]),
        (["--", "x"], Runner(), ["cargo", "test", "--no-fail-fast", *"F R -- x".split()]),
    ],
)
def test_the_call_of_cargo(words: list[str], own: Runner, expected: list[str]) -> None:
    """F stands for the format, R for a runner as a list, and T for one as a text."""
    spelled = {
        "F": ["--message-format", "json-render-diagnostics"],
        "R": ["--config", f'target.{TRIPLE}.runner=["/r/runner"]'],
        "T": ["--config", f'target.{TRIPLE}.runner="/r/runner"'],
    }
    call = cargo_call.collecting_words(
        cargo_call.read(words), pathlib.Path("/r/runner"), {TRIPLE: own}
    )
    assert call == [part for word in expected for part in spelled.get(word, [word])]


@pytest.mark.parametrize(
    ("name", "holds"),
    [
        ("cfg(unix)", True),
        ("cfg(windows)", False),
        ('cfg(target_os = "linux")', True),
        ('cfg(target_os = "macos")', False),
        ('cfg(all(unix, target_arch = "x86_64"))', True),
        ('cfg(all(unix, target_arch = "arm"))', False),
        ('cfg(any(windows, target_os = "linux"))', True),
        ("cfg(any())", False),
        ("cfg(all())", True),
        ("cfg(not(windows))", True),
        ('cfg(not(any(unix, target_os = "linux")))', False),
        ('cfg(all(not(windows), any(windows, unix), target_os = "linux",))', True),
    ],
)
def test_which_settings_hold(name: str, holds: bool) -> None:
    assert cfg.matches(name, SETTINGS) is holds


@pytest.mark.parametrize(
    ("words", "runner", "expected"),
    [
        ("--test src/lib.rs", "", "--test src/lib.rs"),
        ("--test a.rs --test-runtool /r -L x", "", "--test a.rs -L x"),
        ("--test a.rs --test-runtool /r --test-runtool-arg y", "", "--test a.rs"),
        ("--test a.rs --error-format json -L x", "", "--test a.rs -L x"),
        (
            "--test a.rs --test-runtool /r",
            "q -L y",
            "--test a.rs --test-runtool q --test-runtool-arg -L --test-runtool-arg y",
        ),
    ],
)
def test_words_of_rustdoc(words: str, runner: str, expected: str) -> None:
    assert words_of_rustdoc(words.split(), runner.split()) == expected.split()


def test_names_that_are_listed() -> None:
    printed = "tests::größer: test\nmeasured: benchmark\n\n2 tests, 1 benchmark\nnoise\n"
    assert list(names_in(printed.encode())) == ["tests::größer", "measured"]


def test_an_environment() -> None:
    assert environment_of(b"A=1\0B=x=y\0C=\0none\0") == {b"A": b"1", b"B": b"x=y", b"C": b""}
