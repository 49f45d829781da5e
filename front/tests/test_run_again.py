"""The lines that run tests again, of typed lines of `rerun`: as a script and a shell read them."""

from __future__ import annotations

import json
import shlex
import subprocess

import pytest

from rezovamy_runs.runner import rerun_plan
from tests import FRONT

TOOL = FRONT / "run_again"
INFO = '{"parent-run-id":"550e8400-e29b-41d4-a716-446655440000","root-info":{},"test-suites":[]}\n'
NO_INFO = "line 1 has no rerun information"

Answer = tuple[int, str, str]


def answer(text: str, *words: str) -> Answer:
    """Return the status of the script, and what it prints on its outputs."""
    done = subprocess.run([TOOL, *words], input=text, capture_output=True, text=True, check=False)
    return done.returncode, done.stdout, done.stderr


def lines_of(text: str, *words: str) -> list[str]:
    """Return the lines that are printed for lines of `rerun`."""
    status, printed, said = answer(INFO + text, *words)
    assert (status, said) == (0, "")
    return printed.splitlines()


@pytest.mark.parametrize(
    ("binary", "words"),
    [
        ("sums", "-p sums --lib"),
        ("sums::wrong", "-p sums --test wrong"),
        ("a-b::bin/c-d", "-p a-b --bin c-d"),
        ("a::example/x.y", "-p a --example x.y"),
        ("a::bench/speed", "-p a --bench speed"),
    ],
)
def test_each_kind_of_binary(binary: str, words: str) -> None:
    """Cargo's words name it."""
    assert lines_of(f"run {binary} t\n") == [f"cargo test {words} -- --exact t"]


def test_a_line_for_each_binary() -> None:
    """What is skipped has none."""
    assert lines_of("run a x\nrun a y::z\nrun a::t x\nskip a w\nskip b v\n") == [
        "cargo test -p a --lib -- --exact x y::z",
        "cargo test -p a --test t -- --exact x",
    ]


@pytest.mark.parametrize("text", ["skip a w\n", ""], ids=["skipped", "nothing"])
def test_nothing_is_to_run(text: str) -> None:
    """No line is printed."""
    assert lines_of(text) == []


def test_names_as_a_shell_reads_them() -> None:
    """Each name is one word."""
    names = ["it's", "a b", "$HOME", "`x`", "é ü", "--list", "*"]
    (line,) = lines_of("".join(f"run a {name}\n" for name in names))
    words = ["cargo", "test", "-p", "a", "--lib", "--", "--exact", "--", *names]
    assert shlex.split(line) == words
    script = f"cargo() {{ printf '%s\\n' \"$@\"; }}; {line}"
    said = subprocess.run(["sh", "-c", script], capture_output=True, text=True, check=False)
    assert said.stdout.splitlines()[-len(names) :] == names


@pytest.mark.parametrize(
    ("given", "line"),
    [
        (["--release"], "cargo test --release -p a --lib -- --exact x"),
        (["+nightly", "-q"], "cargo +nightly test -q -p a --lib -- --exact x"),
        (["--", "--nocapture"], "cargo test -p a --lib -- --nocapture --exact x"),
        (["-q", "--", "--nocapture"], "cargo test -q -p a --lib -- --nocapture --exact x"),
    ],
)
def test_words_that_are_given(given: list[str], line: str) -> None:
    """They stand on their side of `--`."""
    assert lines_of("run a x\n", "--", *given) == [line]


@pytest.mark.parametrize(
    ("text", "line"),
    [
        ("run a::doc/a src/lib.rs - x (line 3)\n", "cargo test -p a --doc"),
        ("run a::plain plain\n", "cargo test -p a --test plain"),
    ],
    ids=["doctests", "without libtest"],
)
def test_what_runs_whole(text: str, line: str) -> None:
    """The line has no name of a test."""
    assert lines_of(text) == [line]


@pytest.mark.parametrize("name", ["plain", "a::plain", "(a::plain)"])
def test_a_binary_that_failed_by_its_own_name(name: str) -> None:
    """It runs whole, which is said."""
    text = f"{INFO}run a::plain {name}\nrun a::plain y\nskip a::plain x\n"
    whole = "it may have failed by its own name, so that all of its tests run"
    said = f"run_again: a::plain: {whole}\n"
    assert answer(text) == (0, "cargo test -p a --test plain\n", said)


def test_doctests_some_of_which_passed() -> None:
    """All of them run, which is said."""
    text = "run a::doc/a src/lib.rs - x (line 3)\nskip a::doc/a src/lib.rs - y (line 9)\n"
    whole = "cargo can't be given the names of doctests, so that all of them run"
    said = f"run_again: a::doc/a: {whole}\n"
    assert answer(INFO + text) == (0, "cargo test -p a --doc\n", said)


def test_many_names_are_several_lines() -> None:
    """Each fits a command line."""
    names = [f"{number:0>99}" for number in range(12000)]
    lines = [shlex.split(line) for line in lines_of("".join(f"run a {name}\n" for name in names))]
    assert [name for line in lines for name in line[7:]] == names
    assert [len(line) - 7 for line in lines] == [5000, 5000, 2000]


@pytest.mark.parametrize(
    "binary", ["(cargo)", "", "a::", "a::--config=x", "--config=x", "a::lib/b"]
)
def test_what_cargo_has_no_word_for(binary: str) -> None:
    """It has no line, and the status says so."""
    nameless = "cargo has no word for it alone; run all tests again"
    said = f"run_again: {binary} (build): {nameless}\n"
    line = "cargo test -p b --test t -- --exact x\n"
    assert answer(f"{INFO}run b::t x\nrun {binary} (build)\n") == (3, line, said)


@pytest.mark.parametrize(
    ("text", "named"),
    [
        pytest.param("gone a x\ngone a y\n", "a x, and 1 more of it", id="tests"),
        pytest.param("skip a::t x\ngone a::t t\ngone a::u u\n", "a::u u", id="binaries"),
    ],
)
def test_what_is_gone(text: str, named: str) -> None:
    """It is said; a failure of a binary itself isn't, once that ran well."""
    said = f"run_again: {named}: the run's test list lacks it, so that it isn't run\n"
    assert answer(INFO + text) == (0, "", said)


@pytest.mark.parametrize(
    ("text", "said"),
    [
        ("", NO_INFO),
        ("{}\n", NO_INFO),
        ("run a x\n", NO_INFO),
        (INFO + "run a\n", "line 2 names no test"),
        (INFO + "run a x\n\n", "line 3 names no test"),
        (INFO + "walk a x\n", "line 2 names no test"),
    ],
    ids=["nothing", "no id", "no head", "no name", "an empty line", "another word"],
)
def test_what_is_no_plan(text: str, said: str) -> None:
    """The line is named."""
    fault = f"run_again: the input isn't what `rezovamy rerun` prints: {said}\n"
    assert answer(text) == (1, "", fault)


def test_what_a_run_lacks() -> None:
    """Tests that are asked for by name, and didn't run."""
    plan = rerun_plan.read(
        f"{INFO}run a x\nrun a y\nrun a z\nrun a::doc/a s.rs - (line 3)\nrun a::plain plain\n"
        "run (cargo) (run)\n"
    )
    (line,) = rerun_plan.not_found(plan, {"a": ["y"]})
    assert line.startswith("a x, and 1 more of it: no test of this name is there")
    assert rerun_plan.not_found(plan, {"a": ["z", "y", "x"]}) == []


def test_what_is_forgotten_is_not_listed() -> None:
    """It is neither run nor in the list of the run."""
    plan = rerun_plan.read(f"{INFO}run a x\nrun a y\nrun b z\nskip a w\n")
    plan.forget("a", ["x"])
    plan.forget("b", ["z"])
    assert (plan.run, plan.forgotten) == ({"a": ["y"]}, {"a": ["x"], "b": ["z"]})
    assert plan.listed({"a": ["y"]}) == {"a": ["y", "w"]}


def test_the_list_has_what_ran_and_what_was_skipped() -> None:
    """What is new stands after it."""
    plan = rerun_plan.read(f"{INFO}run a x\nrun b y\nskip a w\ngone c z\n")
    assert plan.info == json.loads(INFO)
    listed = plan.listed({"a": ["x", "v"], "d": ["u"]})
    assert listed == {"a": ["x", "w", "v"], "b": ["y"], "d": ["u"]}
