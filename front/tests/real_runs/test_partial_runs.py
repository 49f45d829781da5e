"""Sessions of a part of the packages, of lines that are cut, and of builds that fail."""

from __future__ import annotations

import pytest

from tests.real_runs.cargo_runs import Answer, Cargo
from tests.real_runs.sessions import Outcome, session_of, tool_output

pytestmark = pytest.mark.cargo

PASSED = Outcome("ends::it", "passes", "passed")
FAILED_BUILD = Outcome("(cargo)", "(build)", "exit 101")


@pytest.mark.parametrize(("package", "status"), [("ends", 0), ("names", 101)])
def test_a_binary_that_runs_alone_has_its_package(cargo: Cargo, package: str, status: int) -> None:
    """A target of this name is in both packages; one of them has tests that fail."""
    answer = cargo.events("-p", package, "--test", "it")
    session = session_of(answer.lines, "--status", str(answer.status))
    assert session.binaries == [f"{package}::it"]
    assert bool(session.failed_binaries) == (status == 101)
    assert session.status["exit-code"] == answer.status == status


@pytest.mark.parametrize(
    ("manifest", "options", "binaries"),
    [
        pytest.param("Cargo.toml", [], ["it", "names::bin/tool"], id="the workspace"),
        pytest.param(
            "names/Cargo.toml",
            ["--package", "names"],
            ["names::bin/tool", "names::it"],
            id="one package",
        ),
    ],
)
def test_binaries_that_no_line_of_cargo_names(
    nameless_run: bytes, cargo: Cargo, manifest: str, options: list[str], binaries: list[str]
) -> None:
    """The manifest names those that are in one package only."""
    session = session_of(nameless_run, "--manifest-path", str(cargo.folder / manifest), *options)
    assert session.binaries == binaries


@pytest.fixture(scope="module")
def nameless_run(cargo: Cargo) -> bytes:
    """The lines of a run of two binaries, of which no line says what they are."""
    return cargo.events("-p", "names", "--test", "it", "--bin", "tool", names=False).lines


def test_tests_that_are_filtered(cargo: Cargo) -> None:
    answer = cargo.events("-p", "ends", "--test", "flaky", tests=["each_time"])
    passed = Outcome("ends::flaky", "passes_each_time", "passed")
    assert session_of(answer.lines).outcomes == [passed]


def test_a_run_ends_with_the_status_of_its_first_failing_target(cargo: Cargo) -> None:
    """So does cargo without `--no-fail-fast`."""
    answer = cargo.events("-p", "ends", "--test", "plain_fails")
    session = session_of(answer.lines, "--status", str(answer.status))
    assert session.status["exit-code"] == answer.status == 3


@pytest.mark.parametrize(
    ("options", "status"), [([], 101), (["--status", "0"], 0)], ids=["unknown", "status 0"]
)
def test_a_test_that_exits_with_0(cargo: Cargo, options: list[str], status: int) -> None:
    """It has failed, with cargo's status where that is known."""
    answer = cargo.events("-p", "ends", "--test", "exits")
    session = session_of(answer.lines, *options)
    assert (answer.status, session.status["exit-code"]) == (0, status)
    assert session.outcomes == [Outcome("ends::exits", "exits", f"exit {status}")]


@pytest.fixture(scope="module")
def first_binary(cargo: Cargo) -> bytes:
    """The lines of a run of two binaries up to the second one."""
    lines = cargo.events("-p", "ends", "--test", "it", "--test", "plain_passes").lines
    return lines[: lines.rindex(b"     Running")]


@pytest.mark.parametrize(
    ("options", "outcomes"),
    [
        ([], [Outcome("(cargo)", "(run)", "exit 101"), PASSED]),
        (["--status", "0"], [PASSED]),
    ],
    ids=["unknown", "status 0"],
)
def test_lines_that_end_between_two_binaries(
    first_binary: bytes, options: list[str], outcomes: list[Outcome]
) -> None:
    """The run has failed, unless cargo says that it hasn't."""
    assert session_of(first_binary, *options).outcomes == outcomes


def test_lines_that_end_in_an_event(first_binary: bytes) -> None:
    """The run has failed."""
    cut = first_binary[: first_binary.index(b'{ "type": "suite"') + 9]
    assert Outcome("(cargo)", "(run)", "exit 101") in session_of(cut).outcomes


def test_a_failed_run_of_which_no_line_says_what_failed(first_binary: bytes) -> None:
    """The run itself has failed."""
    session = session_of(first_binary, "--status", "3")
    assert Outcome("(cargo)", "(run)", "exit 3") in session.outcomes


def test_a_build_that_fails(broken_build: Answer) -> None:
    """It is a failed test with cargo's message."""
    session = session_of(broken_build.lines, "--status", str(broken_build.status))
    assert session.status["exit-code"] == broken_build.status == 101
    ((outcome, said),) = session.said_outcomes
    assert outcome == FAILED_BUILD
    assert "could not compile `ends`" in said
    assert "the library is broken" in said


def test_a_build_that_fails_may_have_a_status_of_its_own(broken_build: Answer) -> None:
    tool_output(broken_build.lines, "--build-error", "status", status=3)


def test_doctests_that_can_not_be_built(cargo: Cargo) -> None:
    """They have failed by the name of their crate."""
    answer = cargo.events("-p", "ends", "--doc", "--features", "broken-docs")
    assert session_of(answer.lines).outcomes == [Outcome("ends::doc/ends", "ends", "exit 1")]


def test_a_target_that_is_not_there(cargo: Cargo) -> None:
    """It is a build that fails."""
    answer = cargo.events("-p", "ends", "--test", "nowhere")
    session = session_of(answer.lines, "--status", str(answer.status))
    assert (session.outcomes, answer.status) == ([FAILED_BUILD], 101)
