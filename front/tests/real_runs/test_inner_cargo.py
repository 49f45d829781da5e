"""Tests that run cargo themselves, print lines of other tests, or redirect standard output.

What they print stands among the lines of the run, and none fails for it.
"""

from __future__ import annotations

from collections.abc import Sequence

import pytest

from tests.real_runs.cargo_runs import Cargo
from tests.real_runs.sessions import Outcome, session_of

pytestmark = pytest.mark.cargo

OTHERS = ["it", "plain_fails", "plain_passes", "aborts", "exits_late"]
# What is told of the other binaries, of whose tests none has a name that is asked for.
OTHER_OUTCOMES = {
    Outcome("ends::plain_fails", "plain_fails", "exit 3"),
    Outcome("ends::plain_passes", "plain_passes", "passed"),
}
PASSED, FAILED = "passed", "exit 101"


def outcomes_of(cargo: Cargo, name: str, target: str, others: Sequence[str] = ()) -> list[Outcome]:
    """Return how the tests of a name end in a target, and those of other targets beside it."""
    targets = [word for each in (target, *others) for word in ("--test", each)]
    tests = ["--ignored", "--test-threads=2", name]
    answer = cargo.events("--no-fail-fast", "-p", "ends", *targets, tests=tests)
    return session_of(answer.lines, "--status", str(answer.status)).outcomes


def ends_in(outcomes: list[Outcome], binary: str) -> dict[str, str]:
    """Return how each test of a binary ends."""
    return {outcome.test: outcome.ended for outcome in outcomes if outcome.binary == binary}


@pytest.mark.parametrize(
    ("name", "ended"),
    [
        ("runs_another_binary", PASSED),
        ("runs_failing_binaries", PASSED),
        ("runs_its_own_binary", PASSED),
        ("runs_with_lines_of_events", PASSED),
        ("crashes_after_cargo", "SIGABRT"),
        ("exits_after_cargo", "exit 0"),
    ],
)
def test_a_test_that_runs_cargo(cargo: Cargo, name: str, ended: str) -> None:
    """It ends as cargo says of it, and the other binaries are told as without it."""
    outcomes = outcomes_of(cargo, name, "runs_cargo", OTHERS)
    assert ends_in(outcomes, "ends::runs_cargo") == {name: ended}
    beside = {outcome for outcome in outcomes if outcome.binary != "ends::runs_cargo"}
    if name == "exits_after_cargo":
        # Nothing tells that it was this test that ended its process after cargo had run.
        assert beside >= OTHER_OUTCOMES
    else:
        assert beside == OTHER_OUTCOMES


@pytest.mark.parametrize(
    ("name", "ends"),
    [
        ("for_a_while", {"for_a_while": PASSED, "for_a_while_meanwhile": PASSED}),
        ("prints_a_failure", {"prints_a_failure": PASSED, "prints_a_failure_later": PASSED}),
        ("prints_a_pass", {"prints_a_pass": PASSED, "prints_a_pass_later": FAILED}),
        # It looks like a test that ends its process with status 0.
        ("for_ever", {"for_ever": "exit 0"}),
    ],
)
def test_a_test_that_redirects_or_prints_lines(
    cargo: Cargo, name: str, ends: dict[str, str]
) -> None:
    """Each test ends as cargo says of it."""
    assert ends_in(outcomes_of(cargo, name, "redirects"), "ends::redirects") == ends
