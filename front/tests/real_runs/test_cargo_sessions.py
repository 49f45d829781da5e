"""The session of a run of all packages, against what cargo says of it."""

from __future__ import annotations

import pytest

from tests import EXAMPLES
from tests.real_runs import cargo_texts
from tests.real_runs.cargo_texts import target_words
from tests.real_runs.conftest import RecordedRun
from tests.real_runs.sessions import Outcome

pytestmark = pytest.mark.cargo

OUTCOMES = EXAMPLES / "mishaps/outcomes.txt"


def expected_outcomes() -> list[tuple[Outcome, str]]:
    """Return how each test ends, in order, and a part of what is said of it."""
    lines = [line for line in OUTCOMES.read_text().splitlines() if not line.startswith("#")]
    rows = [(line + " | ").split(" | ")[:4] for line in lines]
    return sorted((Outcome(*row[:3]), row[3]) for row in rows)


def test_each_test_ends_as_the_list_says(whole_run: RecordedRun) -> None:
    """A failure, or a test that is ignored, has the words of the list."""
    expected, found = expected_outcomes(), whole_run.session.said_outcomes
    assert [outcome for outcome, _ in found] == [outcome for outcome, _ in expected]
    for (outcome, part), (_, said) in zip(expected, found):
        assert part in said, outcome


@pytest.mark.parametrize(
    ("test", "printed"),
    [
        pytest.param("plain_fails", "plain, and fails", id="a failing target without libtest"),
        pytest.param("plain_passes", "plain, and passes", id="a passing target without libtest"),
        pytest.param("leaves_a_line_open", "", id="text before an event in its line"),
    ],
)
def test_outputs(whole_run: RecordedRun, test: str, printed: str) -> None:
    """What a target without libtest prints is its own; what stands before an event is no test's."""
    (event,) = [event for event in whole_run.session.ends if event.test == test]
    assert event.attempts[-1].printed == printed


def test_each_test_ends_as_cargo_prints_for_people(plain_run: str, whole_run: RecordedRun) -> None:
    """A plain run is as the first run of the session."""
    first: dict[tuple[str, str], str] = {}
    for binary, test, ended in (event.outcome for event in whole_run.session.ends if event.outcome):
        first.setdefault((target_words(binary), test), ended.partition(", ")[0])
    ended_tests = cargo_texts.ended_tests(plain_run)
    assert len(ended_tests) >= 20
    for target, test, outcome in ended_tests:
        assert first.get((target, test)) == outcome, (target, test)


def test_the_failed_binaries_are_those_that_cargo_names(whole_run: RecordedRun) -> None:
    """One that ended with status 0 in a test has failed too, which cargo doesn't see."""
    failed = set(map(target_words, whole_run.session.failed_binaries))
    assert failed == cargo_texts.failed_targets(whole_run.printed) | {"-p ends --test exits"}


def test_processes_end_as_cargo_says(whole_run: RecordedRun) -> None:
    """Each test that ran when its process ended has the signal or the status of it."""
    ends = cargo_texts.ends_of_processes(whole_run.printed)
    assert len(ends) == 5
    for words, end in ends:
        found = {
            outcome.ended
            for outcome in whole_run.session.outcomes
            if target_words(outcome.binary) == words and outcome.ended != "passed"
        }
        assert found == {end}, words


def test_an_attempt_starts_before_its_end_by_as_much_as_it_took(whole_run: RecordedRun) -> None:
    """It starts earlier where the time isn't measured."""
    finished = [event for event in whole_run.session.events if event.kind == "test-finished"]
    assert finished
    for event in finished:
        attempt = event.attempts[-1]
        assert attempt.start + attempt.taken <= event.at, event.test


def test_the_end_of_the_run(whole_run: RecordedRun) -> None:
    """It failed, and one test never started, which no line names."""
    session = whole_run.session
    assert (session.status["status"], session.status["exit-code"]) == ("completed", 101)
    assert session.not_seen == {"not-seen": [], "total-not-seen": 1}
