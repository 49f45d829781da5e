"""Runs against each other."""

from __future__ import annotations

import pathlib

import pytest

from rezovamy_runs import model
from rezovamy_runs.history import outcomes as history
from rezovamy_runs.history.outcomes import Outcome, Outcomes, Slower
from rezovamy_runs.model import Attempt, Counts, Result, Run, Status, Test, Verdict


def outcomes(**verdicts: tuple[str, float]) -> Outcomes:
    """The outcomes of tests, each with its verdict and its seconds."""
    return {
        alpha(name): Outcome(Verdict(verdict), seconds, 2 if verdict == "flaky" else 1)
        for name, (verdict, seconds) in verdicts.items()
    }


def alpha(name: str) -> model.TestName:
    """What a test of the binary `alpha` is known by."""
    return model.TestName("alpha", name)


def test_what_differs() -> None:
    first = outcomes(
        broken=("pass", 0),
        fixed=("fail", 0),
        bad=("fail", 0),
        gone=("pass", 0),
        ignored=("fail", 0),
        lost=("flaky", 0),
        woken=("skip", 0),
        same=("pass", 0),
    )
    second = outcomes(
        broken=("fail", 0),
        fixed=("flaky", 0),
        bad=("fail", 0),
        new=("fail", 0),
        ignored=("skip", 0),
        lost=("unfinished", 0),
        woken=("fail", 0),
        same=("pass", 0),
    )
    found = history.compare(first, second, [])
    assert found.newly_failing == [("alpha", "broken"), ("alpha", "woken")]
    assert found.fixed == [("alpha", "fixed")]
    assert (found.still_failing, found.never_ended) == ([("alpha", "bad")], [("alpha", "lost")])
    assert (found.new, found.gone, found.slower) == ([("alpha", "new")], [("alpha", "gone")], [])


def test_slower_by_more_than_half_where_little_is_known() -> None:
    first = outcomes(a=("pass", 1.0), b=("pass", 1.0), c=("fail", 1.0), d=("pass", 0.001))
    second = outcomes(a=("pass", 1.5), b=("pass", 1.6), c=("pass", 9.0), d=("pass", 0.05))
    found = history.compare(first, second, []).slower
    assert found == [Slower(alpha("b"), before=1.0, after=1.6, usual=1.0, spread=0.5)]


def test_slower_by_more_than_its_usual_spread() -> None:
    first = outcomes(t=("pass", 1.0))
    others = [outcomes(t=("pass", 2.0)), outcomes(t=("pass", 4.0)), outcomes(t=("fail", 99.0))]
    assert history.compare(first, outcomes(t=("pass", 5.0)), others).slower == []
    found = history.compare(first, outcomes(t=("pass", 5.1)), others).slower
    assert found == [Slower(alpha("t"), before=1.0, after=5.1, usual=2.0, spread=3.0)]


def test_of_a_test_that_ran_several_times_the_worst_counts() -> None:
    passed = Attempt(1, 1, 0.0, result=Result("pass"), seconds=3.0)
    failed = Attempt(1, 1, 0.0, result=Result("fail"), seconds=1.0)
    run = Run(
        id="",
        bundle=pathlib.Path(),
        size=0,
        profile="",
        started=0.0,
        elapsed=0.0,
        status=Status("completed"),
        exit_code=0,
        counts=Counts(),
        nextest_version="",
        cli_args=(),
        tests=(
            Test("a", "t", Verdict.PASS, (passed,)),
            Test("a", "t", Verdict.FAIL, (failed,)),
        ),
    )
    assert history.outcomes(run) == {("a", "t"): Outcome(Verdict("fail"), 3.0, 1, "fail")}


# The outcome of a test that ran again, by how it ended before and again.
AGAIN = [
    ("pass", "pass", "pass"),
    ("fail", "pass", "flaky"),
    ("fail", "flaky", "flaky"),
    ("fail", "fail", "fail"),
    ("fail", "skip", "fail"),
    ("fail", "unfinished", "fail"),
    ("flaky", "pass", "flaky"),
    ("flaky", "fail", "fail"),
    ("skip", "fail", "fail"),
    ("unfinished", "pass", "pass"),
    ("unfinished", "unfinished", "unfinished"),
]


@pytest.mark.parametrize(("before", "again", "verdict"), AGAIN)
def test_what_ran_again_joins_what_ran_before(before: str, again: str, verdict: str) -> None:
    earlier, later = Outcome(Verdict(before), 1.0), Outcome(Verdict(again), 2.0)
    assert history.joined(earlier, later).verdict == Verdict(verdict)


def test_what_ran_again_has_the_attempts_of_both_and_the_time_of_the_last() -> None:
    earlier = Outcome(Verdict("fail"), 1.0, 3, "it broke")
    later = Outcome(Verdict("pass"), 2.0, 2)
    assert history.joined(earlier, later) == Outcome(Verdict("flaky"), 2.0, 5, "it broke")


def test_of_two_shards_with_one_test_the_worse_counts() -> None:
    passed, failed = Outcome(Verdict("pass"), 3.0, 2), Outcome(Verdict("fail"), 1.0, 1, "no")
    assert history.worse(passed, failed) == Outcome(Verdict("fail"), 3.0, 2, "no")
    assert history.worse(failed, passed) == Outcome(Verdict("fail"), 3.0, 2, "no")
