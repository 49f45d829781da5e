"""What questions answer of typed rows: which runs count as one, flakiness, times, timelines."""

from __future__ import annotations

import pytest

from rezovamy_runs import model
from rezovamy_runs.history import durations, flakiness, joining, timelines
from rezovamy_runs.history.durations import Slow, Slowed
from rezovamy_runs.history.flakiness import Kind, Record, Tally
from rezovamy_runs.history.joining import JoinedRun, Told
from rezovamy_runs.history.outcomes import Outcome
from rezovamy_runs.history.rows import RunRow, key_of, key_of_run
from rezovamy_runs.history.timelines import Times
from rezovamy_runs.model import Verdict
from tests.histories import id_of, row

ALPHA = model.TestName("alpha", "t")
PASS, FAIL, FLAKY = Verdict.PASS, Verdict.FAIL, Verdict.FLAKY
VERDICTS = {
    ".": Verdict.PASS,
    "F": Verdict.FAIL,
    "~": Verdict.FLAKY,
    "s": Verdict.SKIP,
    "?": Verdict.UNFINISHED,
}


def alone(*rows: RunRow) -> list[JoinedRun]:
    """Runs that each count as one."""
    return [JoinedRun((one,)) for one in rows]


# Keys.


def test_a_key_is_made_of_the_name_alone() -> None:
    """The first eight bytes of BLAKE2b of 64 bits, as `b2sum -l 64` prints them."""
    assert key_of("") == int.from_bytes(bytes.fromhex("e4a6a0577479b2b4"), "big", signed=True)
    assert key_of("a", "bc") != key_of("ab", "c")


# Which runs count as one.


def numbers_of(runs: list[JoinedRun]) -> list[list[int]]:
    """The numbers of runs that count as one."""
    return [[int(one.id[:8], 16) for one in run.rows] for run in runs]


@pytest.mark.parametrize(
    ("rows", "expected"),
    [
        ([], []),
        ([row(2), row(1)], [[1], [2]]),
        # What ran again belongs to its parent, over several steps.
        ([row(1), row(2, parent=id_of(1)), row(3)], [[1, 2], [3]]),
        ([row(1), row(2, parent=id_of(1)), row(3, parent=id_of(2))], [[1, 2, 3]]),
        # The parent isn't there.
        ([row(2, parent=id_of(1)), row(3)], [[2], [3]]),
        # Other sources ran, by the commit or by changed files.
        ([row(1, commit_id="a"), row(2, parent=id_of(1), commit_id="b")], [[1], [2]]),
        ([row(1, commit_id="a"), row(2, parent=id_of(1), commit_id="a", dirty=1)], [[1], [2]]),
        ([row(1, commit_id="a"), row(2, parent=id_of(1), commit_id="a")], [[1, 2]]),
        # Shards of a group, and what ran again of one of them.
        ([row(1, group_name="g"), row(2), row(3, group_name="g")], [[1, 3], [2]]),
        ([row(1, group_name="g"), row(2, group_name="g"), row(3, parent=id_of(1))], [[1, 2, 3]]),
        # What ran again stands at the end, whatever its clock said.
        ([row(1, parent=id_of(2), part="again"), row(2)], [[2, 1]]),
        # Runs that name each other.
        ([row(1, parent=id_of(2)), row(2, parent=id_of(1))], [[1], [2]]),
    ],
)
def test_which_runs_count_as_one(rows: list[RunRow], expected: list[list[int]]) -> None:
    assert numbers_of(joining.joined_runs(rows)) == expected


@pytest.mark.parametrize(
    ("rows", "expected"),
    [
        ([row(1)], True),
        ([row(1, status="cancelled")], False),
        ([row(1, part="filtered")], False),
        ([row(1, part="again")], False),
        ([row(1), row(2, part="again")], True),
        ([row(1, shard="1/2"), row(2, shard="2/2")], True),
        ([row(1, shard="1/2")], False),
        ([row(1, shard="1/2"), row(2, shard="2/2", status="incomplete")], False),
    ],
)
def test_which_run_is_whole(rows: list[RunRow], expected: bool) -> None:
    assert JoinedRun(tuple(rows)).is_whole == expected


@pytest.mark.parametrize(
    ("rows", "commit"),
    [
        ([row(1)], None),
        ([row(1, commit_id="a")], "a"),
        ([row(1, commit_id="a", dirty=1)], None),
        ([row(1, commit_id="a"), row(2, commit_id="a")], "a"),
        ([row(1, commit_id="a"), row(2, commit_id="b")], None),
    ],
)
def test_the_commit_of_a_run(rows: list[RunRow], commit: str | None) -> None:
    assert JoinedRun(tuple(rows)).commit == commit


def test_the_latest_runs() -> None:
    runs = alone(row(1, branch="m"), row(2, branch="x"), row(3, branch="m", part="filtered"))
    assert joining.latest(runs, 2) == runs[1:]
    assert joining.latest(runs, 9) == runs
    assert joining.latest(runs, 9, "m") == [runs[0], runs[2]]
    assert joining.latest(runs, 1, "m", only_whole=True) == [runs[0]]
    assert joining.latest(runs, 0) == []


def test_what_ran_again_is_merged() -> None:
    run = JoinedRun((row(1), row(2, part="again")))
    told = [
        Told(key_of_run(id_of(2)), ALPHA, Outcome(PASS, 2.0)),
        Told(key_of_run(id_of(1)), ALPHA, Outcome(FAIL, 1.0, 1, "no")),
    ]
    assert joining.outcomes_by_run([run], told) == [{ALPHA: Outcome(FLAKY, 2.0, 2, "no")}]


def test_a_test_of_two_shards_is_merged() -> None:
    run = JoinedRun((row(1, shard="1/2"), row(2, shard="2/2")))
    told = [
        Told(key_of_run(id_of(1)), ALPHA, Outcome(FAIL, 1.0)),
        Told(key_of_run(id_of(2)), ALPHA, Outcome(PASS, 2.0)),
    ]
    assert joining.outcomes_by_run([run], told) == [{ALPHA: Outcome(FAIL, 2.0)}]


def test_equal_commits_have_equal_numbers_and_unknown_ones_none() -> None:
    runs = alone(
        row(1, commit_id="a"), row(2, commit_id="b"), row(3), row(4, commit_id="a", dirty=1)
    ) + [JoinedRun((row(5, commit_id="a"), row(6, commit_id="a")))]
    assert flakiness.codes(runs) == [0, 1, -3, -4, 0]


# Flakiness.


@pytest.mark.parametrize(
    ("tallies", "record", "kind"),
    [
        # Sources, and there: passed, did both, failed.
        ([(0, 3, 0, 0)], (3, 0, 0, 0), Kind.ALWAYS_PASSES),
        ([(0, 0, 0, 2), (1, 0, 0, 1)], (0, 0, 3, 0), Kind.ALWAYS_FAILS),
        ([(0, 2, 0, 0), (1, 0, 0, 1)], (2, 0, 1, 0), Kind.OVER_COMMITS),
        ([(0, 2, 0, 1), (1, 1, 0, 0)], (3, 0, 1, 1), Kind.AT_ONE_COMMIT),
        ([(0, 0, 1, 0)], (0, 1, 0, 1), Kind.AT_ONE_COMMIT),
        ([(0, 0, 1, 3), (1, 1, 0, 1)], (1, 1, 4, 2), Kind.AT_ONE_COMMIT),
    ],
)
def test_kinds(
    tallies: list[tuple[int, int, int, int]], record: tuple[int, int, int, int], kind: Kind
) -> None:
    (found,) = flakiness.records([Tally(ALPHA, *tally) for tally in tallies])
    assert found == Record(ALPHA, *record)
    assert found.kind is kind


def test_the_least_trusted_come_first() -> None:
    by_name = {
        "always": [(0, 0, 0, 4)],
        "steady": [(0, 4, 0, 0)],
        "regressed": [(0, 1, 0, 0), (1, 0, 0, 1)],
        "often": [(0, 2, 0, 2)],
        "seldom": [(0, 9, 0, 1)],
        "again": [(0, 2, 2, 0)],
    }
    tallies = [Tally(model.TestName("a", name), *one) for name in by_name for one in by_name[name]]
    assert [record.test.test for record in flakiness.records(tallies)] == [
        "again",
        "often",
        "seldom",
        "regressed",
        "always",
        "steady",
    ]


def test_what_several_runs_say_that_count_as_one_counts_once() -> None:
    shards = JoinedRun((row(1), row(2)))
    runs = [shards, *alone(row(3), row(4))]
    ended = [
        (7, key_of_run(id_of(number)), verdict)
        for number, verdict in ((1, "pass"), (2, "pass"), (3, "fail"), (4, "flaky"), (5, "fail"))
    ]
    # The sources of no run are known.
    assert flakiness.tallies(runs, ended, {7: ALPHA}) == [
        Tally(ALPHA, -1, 1, 0, 0),
        Tally(ALPHA, -3, 0, 1, 0),
        Tally(ALPHA, -2, 0, 0, 1),
    ]
    again = [(7, key_of_run(id_of(1)), "fail"), (7, key_of_run(id_of(2)), "pass")]
    assert flakiness.tallies([shards], again, {7: ALPHA}) == [Tally(ALPHA, -1, 0, 1, 0)]


# The runs of a test.


def timeline_of(marks: str, times: tuple[float, ...] = ()) -> timelines.Timeline:
    """A test that ended so in runs 1, 2 and so on."""
    runs = alone(*(row(number) for number in range(1, len(marks) + 1)))
    outcomes = [
        {ALPHA: Outcome(VERDICTS[mark], times[place] if times else 1.0)} if mark != "-" else {}
        for place, mark in enumerate(marks)
    ]
    return timelines.timeline(ALPHA, runs, outcomes)


@pytest.mark.parametrize(
    ("marks", "failing", "passed_last"),
    [
        ("", [], None),
        ("...", [], 3),
        ("F", [1], None),
        ("..FF", [3, 4], 2),
        ("FF.F", [4], 3),
        ("F..", [], 3),
        (".F~", [], 3),
        # What isn't known neither ends nor makes a stretch of failures.
        (".F-s?F-", [2, 6], 1),
        ("s-?", [], None),
        (".s", [], 1),
    ],
)
def test_since_when_a_test_fails(marks: str, failing: list[int], passed_last: int | None) -> None:
    found = timeline_of(marks)
    assert found.marks == marks
    assert [int(entry.run.started) for entry in found.failing] == failing
    last = found.passed_last
    assert (int(last.run.started) if last else None) == passed_last


def test_the_times_of_a_test() -> None:
    found = timeline_of(".F.~s.", (3.0, 99.0, 1.0, 2.0, 99.0, 8.0))
    assert found.times == Times(shortest=1.0, usual=2.5, longest=8.0, last=8.0)
    assert timeline_of("FFs").times is None


def test_which_tests_a_word_names() -> None:
    names = [model.TestName("b", "x"), model.TestName("a", "x"), model.TestName("a", "x::y")]
    assert timelines.matching(names, "x") == [model.TestName("a", "x"), model.TestName("b", "x")]
    assert timelines.matching(names, "b x") == [model.TestName("b", "x")]
    assert timelines.matching(names, ":") == [model.TestName("a", "x::y")]
    assert timelines.matching(names, "z") == []


# Times of all tests.


def outcomes_of(**times: float) -> dict[model.TestName, Outcome]:
    """The outcomes of a run: tests with their times. Those below 0 failed."""
    return {
        model.TestName("a", name): Outcome(FAIL if seconds < 0 else PASS, abs(seconds))
        for name, seconds in times.items()
    }


def test_the_slowest() -> None:
    runs = [outcomes_of(x=1, y=6), outcomes_of(x=3, y=6, z=-9), outcomes_of(x=2, y=-50)]
    assert durations.slowest(runs) == [
        Slow(model.TestName("a", "y"), usual=6, longest=6, last=6, share=0.75),
        Slow(model.TestName("a", "x"), usual=2, longest=3, last=2, share=0.25),
    ]
    assert durations.slowest([]) == []


# The times of the earlier runs, of the three latest ones, and since which run, 1 being the first.
SLOWER = [
    ((1, 1, 1), (2, 2, 2), 4),
    # Twice as slow only by chance: the spread was as much before.
    ((1, 2, 1), (2, 2, 2), None),
    ((1, 2, 1), (2.1, 2.1, 2.1), 4),
    # Within the least difference.
    ((0.01, 0.01, 0.01), (0.06, 0.06, 0.06), None),
    ((0.01, 0.01, 0.01), (0.07, 0.07, 0.07), 4),
    # The usual time counts, not a single one.
    ((1, 1, 1), (9, 1, 1), None),
    ((1, 1, 1), (1, 9, 9), 5),
    # Too little is known.
    ((1, 1), (2, 2, 2), None),
    ((1, 1, 1), (2, 2, -2), None),
]


@pytest.mark.parametrize(("before", "now", "since"), SLOWER)
def test_slower(before: tuple[float, ...], now: tuple[float, ...], since: int | None) -> None:
    outcomes = [outcomes_of(t=seconds) for seconds in (*before, *now)]
    runs = alone(*(row(number) for number in range(1, len(outcomes) + 1)))
    found = durations.slower(runs, outcomes, latest=3)
    assert [int(one.since.started) for one in found] == ([] if since is None else [since])


def test_slower_since_a_run_before_the_latest() -> None:
    """Of the five runs before the latest three, one was slow already."""
    outcomes = [outcomes_of(t=seconds) for seconds in (1, 1, 1, 1, 5, 5, 5, 5)]
    runs = alone(*(row(number) for number in range(1, 9)))
    assert durations.slower(runs, outcomes, latest=3) == [
        Slowed(model.TestName("a", "t"), before=1, now=5, spread=0, since=runs[4])
    ]


@pytest.mark.parametrize(
    ("times", "spread"),
    [
        ((1,), 0),
        ((1, 2, 5, 3), 4),
        ((1, 2, 3, 4, 9), 2),
        (tuple(range(19)), 16),
        (tuple(range(20)), 15),
    ],
)
def test_the_spread_of_times(times: tuple[float, ...], spread: float) -> None:
    assert durations.spread_of(times) == spread
