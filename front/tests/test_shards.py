"""Which tests a run has: those of a shard, and those that words choose."""

from __future__ import annotations

import pytest

from rezovamy_runs.collecting import chosen_tests, sharding
from rezovamy_runs.runner import run_facts
from rezovamy_runs.runner.run_facts import Asked, Machine
from rezovamy_runs.store.ci_variables import CiRun
from rezovamy_runs.store.git_state import GitState
from rezovamy_runs.store.notes import CiJob, Part, RunNotes, Shard

# SHA-256 of `BINARY NUL TEST` by `printf 'sums\0adds' | sha256sum`, of which the first 16 digits
# stand here.
HASHES = [
    ("sums", "adds", 0xC4DD1DB8634BAF58),
    ("sums::slow", "takes_a_second", 0xAB5052F7AEE4C228),
    ("alpha", "t0", 0x3B5EDA2812E117D4),
]


@pytest.mark.parametrize("total", [1, 2, 3, 7])
def test_each_test_is_in_one_shard(total: int) -> None:
    shards = [Shard(number, total) for number in range(1, total + 1)]
    for number in range(200):
        names = ("alpha", f"test_{number}")
        assert sum(sharding.has_test(shard, *names) for shard in shards) == 1


@pytest.mark.parametrize(("binary", "test", "number"), HASHES)
def test_the_hash_of_the_names_decides(binary: str, test: str, number: int) -> None:
    for total in (2, 3, 10, 1000):
        shard = Shard(number % total + 1, total)
        assert sharding.has_test(shard, binary, test)


@pytest.mark.parametrize(
    ("words", "chosen"),
    [
        ([], False),
        (["--workspace"], False),
        (["--all-targets", "--release", "-j", "4", "-j4", "--features", "a b"], False),
        (["+nightly", "-Z", "build-std", "--target", "x", "--config", "a=1"], False),
        (["--", "--test-threads", "1", "--nocapture", "--include-ignored"], False),
        (["--", "--exact"], False),
        (["adds"], True),
        (["--lib"], True),
        (["-p", "sums"], True),
        (["-psums"], True),
        (["--package=sums"], True),
        (["--workspace", "--exclude", "sums"], True),
        (["--test", "slow"], True),
        (["--test=slow"], True),
        (["--doc"], True),
        (["--release", "adds"], True),
        (["--", "adds"], True),
        (["--", "--skip", "adds"], True),
        (["--", "--ignored"], True),
        (["--", "--test-threads", "1", "adds"], True),
    ],
)
def test_words_choose_some_of_the_tests_or_not(words: list[str], chosen: bool) -> None:
    assert chosen_tests.chooses(words) is chosen


# What is known before a run.

CI = CiRun(
    job=CiJob("gitlab", "tests 2/4", "https://ci.example/9"),
    group="gitlab-88-tests",
    shard=Shard(2, 4),
    project="team/shop",
    commit="of-ci",
    branch="topic",
)
GIT = GitState("of-git", "main", True)


@pytest.mark.parametrize(
    ("asked", "machine", "known"),
    [
        (Asked(), Machine(), RunNotes()),
        (
            Asked(command=("rezovamy-runs", "test")),
            Machine(folder="shop", host="h", rustc="rustc 1", cargo="cargo 1", git=GIT),
            RunNotes(
                command=("rezovamy-runs", "test"),
                project="shop",
                commit="of-git",
                branch="main",
                dirty=True,
                host="h",
                rustc="rustc 1",
                cargo="cargo 1",
            ),
        ),
        (
            Asked(),
            Machine(folder="shop", git=GIT, ci=CI),
            RunNotes(
                project="team/shop",
                commit="of-git",
                branch="topic",
                dirty=True,
                job=CI.job,
                group="gitlab-88-tests",
                shard=Shard(2, 4),
            ),
        ),
        (
            # A CI without git: the commit is what the CI says. All tests run.
            Asked(shard=Shard(1, 1)),
            Machine(ci=CI),
            RunNotes(project="team/shop", commit="of-ci", branch="topic", job=CI.job),
        ),
        (
            Asked(group="mine", shard=Shard(1, 3), notes={"branch": "noted", "colour": "red"}),
            Machine(ci=CI),
            RunNotes(
                project="team/shop",
                commit="of-ci",
                branch="noted",
                job=CI.job,
                group="mine",
                shard=Shard(1, 3),
                free={"colour": "red"},
            ),
        ),
        (Asked(group="mine"), Machine(), RunNotes(group="mine")),
    ],
    ids=["nothing", "a machine", "a shard of a CI", "all of a CI", "own words", "a group alone"],
)
def test_what_is_known_before_a_run(asked: Asked, machine: Machine, known: RunNotes) -> None:
    assert run_facts.notes_of(asked, machine) == known


@pytest.mark.parametrize(
    ("notes", "tests", "is_chosen", "part"),
    [
        (RunNotes(), 3, False, Part.WHOLE),
        (RunNotes(), 3, True, Part.FILTERED),
        (RunNotes(), 0, True, Part.NONE),
        (RunNotes(), 0, False, Part.NONE),
        (RunNotes(parent="0a1b"), 3, True, Part.AGAIN),
        (RunNotes(parent="0a1b"), 0, False, Part.AGAIN),
        # A shard may have no test of a few; the group is whole with it.
        (RunNotes(shard=Shard(2, 4)), 0, False, Part.WHOLE),
        (RunNotes(shard=Shard(2, 4)), 0, True, Part.FILTERED),
    ],
)
def test_how_much_of_the_tests_a_run_has(
    notes: RunNotes, tests: int, is_chosen: bool, part: Part
) -> None:
    assert run_facts.part_of(notes, tests, is_chosen) is part
