"""The commands that ask the history, over runs typed by hand."""

from __future__ import annotations

import json

import pytest

from rezovamy_runs.store.notes import Part, RunNotes
from tests.front_end import FrontEnd
from tests.histories import Folder, id_of


@pytest.fixture
def history(front_end: FrontEnd) -> FrontEnd:
    """Four whole runs of two branches, and one of chosen tests."""
    folder = Folder(front_end.runs)
    main = RunNotes(commit="aaaaaaaaaaaa", branch="main")
    folder.add(1, "..F", main)
    folder.add(2, ".FF", main)
    folder.add(3, "...", RunNotes(commit="c", branch="other"))
    folder.add(4, "FFF", RunNotes(commit="bbbbbbbbbbbb", branch="main"))
    folder.add(5, "F", RunNotes(branch="main", part=Part.FILTERED))
    return front_end


def test_flaky(history: FrontEnd) -> None:
    assert history.output("flaky").splitlines() == [
        "failed and passed at one commit: 1 test",
        "  failed  flaky  passed  runs  test",
        "       2      0       2     4  alpha t1",
        "failed in some runs and passed in others, but not at one commit: 2 tests",
        "  failed  flaky  passed  runs  test",
        "       3      0       1     4  alpha t2",
        "       2      0       3     5  alpha t0",
        "3 tests failed over 5 runs; the last one ran 1 test",
    ]


def test_flaky_of_a_branch_as_markdown(history: FrontEnd) -> None:
    words = ("flaky", "--branch", "main", "--runs", "3", "--markdown")
    assert history.output(*words).splitlines() == [
        "**failed in some runs and passed in others, but not at one commit: 1 test**",
        "",
        "| failed | flaky | passed | runs | test |",
        "| ---: | ---: | ---: | ---: | --- |",
        "| 2 | 0 | 1 | 3 | alpha t0 |",
        "",
        "**failed each time: 2 tests**",
        "",
        "| failed | flaky | passed | runs | test |",
        "| ---: | ---: | ---: | ---: | --- |",
        "| 2 | 0 | 0 | 2 | alpha t1 |",
        "| 2 | 0 | 0 | 2 | alpha t2 |",
        "",
        "3 tests failed over 3 runs; the last one ran 1 test",
    ]


def test_history(history: FrontEnd) -> None:
    assert history.output("history", "t1", "--branch", "main").splitlines() == [
        "alpha t1",
        "  4 runs, the latest last: . passed, F failed, - not in the run",
        "  .FF-",
        f"it failed 2 times since the run {id_of(2)} of 1970-01-01 00:16:42, "
        "at commit aaaaaaaa of main",
        "it failed last with: exit code 101",
        f"it passed last in the run {id_of(1)} of 1970-01-01 00:16:41, at commit aaaaaaaa of main",
        "it takes 1.0s usually, from 1.0s to 1.0s; last 1.0s",
    ]


def test_history_for_scripts(history: FrontEnd) -> None:
    (found,) = json.loads(history.output("history", "alpha t0", "--json"))
    assert (found["test"], found["marks"]) == ("t0", "...FF")
    assert found["failing-since"] == {
        "run": id_of(4),
        "started": 1004.0,
        "commit": "bbbbbbbbbbbb",
        "changed": False,
        "branch": "main",
    }
    assert found["passed-last"]["run"] == id_of(3)
    assert found["times"] == {"shortest": 1.0, "usual": 1.0, "longest": 1.0, "last": 1.0}
    assert found["runs"][4]["verdict"] == "fail"


@pytest.mark.parametrize(
    ("words", "said"),
    [
        (("history", "nowhere"), "no test has nowhere in its name"),
        (("history", "t0", "--branch", "none"), "no run of the branch none"),
        (("slowest", "--branch", "none"), "no run of the branch none"),
        (("compare", "--branch", "none"), "no whole run"),
        (("compare", "--branch", "other"), "no whole run of the branch other came before"),
    ],
)
def test_what_is_not_there(history: FrontEnd, words: tuple[str, ...], said: str) -> None:
    done = history.run(*words)
    (line,) = done.stderr.splitlines()
    assert done.returncode == 1 and said in line


def test_compare_takes_the_last_two_whole_runs_of_a_branch(history: FrontEnd) -> None:
    found = json.loads(history.output("compare", "--json"))
    assert (found["first"], found["second"]) == (id_of(2), id_of(4))
    assert [one["test"] for one in found["newly-failing"]] == ["t0"]
    assert [one["test"] for one in found["still-failing"]] == ["t1", "t2"]


@pytest.mark.parametrize(
    ("words", "status"),
    [
        ((), 4),
        ((id_of(1), id_of(2)), 4),
        ((id_of(2), id_of(3)), 0),
        ((id_of(2), id_of(2)), 0),
    ],
)
def test_compare_fails_where_a_test_newly_fails(
    history: FrontEnd, words: tuple[str, ...], status: int
) -> None:
    assert history.run("compare", "--fail", *words).returncode == status


def test_compare_as_markdown(history: FrontEnd) -> None:
    assert history.output("compare", "--markdown").splitlines()[2:6] == [
        "**newly failing: 1 test**",
        "",
        "| test | what went wrong |",
        "| --- | --- |",
    ]


def test_slowest(front_end: FrontEnd) -> None:
    folder = Folder(front_end.runs)
    folder.add(1, "..", times=(1.0, 3.0))
    folder.add(2, "..", times=(1.0, 5.0))
    assert front_end.output("slowest").splitlines() == [
        "the slowest of 2 tests over 2 runs",
        "  usually  longest  last  share  test",
        "     4.0s     5.0s  5.0s  80.0%  alpha t1",
        "     1.0s     1.0s  1.0s  20.0%  alpha t0",
    ]
    (first,) = json.loads(front_end.output("slowest", "--most", "1", "--json"))
    assert first == {
        "binary": "alpha",
        "test": "t1",
        "usual": 4.0,
        "longest": 5.0,
        "last": 5.0,
        "share": 0.8,
    }


def test_slower(front_end: FrontEnd) -> None:
    folder = Folder(front_end.runs)
    for number, seconds in enumerate((1.0, 1.0, 1.0, 2.0, 2.0, 2.0), 1):
        folder.add(number, ".", times=(seconds,))
    words = ("slower", "--latest", "3")
    assert front_end.output(*words).splitlines() == [
        "1 test slower in the latest 3 than in the 3 runs before",
        "  before   now  give or take  test      since",
        f"    1.0s  2.0s        0.000s  alpha t0  run {id_of(4)} of 1970-01-01 00:16:44",
    ]
    (found,) = json.loads(front_end.output(*words, "--json"))
    assert (found["before"], found["now"], found["since"]["run"]) == (1.0, 2.0, id_of(4))


def test_reindex(history: FrontEnd) -> None:
    assert history.output("reindex") == "the index has 5 runs\n"
    assert (history.runs / "history.sqlite").exists()
