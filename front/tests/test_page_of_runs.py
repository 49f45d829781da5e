"""What the page of many runs knows, of runs typed by hand, and the command that writes it."""

from __future__ import annotations

import json
import pathlib
import random
import re

import pytest

from rezovamy_runs.page_of_runs import document
from rezovamy_runs.page_of_runs.data import HistoryData, Messages, by_commit, milliseconds
from rezovamy_runs.page_of_runs.data import page_data
from rezovamy_runs.history.joining import JoinedRun, Told, joined_runs
from rezovamy_runs.history.outcomes import Outcome
from rezovamy_runs.model import TestName, Verdict
from rezovamy_runs.store.notes import Part, RunNotes, Shard
from tests.front_end import FrontEnd
from tests.histories import Folder, id_of, row

DATA = re.compile(r'<script type="application/json" id="data">(.*?)</script>')
A, B = RunNotes(commit="a" * 12, branch="main"), RunNotes(commit="b" * 12, branch="other")


def page_of(front_end: FrontEnd, *words: str) -> HistoryData:
    """Return what the page of a folder's runs knows."""
    value: HistoryData = json.loads(DATA.findall(front_end.output("history", *words))[0])
    return value


@pytest.fixture
def history(front_end: FrontEnd) -> FrontEnd:
    """Four runs: t0 passes, t1 is mixed at a commit, t2 over commits, t3 is always skipped."""
    folder = Folder(front_end.runs)
    folder.add(1, "..Fs", A, times=(0.5, 0.25, 0.125))
    folder.add(2, "..--", B)
    folder.add(3, ".FFs", A)
    folder.add(4, ".~.s", RunNotes(commit="a" * 12, branch="main", dirty=True))
    return front_end


def test_tests_are_rows_with_the_least_trusted_first(history: FrontEnd) -> None:
    value = page_of(history, "--page", "-")
    assert [(test["name"], test["kind"], test["marks"]) for test in value["tests"]] == [
        ("t1", "at-one-commit", ".F.~"),
        ("t2", "over-commits", "FF-."),
        ("t0", "always-passes", "...."),
        ("t3", "never-ended", "ss-s"),
    ]
    assert value["tests"][0]["times"] == [250, 1000, 1000, 1000]
    assert value["tests"][1]["times"] == [125, 1000, 1000]
    assert value["tests"][3]["times"] == []


def test_runs_of_a_commit_stand_together(history: FrontEnd) -> None:
    runs = page_of(history, "--page", "-")["runs"]
    assert [run["runs"][0]["id"] for run in runs] == [id_of(1), id_of(3), id_of(2), id_of(4)]
    assert [run["commit"] for run in runs] == ["aaaaaaaa", "aaaaaaaa", "bbbbbbbb", "aaaaaaaa"]
    assert [run["branch"] for run in runs] == ["main", "main", "other", "main"]
    # With changed files it has sources of its own.
    assert runs[0]["code"] == runs[1]["code"]
    assert len({run["code"] for run in runs}) == 3
    assert "changed" in runs[3] and "changed" not in runs[0]


def test_messages_are_those_of_the_runs_that_failed(history: FrontEnd) -> None:
    value = page_of(history, "--page", "-")
    said = [value["messages"][place] for place in value["tests"][0]["said"]]
    assert said == ["exit code 101", "exit code 101"]


def test_messages_have_a_limit() -> None:
    messages = Messages(room=10)
    assert [messages.place(text) for text in ("abcdef", "ghijkl", "abcdef", "", None, "mnop")] == [
        0,
        -1,
        0,
        -1,
        -1,
        1,
    ]


@pytest.mark.parametrize(
    ("seconds", "expected"),
    [(0.0, 0), (0.0000012345, 0.00123), (0.012345, 12.3), (1.2345, 1230), (98765, 98800000)],
)
def test_three_digits_of_a_time_count(seconds: float, expected: float) -> None:
    assert milliseconds(seconds) == expected


def test_two_hundred_runs_of_two_thousand_tests_have_a_small_page() -> None:
    chance = random.Random(7)
    tests = [TestName(f"shop::part_{at % 20}", f"area_{at % 90}::does_{at}") for at in range(2000)]
    columns = joined_runs(row(number) for number in range(200))

    def told(run: JoinedRun) -> list[Told]:
        """Return what a run says: each test takes its time, and each hundredth fails."""
        found = []
        for test in tests:
            verdict = Verdict.FAIL if chance.random() < 0.01 else Verdict.PASS
            outcome = Outcome(verdict, chance.lognormvariate(-3, 1.5), 1, f"no answer {test.test}")
            found.append(Told(run.rows[0].run, test, outcome))
        return found

    text = document.page_html(page_data("shop", columns, told, [], {}))
    assert len(text.encode()) < 5_000_000
    assert text.count('"marks"') == 2000


def test_columns_are_in_the_order_of_commits() -> None:
    commits = {1: "a", 2: "b", 3: None, 4: "a", 5: "b"}
    runs = [JoinedRun((row(number, commit_id=commit),)) for number, commit in commits.items()]
    assert [run.id for run in by_commit(runs)] == [id_of(number) for number in (1, 4, 2, 5, 3)]


def test_runs_that_count_as_one_are_a_column(front_end: FrontEnd) -> None:
    folder = Folder(front_end.runs)
    for number, marks in ((1, ".-F"), (2, "-..")):
        shard = Shard(number, 2)
        folder.add(number, marks, RunNotes(commit="a", group="g", shard=shard))
    (run,) = page_of(front_end, "--page", "-")["runs"]
    assert [one["part"] for one in run["runs"]] == ["shard 1/2", "shard 2/2"]
    # The tests are t2, which both shards ran, t0 of the first one and t1 of the second one.
    assert run["first"] == "001"


def test_what_ran_again_is_a_part_of_its_run(front_end: FrontEnd) -> None:
    folder = Folder(front_end.runs)
    folder.add(1, ".F", A)
    folder.add(2, "-.", RunNotes(commit="a" * 12, part=Part.AGAIN, parent=id_of(1)), parent=1)
    value = page_of(front_end, "--page", "-")
    assert [test["marks"] for test in value["tests"]] == ["~", "."]
    assert [one.get("part") for one in value["runs"][0]["runs"]] == [None, "run again"]


def test_the_page_names_the_pages_beside_it(history: FrontEnd, tmp_path: pathlib.Path) -> None:
    (history.runs / f"{id_of(3)}.html").write_text("a page")
    said = history.output("history", "--page")
    path = history.runs / "history.html"
    assert said == f"{path}\n"
    value = json.loads(DATA.findall(path.read_text())[0])
    pages = [one.get("page") for run in value["runs"] for one in run["runs"]]
    assert pages == [None, f"{id_of(3)}.html", None, None]
    elsewhere = str(tmp_path / "elsewhere.html")
    history.output("history", "--page", elsewhere)
    assert ".html" not in DATA.findall(pathlib.Path(elsewhere).read_text())[0]


def test_words_choose_runs_and_tests(history: FrontEnd) -> None:
    value = page_of(history, "t1", "--branch", "main", "--runs", "2", "--page", "-")
    assert [(test["name"], test["marks"]) for test in value["tests"]] == [("t1", "F~")]


@pytest.mark.parametrize(
    ("words", "status", "said"),
    [
        ((), 2, "name a TEST, or give --page"),
        (("--page", "--json"), 2, "not allowed with argument"),
        (("nowhere", "--page"), 1, "no test has nowhere in its name"),
        (("--page", "missing/page.html"), 1, "name another file with --page"),
        (("--branch", "none", "--page"), 1, "no run of the branch none"),
    ],
)
def test_what_cannot_be_written(
    history: FrontEnd, words: tuple[str, ...], status: int, said: str
) -> None:
    done = history.run("history", *words)
    (line,) = done.stderr.splitlines()
    assert done.returncode == status and said in line


def test_all_files_of_the_page_are_used_and_ask_for_nothing() -> None:
    used = {path for path in (document.ASSETS.frame, *document.ASSETS.styles)}
    used |= set(document.ASSETS.scripts)
    assert set(document.PARTS.iterdir()) <= used
    for path in used:
        text = path.read_text()
        assert not re.search(r"fetch\(|XMLHttpRequest|WebSocket|import\(|innerHTML|eval\(", text)
        assert not re.search(r"url\(|@import", text)
