"""How the page of a run says what its tests did before: times in two digits, and what is asked."""

from __future__ import annotations

import json
import pathlib
import re

import pytest

from rezovamy_runs.page.past import Past, PagePast, PastRun, PastTest, digits_of, page_past
from rezovamy_runs.model import TestName
from rezovamy_runs.store.notes import RunNotes
from tests.front_end import FrontEnd
from tests.histories import Folder, id_of

DATA = re.compile(r'<script type="application/json" id="data">(.*?)</script>')
A, B = RunNotes(commit="a" * 40), RunNotes(commit="b" * 40, dirty=True)


def told_by(text: str) -> PagePast | None:
    """Return what a page has of the runs before."""
    past: PagePast | None = json.loads(DATA.findall(text)[0])["past"]
    return past


@pytest.mark.parametrize(
    ("seconds", "digits"),
    [
        (None, "  "),
        (0, "00"),
        (0.000_001, "00"),
        # Ten times the shortest time is 340 steps, which are 5 times 64 and 20.
        (0.000_01, "5K"),
        # A second is 6 times 340 steps: 2040, which are 31 times 64 and 56.
        (1, "Vu"),
        (10**9, "__"),
    ],
)
def test_a_time_takes_two_digits(seconds: float | None, digits: str) -> None:
    assert digits_of(seconds) == digits


def test_marks_that_tests_share_are_there_once() -> None:
    names = ["one", "two", "three", "new"]
    tests = [TestName("alpha", name) for name in names]
    known = {
        TestName("alpha", name): PastTest(marks, (1, None), kind)
        for name, marks, kind in [
            ("one", ".s", None),
            ("two", "F?", "always-fails"),
            ("three", ".s", None),
        ]
    }
    runs = (PastRun(0, "c" * 40, True), PastRun(60))
    assert page_past(Past(runs, known), tests) == {
        "runs": [
            {"when": "1970-01-01 00:00:00", "commit": "c" * 12, "changed": True},
            {"when": "1970-01-01 00:01:00"},
        ],
        "tests": [0, 1, 0, 2],
        "marks": [".s", "F?", "--"],
        "times": "Vu  Vu  Vu      ",
        "kinds": {"1": "always-fails"},
    }


@pytest.fixture
def history(front_end: FrontEnd) -> FrontEnd:
    """Four runs, of which the third is that of the page."""
    folder = Folder(front_end.runs)
    folder.add(1, "..F-", A, times=(0.1, 1, 1))
    folder.add(2, ".F-.", A)
    folder.add(3, ".FFs", B)
    folder.add(4, "....", B)
    return front_end


def test_a_page_has_the_runs_up_to_its_own(history: FrontEnd) -> None:
    past = told_by(history.output("page", id_of(3), "--to", "-"))
    assert past is not None
    # The events of made runs count from 1000 seconds after the start of 1970.
    assert [past["marks"][place] for place in past["tests"]] == ["...", ".FF", "F-F", "-.s"]
    assert past["runs"] == [
        {"when": "1970-01-01 00:16:41", "commit": "a" * 12},
        {"when": "1970-01-01 00:16:42", "commit": "a" * 12},
        {"when": "1970-01-01 00:16:43", "commit": "b" * 12, "changed": True},
    ]
    # A tenth of a second is 5 times 340 steps: 1700, which are 26 times 64 and 36.
    assert past["times"] == "QaVuVu" + "VuVuVu" + "Vu  Vu" + "  Vu  "
    assert past["kinds"] == {"1": "at-one-commit", "2": "always-fails"}


def test_a_page_has_twenty_runs_at_most(front_end: FrontEnd) -> None:
    folder = Folder(front_end.runs)
    for number in range(1, 24):
        folder.add(number, "F" if number < 5 else ".")
    past = told_by(front_end.output("page", id_of(23), "--to", "-"))
    assert past is not None
    assert past["marks"] == ["F" + "." * 19]


def test_a_first_run_and_one_from_elsewhere_have_no_past(
    history: FrontEnd, tmp_path: pathlib.Path
) -> None:
    assert told_by(history.output("page", id_of(1), "--to", "-")) is None
    Folder(tmp_path / "elsewhere").add(9, ".")
    bundle = tmp_path / "elsewhere" / f"{id_of(9)}.bundle"
    assert told_by(history.output("page", str(bundle), "--to", "-")) is None


def test_a_history_that_can_not_be_asked_is_told(history: FrontEnd) -> None:
    history.environment["REZOVAMY_HISTORY"] = "mysql://nowhere"
    done = history.run("page", id_of(3), "--to", "-")
    assert done.returncode == 0
    assert told_by(done.stdout) is None
    assert done.stderr == (
        "rezovamy-runs: the page is made without earlier results: REZOVAMY_HISTORY is no URL of "
        "PostgreSQL: give one as postgresql://HOST/NAME\n"
    )
