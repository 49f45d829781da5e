"""Tests in quarantine: which a file names, and what their failures do to the status of a run."""

from __future__ import annotations

import datetime
import pathlib
from collections.abc import Mapping

import pytest

from rezovamy_runs import quarantine
from rezovamy_runs.bundles import bundle
from rezovamy_runs.faults.fault import Fault
from rezovamy_runs.model import Run, TestName
from rezovamy_runs.quarantine import Entry, Quarantine
from tests import made

TODAY = datetime.date(2026, 6, 15)
DAY = datetime.date(2026, 12, 31)

LINES = [
    ("", None),
    ("   # only a comment", None),
    ("#panics", None),
    ("panics", Entry(1, "panics")),
    ("  sums::wrong panics\t", Entry(1, "sums::wrong panics")),
    ("panics until 2026-12-31", Entry(1, "panics", DAY)),
    ("panics  until  2026-12-31  #  by day ", Entry(1, "panics", DAY, "by day")),
    ("panics # a # b", Entry(1, "panics", None, "a # b")),
    ("a#b", Entry(1, "a#b")),
    ("until 2026-12-31", Entry(1, "until 2026-12-31")),
    ("panics until soon", Entry(1, "panics until soon")),
    ("sums::doc/sums src/lib.rs - f (line 3)", Entry(1, "sums::doc/sums src/lib.rs - f (line 3)")),
]


@pytest.mark.parametrize("line, entry", LINES)
def test_a_line(line: str, entry: Entry | None) -> None:
    assert quarantine.entry_of(pathlib.Path("f"), 1, line) == entry


NAMES = [
    ("panics", True),
    ("sums::wrong panics", True),
    ("panic", False),
    ("wrong panics", False),
    ("sums::wrong *", True),
    ("*panics", True),
    ("pan*cs", True),
    ("p*n*s", True),
    ("pan*x", False),
    ("*", True),
    ("pan.cs", False),
    ("[p]anics", False),
]


@pytest.mark.parametrize("tests, is_named", NAMES)
def test_which_tests_a_line_names(tests: str, is_named: bool) -> None:
    entry = Entry(1, tests)
    found = Quarantine("f", (entry,)).entry_of(TestName("sums::wrong", "panics"))
    assert found == (entry if is_named else None)


def test_the_first_line_counts_that_names_a_test_wholly() -> None:
    entries = (Entry(1, "*"), Entry(2, "t", None, "first"), Entry(3, "t", None, "second"))
    assert Quarantine("f", entries).entry_of(TestName("b", "t")) == entries[1]


@pytest.mark.parametrize(
    "until, counts", [("2026-06-14", False), ("2026-06-15", True), ("2026-06-16", True)]
)
def test_until_is_the_last_day(tmp_path: pathlib.Path, until: str, counts: bool) -> None:
    path = tmp_path / "list"
    path.write_text(f"\ufeff# ours\r\nt0 until {until}\r\n", "utf-8")
    found = quarantine.read(path, TODAY)
    assert [one.tests for one in found.entries] == ["t0"] * counts
    assert [one.number for one in found.expired] == [2] * (not counts)


@pytest.mark.parametrize(
    "data, said",
    [
        (b"a\nb until 2026-02-30\n", ":2: 2026-02-30 is no day: write it as 2026-12-31"),
        (b"\xff\n", " can't be read: it is no UTF-8; mend the file, or remove it"),
    ],
)
def test_a_file_that_is_wrong(tmp_path: pathlib.Path, data: bytes, said: str) -> None:
    path = tmp_path / "list"
    path.write_bytes(data)
    with pytest.raises(Fault) as raised:
        quarantine.read(path, TODAY)
    assert (str(raised.value), raised.value.status) == (f"{path}{said}", 2)


def run_of(
    folder: pathlib.Path, results: Mapping[str, object], unended: str = "", broken: str = ""
) -> Run:
    """Return a run of tests that ended so, one that never did, or that was broken off."""
    events = [made.run_started()]
    for name, result in results.items():
        events += [made.started(1, name), made.finished(2, name, made.status(1, 1, result))]
    if unended:
        events.append(made.started(1, unended))
    passed = list(results.values()).count("pass")
    ended = made.completed(passed, len(results) - passed, 101)
    if broken:
        ended = {**ended, "status": broken}
    path = folder / "run.bundle"
    path.write_bytes(made.bundle(*events, made.run_finished(3, 3), ended=ended))
    return bundle.read_run(path)


FAIL = made.exit_code()
STATUSES = [
    ("only a test in quarantine failed", {"t0": "pass", "t1": FAIL}, {}, 101, 0),
    ("another one failed too", {"t0": FAIL, "t1": FAIL}, {}, 101, 101),
    ("nothing failed, and the status is not that of tests", {"t0": "pass"}, {}, 101, 101),
    ("a build failed", {"t1": FAIL}, {}, 4, 4),
    ("a test never ended", {"t1": FAIL}, {"unended": "t2"}, 101, 101),
    ("the run was broken off", {"t1": FAIL}, {"broken": "cancelled"}, 101, 101),
    ("all passed", {"t0": "pass", "t1": "pass"}, {}, 0, 0),
]


@pytest.mark.program
@pytest.mark.parametrize(
    "results, more, status, excused",
    [row[1:] for row in STATUSES],
    ids=[row[0] for row in STATUSES],
)
def test_the_status_of_a_run(
    tmp_path: pathlib.Path,
    results: Mapping[str, object],
    more: Mapping[str, str],
    status: int,
    excused: int,
) -> None:
    run = run_of(tmp_path, results, **more)
    assert Quarantine("f", (Entry(1, "t1"),)).status(run, status) == excused


@pytest.mark.program
def test_what_is_said_of_the_file(tmp_path: pathlib.Path) -> None:
    run = run_of(tmp_path, {"t0": "pass"})
    known = Quarantine(
        "list",
        (Entry(1, "t0"), Entry(2, "t9"), Entry(3, "alpha *"), Entry(4, "beta *")),
        (Entry(5, "t0", DAY),),
    )
    ended = "the quarantine of `t0` ended on 2026-12-31"
    expired = f"list:5: {ended}: mend the test, or set another day"
    assert list(known.remarks(run, False)) == [expired]
    assert list(known.remarks(run, True)) == [
        expired,
        "list:2: no test of the run is called `t9`: correct the line, or remove it",
        "list:4: no test of the run is called `beta *`: correct the line, or remove it",
    ]
