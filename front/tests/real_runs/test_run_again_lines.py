"""The lines of `run_again` run exactly the tests that are named."""

from __future__ import annotations

import pathlib
import re
import subprocess

import pytest

from tests import FRONT
from tests.real_runs.cargo_runs import Answer, Cargo, cargo_in

pytestmark = pytest.mark.cargo

TOOL = FRONT / "run_again"
INFO = '{"parent-run-id":"550e8400-e29b-41d4-a716-446655440000","root-info":{},"test-suites":[]}\n'
RAN = re.compile(r"^test (.*?)(?: - should panic)? \.\.\. ", re.M)
# What `rerun` prints of runs of the packages, in the order of the binaries. Those are left out of
# which nothing is to run again.
SUMS = """run sums tests::adds_very_many
run sums::wrong answers_an_error
run sums::wrong expects_a_product
skip sums tests::adds
skip sums tests::none_above_the_range
skip sums::wrong panics
"""
MISHAPS = """run ends::exits_late exits_late
run ends::plain_fails plain_fails
run names::bin/tool works
run names::doc/names names/src/lib.rs - (line 11)
run names::it misst_größe
skip ends::exits_late passes
skip names::doc/names names/src/lib.rs - (line 3)
skip names::doc/names names/src/lib.rs - (line 7)
skip names::it panics_not
"""
DOCTESTS = [f"names/src/lib.rs - (line {number})" for number in (11, 3, 7)]


def lines_of(text: str) -> list[str]:
    """Return the lines that are printed for lines of `rerun`."""
    done = subprocess.run([TOOL], input=INFO + text, capture_output=True, text=True, check=False)
    assert done.returncode == 0, done.stderr
    return done.stdout.splitlines()


def run_line(cargo: Cargo, line: str) -> Answer:
    """Run a line in a shell."""
    return cargo.answer(["sh", "-c", line])


def names_of(answer: Answer) -> list[str]:
    """Return the names of the tests that ran, in the order of their letters."""
    return sorted(RAN.findall(answer.lines.decode()))


def test_what_failed_of_the_sums_runs_again(tmp_path: pathlib.Path) -> None:
    cargo = cargo_in(tmp_path, "sums")
    assert [names_of(run_line(cargo, line)) for line in lines_of(SUMS)] == [
        ["tests::adds_very_many"],
        ["answers_an_error", "expects_a_product"],
    ]


def test_what_failed_of_the_mishaps_runs_again(cargo: Cargo) -> None:
    """What has no name of its own runs whole: a binary that failed by itself, and doctests."""
    answers = [run_line(cargo, line) for line in lines_of(MISHAPS)]
    assert [names_of(answer) for answer in answers] == [
        ["passes"],
        [],
        ["works"],
        DOCTESTS,
        ["misst_größe"],
    ]
    assert b"plain, and fails" in answers[1].lines
