"""The pages of docs/tasks: their lines work as they stand, one after the other."""

from __future__ import annotations

import os
import pathlib
import re

import pytest

from tests import TOP
from tests.real_runs.cloned import blocks_of, clone_in

pytestmark = [pytest.mark.cargo, pytest.mark.program]

SCREEN = 40
# What the lines of a page print, in order, and the status with which they end.
PAGES = {
    "find-flaky-tests.md": (
        0,
        [
            r"^ +failed +flaky +passed +runs +test$",
            r"^ +2 +0 +2 +4 +ends::flaky passes_at_the_second_run$",
            r"^1 test failed over 4 runs; the last one ran 2 tests$",
            r"^  F\.F\.$",
            r"^2 tests in .*: 2 passed \(1 flaky\)$",
            r"^FAIL .* ends::flaky passes_at_the_second_run .*attempt 1 of 2",
            r"^PASS .* ends::flaky passes_at_the_second_run .*attempt 2 of 2",
            r"^/.*\.html$",
        ],
    ),
    "open-the-timeline-in-perfetto.md": (0, [r"^8 tests in .*: 6 passed, 2 failed, 1 skipped$"]),
    "record-in-ci.md": (
        101,
        [
            r"^8 tests in .*: 6 passed, 2 failed, 1 skipped$",
            r"^/.*/test-run/junit/junit\.xml$",
            r"^/.*/test-run/page\.html$",
            r"^FAIL .* sums::wrong expects_a_product ",
        ],
    ),
    "salvage-a-killed-run.md": (
        0,
        [
            r"^accepted=0\naccepted=1\naccepted=2\naccepted=3\naccepted=4\naccepted=5$",
            r"^events=5 outputs=0 stopped$",
            r"^UNFINISHED sums tests::adds$",
            r"^events=5 outputs=0$",
        ],
    ),
}


def test_each_page_is_tried() -> None:
    assert sorted(PAGES) == sorted(os.listdir(TOP / "docs/tasks"))


@pytest.mark.parametrize("page", PAGES)
def test_a_page_is_one_screen(page: str) -> None:
    assert len((TOP / "docs/tasks" / page).read_text().splitlines()) <= SCREEN


@pytest.mark.parametrize("page", PAGES)
def test_the_lines_work(page: str, program: pathlib.Path, tmp_path: pathlib.Path) -> None:
    clone = clone_in(tmp_path, program)
    clone.run("front/install.sh ~/.local", ".", 0)
    status, printed = PAGES[page]
    said = clone.run("".join(blocks_of(f"docs/tasks/{page}")), ".", status)
    for pattern in printed:
        found = re.search(pattern, said, re.M)
        assert found, (pattern, said)
        said = said[found.end() :]
