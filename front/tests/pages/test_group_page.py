"""The page of a group in Chromium: a band of rows for each shard."""

from __future__ import annotations

import pathlib

import pytest

from rezovamy_runs.page import document
from rezovamy_runs.store import notes
from rezovamy_runs.store.notes import RunNotes, Shard
from tests import made
from tests.opened_page import READY, Page

pytestmark = [pytest.mark.browser, pytest.mark.program]


def shard_of(folder: pathlib.Path, number: int) -> pathlib.Path:
    """Write the run of a shard with two tests in slots 0 and 1, and return its bundle."""
    run_id = f"{number:08x}-0000-4000-8000-000000000000"
    events: list[object] = [made.run_started(number)]
    for slot in (0, 1):
        name = f"t{number}{slot}"
        events += [
            made.started(number, name, slot),
            made.finished(number + 1, name, made.status(number, 1)),
        ]
    path = folder / f"{run_id}.bundle"
    ended = made.completed(2, 0)
    finished = made.run_finished(number + 1, 1)
    path.write_bytes(made.bundle(*events, finished, ended=ended, at=number, run_id=run_id))
    notes.write(RunNotes(group="g", shard=Shard(number, 2)), notes.path_beside(path))
    return path


def test_rows_are_in_bands(page: Page) -> None:
    """The first row of a band has its name. The details say of which shard a slot is."""
    paths = [shard_of(page.folder, number) for number in (1, 2)]
    target = page.folder / "group.html"
    target.write_text(document.page_of_several("g", paths))
    page.address = target.resolve().as_uri()
    page.browser.events.clear()
    page.browser.open(page.address, 1400, 900, False)
    page.browser.wait_until(READY)
    assert page.rows() == ["t10", "t11", "t20", "t21"]
    label = page.member("#lanes", "ariaLabel")
    assert label.startswith("4 attempts in 4 rows by slot")
    page.search("t21")
    assert "shard 2/2, slot 1" in page.details()
