"""The page of many runs as one HTML file, made of the index."""

from __future__ import annotations

import pathlib
from collections.abc import Collection, Sequence

from rezovamy_runs import formatting
from rezovamy_runs.history import flakiness, queries
from rezovamy_runs.history.database import Database
from rezovamy_runs.history.joining import JoinedRun, Told
from rezovamy_runs.model import TestName
from rezovamy_runs.page import document
from rezovamy_runs.page.document import Assets
from rezovamy_runs.page_of_runs.data import HistoryData, by_commit, page_data
from rezovamy_runs.store.run_folder import PAGE

PARTS = pathlib.Path(__file__).resolve().parent / "assets"
# In the order in which they need one another; those of the page of a run come first.
SHARED = ("text", "states", "copying", "links", "theme")
SCRIPTS = ("runs", "filter", "trend", "grid", "cells", "details", "keys", "main")
ASSETS = Assets(
    PARTS / "page.html",
    (document.path_of("style.css"), PARTS / "style.css"),
    (
        *(document.path_of(f"{name}.js") for name in SHARED),
        *(PARTS / f"{name}.js" for name in SCRIPTS),
    ),
)


def pages_beside(folder: pathlib.Path | None, runs: Sequence[JoinedRun]) -> dict[str, str]:
    """Return the names of the pages of runs that are in a folder, by the ids of the runs."""
    names = {row.id: f"{row.id}{PAGE}" for run in runs for row in run.rows}
    if folder is None:
        return {}
    return {run_id: name for run_id, name in names.items() if (folder / name).is_file()}


def value_of(
    database: Database,
    runs: Sequence[JoinedRun],
    project: str,
    folder: pathlib.Path | None,
    tests: Collection[TestName] | None = None,
) -> HistoryData:
    """Ask an index for all that a page of runs knows.

    `folder` is where the page goes, None for no file. The page has all tests, or only `tests`.
    """
    names = queries.test_names(database)
    columns = by_commit(runs)
    records = flakiness.records(queries.tallies(database, runs, names, every=True))

    def told(run: JoinedRun) -> list[Told]:
        """Ask what a run says of the tests of the page."""
        of_run = queries.outcomes_told(database, [run], names)
        return [one for one in of_run if tests is None or one.test in tests]

    return page_data(project, columns, told, records, pages_beside(folder, columns))


def title_of(value: HistoryData) -> str:
    """Return the name of the page's window."""
    tests, runs = len(value["tests"]), len(value["runs"])
    counts = f"{formatting.count(tests, 'test')} over {formatting.count(runs, 'run')}"
    return f"{counts} · {formatting.name(value['project'])}"


def page_html(value: HistoryData) -> str:
    """Return the page of a value that `value_of` made."""
    return document.html_of(ASSETS, title_of(value), value)
