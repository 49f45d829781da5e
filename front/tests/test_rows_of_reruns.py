"""Which reruns belong to a run."""

from __future__ import annotations

import pathlib

import pytest

from rezovamy_runs.store.notes import Part, RunNotes
from rezovamy_runs.store.run_folder import Store
from tests.histories import Folder, id_of

pytestmark = pytest.mark.program


@pytest.fixture
def store(tmp_path: pathlib.Path) -> Store:
    """A run, a rerun of it and one of that, and one of the first with other sources."""
    folder = Folder(tmp_path)
    folder.add(1, "FF", RunNotes(commit="a", dirty=False))
    for number, marks, parent, commit in ((2, ".F", 1, "a"), (3, "-.", 2, "a"), (4, "..", 1, "b")):
        known = RunNotes(commit=commit, dirty=False, part=Part.AGAIN, parent=id_of(parent))
        folder.add(number, marks, known, parent=parent)
    folder.add(5, "..", RunNotes(commit="a", dirty=False))
    return Store(tmp_path)


@pytest.mark.parametrize("number, row", [(1, [1, 2, 3]), (2, [2, 3]), (3, [3]), (4, [4]), (5, [5])])
def test_what_ran_again(store: Store, number: int, row: list[int]) -> None:
    found = store.with_reruns(store.path_of(id_of(number)))
    assert found == [store.path_of(id_of(one)) for one in row]


@pytest.mark.parametrize("number, first", [(1, 1), (2, 1), (3, 1), (4, 4), (5, 5)])
def test_where_a_row_began(store: Store, number: int, first: int) -> None:
    assert store.first_in_row(store.path_of(id_of(number))) == store.path_of(id_of(first))


def test_a_bundle_from_elsewhere_is_alone(store: Store, tmp_path: pathlib.Path) -> None:
    path = tmp_path / "other.bundle"
    assert store.with_reruns(path) == [path]
