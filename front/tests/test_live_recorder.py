"""The recording of a run that goes on, by the built program: how it ends, and what it keeps."""

from __future__ import annotations

import os
import pathlib

import pytest

from rezovamy_runs.bundles import bundle
from rezovamy_runs.faults.fault import Fault
from rezovamy_runs.json_values import JsonObject
from rezovamy_runs.model import Status
from rezovamy_runs.processes.loop import Loop
from rezovamy_runs.runner.live_recorder import LiveRecorder
from rezovamy_runs.store.live_folder import LiveFolder
from rezovamy_runs.store.run_folder import Store
from tests import made
from tests.test_live_folder import BEGUN, ENDED

pytestmark = pytest.mark.program

EVENTS = [made.run_started(), made.started(1, "t0"), made.started(2, "t1")]


@pytest.fixture
def store(tmp_path: pathlib.Path, program: pathlib.Path, monkeypatch: pytest.MonkeyPatch) -> Store:
    """An empty folder of runs."""
    monkeypatch.setenv("REZOVAMY", str(program))
    return Store(tmp_path)


def recorded(store: Store, *events: JsonObject) -> pathlib.Path:
    """Record a run of these events, and return its bundle."""
    with Loop() as loop, LiveRecorder(loop, LiveFolder(store, made.ID), BEGUN) as recording:
        recording.write(events[:1])
        loop.turn(loop.now() + 10**8)
        recording.write(events[1:])
    return recording.finish(ENDED)


def names(store: Store) -> list[str]:
    """Return what stands in the folder of runs."""
    return sorted(os.listdir(store.folder))


def test_a_run_that_ends(store: Store) -> None:
    path = recorded(store, *EVENTS)
    run = bundle.read_run(path)
    assert (run.status, run.exit_code, run.counts.unseen) == (Status.COMPLETED, 101, 2)
    assert names(store) == [path.name]


def test_an_event_that_is_refused(store: Store) -> None:
    """Those before it are kept, and those after it are not."""
    with pytest.raises(Fault) as fault:
        recorded(store, EVENTS[0], {"kind": "unknown"}, EVENTS[1])
    assert str(fault.value).startswith("rezovamy live: ")
    assert str(fault.value).endswith(
        "; 1 of 3 events are kept, and `rezovamy-runs list` records these"
    )
    assert names(store) == [f"{made.ID}.live"]


@pytest.mark.parametrize(
    ("program", "said"),
    [
        ("/nowhere", "no program is at /nowhere, where REZOVAMY says: correct it, or unset it"),
        (
            "/bin/true",
            "/bin/true wrote no bundle: it isn't rezovamy, so name another program in REZOVAMY",
        ),
        (
            "/bin/false",
            "rezovamy live ended with status 1 and said nothing: try it again, or install "
            "the program again",
        ),
    ],
)
def test_another_program(
    store: Store, monkeypatch: pytest.MonkeyPatch, program: str, said: str
) -> None:
    """It is said at the end, and nothing is left."""
    monkeypatch.setenv("REZOVAMY", program)
    with pytest.raises(Fault) as fault:
        recorded(store, *EVENTS)
    assert str(fault.value).replace("/usr/bin/true", "/bin/true") == said
    assert names(store) == []


def test_a_folder_that_is_gone(tmp_path: pathlib.Path, store: Store) -> None:
    folder = tmp_path / "gone"
    with pytest.raises(Fault) as fault:
        recorded(Store(folder), *EVENTS)
    assert str(fault.value) == (
        f"nothing can be written into {folder}: No such file or directory; "
        "name another folder in REZOVAMY_RUNS"
    )
