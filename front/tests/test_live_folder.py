"""The folder of a run that goes on: who packs it, when, and what comes of it."""

from __future__ import annotations

import fcntl
import json
import os
import pathlib
import subprocess

import pytest

from rezovamy_runs.bundles import bundle
from rezovamy_runs.faults.fault import Fault
from rezovamy_runs.json_values import JsonObject
from rezovamy_runs.model import Status
from rezovamy_runs.store import live_folder
from rezovamy_runs.store.live_folder import LiveFolder
from rezovamy_runs.store.run_folder import Here, Store
from tests import made

pytestmark = pytest.mark.program

DAY = 24 * 3600
# A head has no parts that only a bundle's store would have.
STORED: JsonObject = {
    "cargo-metadata": "{}",
    "record-opts": {"run-mode": "test"},
    "build-scope": {"build-kind": "cargo", "scope": {}},
    "test-list": {"suites": {"alpha": ["t0", "t1"]}},
}
BEGUN: JsonObject = {**made.HEAD, **STORED, "run-id": made.ID, "status": {"status": "incomplete"}}
ENDED: JsonObject = {**made.HEAD, **STORED, "run-id": made.ID}
EVENTS = [made.run_started(), made.started(1, "t0"), made.started(2, "t1")]


def lines(*values: JsonObject) -> bytes:
    """Return a line of each value."""
    return b"".join(json.dumps(value).encode() + b"\n" for value in values)


def stopped(store: Store, program: pathlib.Path, *values: JsonObject) -> LiveFolder:
    """Return the folder of a run of which these lines were recorded."""
    folder = LiveFolder(store, made.ID)
    with folder.begin():
        words = [str(program), "live", str(folder.recording)]
        subprocess.run(words, input=lines(*values), capture_output=True, check=True)
    return folder


@pytest.fixture
def store(tmp_path: pathlib.Path, program: pathlib.Path, monkeypatch: pytest.MonkeyPatch) -> Store:
    """A store that looks for its folder where the environment says."""
    monkeypatch.setenv("REZOVAMY", str(program))
    monkeypatch.setenv("REZOVAMY_RUNS", str(tmp_path))
    return Here()


@pytest.fixture
def folder(store: Store, program: pathlib.Path) -> LiveFolder:
    """The folder of a run that was stopped while two tests ran."""
    return stopped(store, program, BEGUN, *EVENTS)


def names(folder: LiveFolder) -> list[str]:
    """Return what stands in the folder of runs."""
    return sorted(os.listdir(folder.path.parent))


BUNDLE, LIVE = f"{made.ID}.bundle.gz", f"{made.ID}.live"


def test_a_run_that_was_stopped(folder: LiveFolder, store: Store) -> None:
    """Whoever looks packs it."""
    assert store.ids() == [made.ID]
    assert names(folder) == [BUNDLE]
    run = bundle.read_run(store.path_of(made.ID))
    assert (run.status, run.counts.unseen) == (Status.INCOMPLETE, 2)


def test_a_run_that_ended(folder: LiveFolder, store: Store) -> None:
    """It has the head that it ended with, also if only the next command can pack it."""
    (folder.path / "end").write_bytes(lines(ENDED))
    assert store.ids() == [made.ID]
    run = bundle.read_summary(store.path_of(made.ID))
    assert (run.status, run.exit_code) == (Status.COMPLETED, 101)


def test_a_bundle_that_is_there(folder: LiveFolder, store: Store) -> None:
    """Only the removal of the folder was stopped."""
    store.path_of(made.ID).write_bytes(b"packed")
    assert store.ids() == [made.ID]
    assert names(folder) == [BUNDLE]
    assert store.path_of(made.ID).read_bytes() == b"packed"


def test_a_run_that_goes_on(folder: LiveFolder, store: Store) -> None:
    """Nobody touches it as long as the lock is held."""
    with open(folder.path / "lock", "rb") as lock:
        fcntl.flock(lock, fcntl.LOCK_SH)
        assert store.ids() == []
        assert [one.run_id for one in store.going_on] == [made.ID]
        assert names(folder) == [LIVE]
        [run] = live_folder.with_running([], store.going_on)
    assert (run.id, run.status, run.counts.unseen) == (made.ID, Status.RUNNING, 2)
    assert store.prefixes() == {made.ID: "0a1b"}
    with pytest.raises(Fault, match=f"run {made.ID} goes on: look again once it has ended"):
        store.find("0a1b")


def test_a_run_that_ends_while_it_is_looked_at(folder: LiveFolder, store: Store) -> None:
    """It is told once, as it ended."""
    summary = folder.summary()
    assert summary
    ended = store.summaries()
    folder.path.mkdir()
    assert live_folder.with_running(ended, [folder]) == ended


def test_a_run_that_has_not_begun(store: Store) -> None:
    """Its writer may just be about to begin; a day later it isn't."""
    store.folder.mkdir(exist_ok=True)
    folder = LiveFolder(store, made.ID)
    folder.begin().close()
    assert live_folder.settle_all(store, pytest.fail) == []
    assert names(folder) == [LIVE]
    long_ago = folder.path.stat().st_mtime - DAY - 60
    os.utime(folder.path, (long_ago, long_ago))
    assert live_folder.settle_all(store, pytest.fail) == []
    assert names(folder) == []


def test_a_run_without_events(store: Store, program: pathlib.Path) -> None:
    """Nothing is lost with it."""
    folder = stopped(store, program, BEGUN)
    assert store.ids() == []
    assert names(folder) == []


def test_a_run_that_cannot_be_packed(folder: LiveFolder, store: Store) -> None:
    """It stays, and a line says why."""
    (folder.recording / "store.zip").write_bytes(b"")
    said: list[str] = []
    assert live_folder.settle_all(store, said.append) == []
    [line] = said
    assert line.startswith(f"run {made.ID} was stopped, and can't be packed: rezovamy pack: ")
    assert names(folder) == [LIVE]
    assert sorted(os.listdir(folder.path)) == ["lock", "run"]


def test_a_folder_of_somebody_else(store: Store) -> None:
    """It isn't touched."""
    (store.folder / "other.live").mkdir()
    assert store.ids() == []
    assert os.listdir(store.folder) == ["other.live"]
