"""The folder of runs."""

from __future__ import annotations

import errno
import hashlib
import os
import pathlib
import time

import pytest

from rezovamy_runs.bundles import bundle_file
from rezovamy_runs.commands import junit as junit_command
from rezovamy_runs.faults.fault import Fault
from rezovamy_runs.store import location, run_folder
from rezovamy_runs.store.run_folder import Store
from tests import made

FIRST, SECOND, THIRD = (
    f"{start}-0000-4000-8000-000000000000" for start in ("aaaa1111", "aaaa2222", "bbbb1111")
)
LISTED = "rezovamy-runs list"


@pytest.fixture
def store(tmp_path: pathlib.Path) -> Store:
    """A store whose folder isn't there yet."""
    return Store(tmp_path / "deep/runs")


@pytest.fixture
def three_runs(store: Store) -> Store:
    """A store of three runs, of which the second started last and the first one first."""
    add(store, FIRST, 0)
    add(store, SECOND, 2000)
    add(store, THIRD, 1000)
    return store


def add(store: Store, run_id: str, at: int = 0) -> None:
    """Add a run that started then."""
    with store.adding(run_id) as aside:
        aside.write_bytes(made.bundle(made.run_started(at), at=at, run_id=run_id))


def content(store: Store, run_id: str) -> bytes:
    """Return the bytes of a run's bundle."""
    return bundle_file.plain_bytes(store.path_of(run_id).read_bytes())


def names(store: Store) -> list[str]:
    """Return what stands in the folder."""
    return sorted(os.listdir(store.folder))


# How a run is added.


def test_a_run_is_written_aside_and_renamed(store: Store) -> None:
    with store.adding(FIRST) as aside:
        aside.write_bytes(b"one")
        assert store.ids() == []
        assert aside.name.startswith(".")
    assert names(store) == [f"{FIRST}.bundle.gz"]


@pytest.mark.parametrize("fault", [Fault("no"), KeyboardInterrupt(), OSError("full")])
def test_after_a_fault_the_folder_is_as_it_was(store: Store, fault: BaseException) -> None:
    add(store, FIRST)
    before = store.path_of(FIRST).read_bytes()
    with pytest.raises(type(fault)), store.adding(FIRST) as aside:
        aside.write_bytes(b"half")
        raise fault
    assert names(store) == [f"{FIRST}.bundle.gz"]
    assert store.path_of(FIRST).read_bytes() == before


def test_two_at_once_do_not_meet(store: Store) -> None:
    with store.adding(FIRST) as one, store.adding(FIRST) as other:
        assert one != other
        one.write_bytes(b"one")
        other.write_bytes(b"other")
    assert content(store, FIRST) == b"one"
    assert names(store) == [f"{FIRST}.bundle.gz"]


def test_a_bundle_is_kept_as_it_is_where_there_is_no_room_to_compress_it(
    store: Store, monkeypatch: pytest.MonkeyPatch
) -> None:
    def fail(_path: pathlib.Path, target: pathlib.Path) -> None:
        target.write_bytes(b"half")
        raise OSError(errno.ENOSPC, "No space left on device")

    with store.adding(FIRST) as aside:
        aside.write_bytes(b"one")
    with monkeypatch.context() as patched, store.adding(FIRST) as aside:
        patched.setattr(bundle_file, "compress", fail)
        aside.write_bytes(b"other")
    assert names(store) == [f"{FIRST}.bundle"]
    assert store.path_of(FIRST).read_bytes() == b"other"
    with store.adding(FIRST) as aside:
        aside.write_bytes(b"third")
    assert names(store) == [f"{FIRST}.bundle.gz"]
    assert content(store, FIRST) == b"third"


def test_a_bundle_can_be_read_as_the_umask_says(store: Store) -> None:
    mask = os.umask(0o027)
    try:
        add(store, FIRST)
    finally:
        os.umask(mask)
    assert store.path_of(FIRST).stat().st_mode & 0o777 == 0o640


def test_a_folder_that_cannot_be_made_is_a_fault() -> None:
    with pytest.raises(Fault, match="REZOVAMY_RUNS"), Store("/dev/null/runs").adding(FIRST):
        pass


def test_a_folder_whose_name_is_no_text_is_a_fault(tmp_path: pathlib.Path) -> None:
    store = Store(tmp_path / "\udcff")
    with pytest.raises(Fault, match="no UTF-8.*REZOVAMY_RUNS"):
        store.prepare()
    assert not store.folder.exists()


def test_what_a_killed_recording_left_is_found_after_a_day(store: Store) -> None:
    add(store, FIRST)
    young, old = (store.folder / f".{FIRST}.{part}.aside" for part in ("young", "old"))
    young.touch()
    old.touch()
    os.utime(old, (time.time() - 90000,) * 2)
    assert list(store.abandoned()) == [old]


# How a run is found.


def test_prefixes_are_the_shortest_but_of_four_letters(three_runs: Store) -> None:
    assert three_runs.prefixes() == {FIRST: "aaaa1", SECOND: "aaaa2", THIRD: "bbbb"}


@pytest.mark.parametrize(
    ("word", "found"),
    [("b", THIRD), ("aaaa1", FIRST), ("AAAA2", SECOND), (SECOND, SECOND), ("last", SECOND)],
)
def test_a_run_is_found_by_a_prefix(three_runs: Store, word: str, found: str) -> None:
    assert three_runs.find(word) == three_runs.path_of(found)


def test_a_run_is_found_by_a_path(three_runs: Store) -> None:
    path = three_runs.path_of(THIRD)
    assert three_runs.find(str(path)) == path


@pytest.mark.parametrize(
    ("word", "said"),
    [
        ("aaaa", "give more of it"),
        ("cc", LISTED),
        ("", LISTED),
        ("no/where", LISTED),
        ("no/where.bundle", "no bundle is at no/where.bundle"),
    ],
)
def test_faults_say_what_to_do(three_runs: Store, word: str, said: str) -> None:
    with pytest.raises(Fault, match=said):
        three_runs.find(word)


def test_without_runs_there_is_no_last_one(store: Store) -> None:
    with pytest.raises(Fault, match="rezovamy-runs test"):
        store.find("last")


def test_summaries_are_the_latest_first(three_runs: Store) -> None:
    assert [run.id for run in three_runs.summaries()] == [SECOND, THIRD, FIRST]


def test_a_broken_file_hides_no_run(three_runs: Store) -> None:
    three_runs.path_of(SECOND).write_bytes(b"broken")
    said: list[str] = []
    assert [run.id for run in three_runs.summaries(said.append)] == [THIRD, FIRST]
    assert len(said) == 1
    assert three_runs.find("last") == three_runs.path_of(THIRD)


def test_a_folder_in_place_of_a_bundle_hides_no_run(three_runs: Store) -> None:
    three_runs.path_of(SECOND).unlink()
    three_runs.path_of(SECOND).mkdir()
    said: list[str] = []
    assert [run.id for run in three_runs.summaries(said.append)] == [THIRD, FIRST]
    assert "Is a directory" in said[0]


def test_a_pipe_in_place_of_a_bundle_is_not_waited_for(three_runs: Store) -> None:
    three_runs.path_of(SECOND).unlink()
    os.mkfifo(three_runs.path_of(SECOND))
    said: list[str] = []
    assert [run.id for run in three_runs.summaries(said.append)] == [THIRD, FIRST]
    assert "can't be read" in said[0]


def test_other_files_are_no_runs(three_runs: Store) -> None:
    (three_runs.folder / "notes.bundle").touch()
    (three_runs.folder / f".{FIRST}.x.aside").touch()
    assert three_runs.ids() == [FIRST, SECOND, THIRD]


# Where the folder is.


@pytest.fixture
def folder(tmp_path: pathlib.Path, monkeypatch: pytest.MonkeyPatch) -> pathlib.Path:
    """The folder in which the process is, of which cargo knows nothing."""
    folder = tmp_path.resolve()
    monkeypatch.chdir(folder)
    monkeypatch.setattr(location, "of_cargo", lambda manifest=None: None)
    monkeypatch.delenv("REZOVAMY_RUNS", raising=False)
    monkeypatch.setenv("XDG_STATE_HOME", str(folder / "state"))
    return folder


@pytest.mark.usefixtures("folder")
def test_the_environment_says_it(monkeypatch: pytest.MonkeyPatch) -> None:
    monkeypatch.setenv("REZOVAMY_RUNS", "/some/where")
    assert run_folder.here().folder == pathlib.Path("/some/where")


@pytest.mark.parametrize(
    ("word", "parent"),
    [
        (".", "{folder}"),
        ("./", "{folder}"),
        ("..", "{folder.parent}"),
        ("../runs", ".."),
        ("inner", "."),
        ("inner/..", "{folder}"),
        ("{folder}/runs", "{folder}"),
        ("link", "."),
        ("link/..", "{folder.parent.parent}"),
    ],
)
def test_the_xml_stands_beside_it_whatever_its_name(
    folder: pathlib.Path, monkeypatch: pytest.MonkeyPatch, word: str, parent: str
) -> None:
    (folder / "runs").mkdir()
    monkeypatch.chdir(folder / "runs")
    pathlib.Path("link").symlink_to(folder)
    monkeypatch.setenv("REZOVAMY_RUNS", word.format(folder=folder))
    beside = pathlib.Path(parent.format(folder=folder)) / "rezovamy-junit"
    assert junit_command.beside(run_folder.here()) == beside


def test_without_cargo_it_is_that_of_the_workspace_above(
    folder: pathlib.Path, monkeypatch: pytest.MonkeyPatch
) -> None:
    (folder / "member/src").mkdir(parents=True)
    (folder / "Cargo.toml").write_text('[workspace]\nmembers = ["member"]\n')
    (folder / "member/Cargo.toml").write_text("[package]\n")
    monkeypatch.chdir(folder / "member/src")
    assert run_folder.here().workspace_root() == folder
    assert run_folder.here().junit_folder() == folder / "target/rezovamy-junit"
    (folder / "Cargo.toml").write_text("[package]\n")
    assert run_folder.here().workspace_root() == folder / "member"
    assert run_folder.here(str(folder / "Cargo.toml")).workspace_root() == folder


def test_the_runs_of_a_workspace_have_a_folder_by_its_name_and_path(
    folder: pathlib.Path, monkeypatch: pytest.MonkeyPatch
) -> None:
    root = folder / "my shop"
    root.mkdir()
    (root / "Cargo.toml").write_text("[package]\n")
    (folder / "link").symlink_to(root)
    digest = hashlib.sha256(os.fsencode(root)).hexdigest()[:10]
    for place in (root, folder / "link"):
        monkeypatch.chdir(place)
        assert run_folder.here().folder == folder / f"state/rezovamy/my_shop-{digest}"
    for unset in ("", "relative"):
        monkeypatch.setenv("XDG_STATE_HOME", unset)
        monkeypatch.setenv("HOME", "/home/me")
        made_of_home = pathlib.Path(f"/home/me/.local/state/rezovamy/my_shop-{digest}")
        assert run_folder.here().folder == made_of_home


def test_runs_in_the_target_directory_are_named_once(
    folder: pathlib.Path, capsys: pytest.CaptureFixture[str]
) -> None:
    (folder / "Cargo.toml").write_text("[package]\n")
    assert run_folder.here().ids() == []
    assert capsys.readouterr().err == ""
    add(Store(folder / "target/rezovamy-runs"), FIRST)
    assert run_folder.here().ids() == []
    assert capsys.readouterr().err == (
        "rezovamy-runs: 1 run of an earlier version is in the target directory: "
        f"`rezovamy-runs import {folder}/target/rezovamy-runs` takes it over\n"
    )
    assert run_folder.here().ids() == []
    assert capsys.readouterr().err == ""


def test_a_target_directory_that_is_made_is_marked_as_cargo_does(
    folder: pathlib.Path, monkeypatch: pytest.MonkeyPatch
) -> None:
    (folder / "Cargo.toml").write_text("[package]\n")
    run_folder.here().prepare_junit()
    tag = folder / "target/CACHEDIR.TAG"
    assert tag.read_text().startswith("Signature: 8a477f597d28d172789f06886806bc55\n")
    tag.unlink()
    run_folder.here().prepare_junit()
    assert not tag.exists()
    monkeypatch.setenv("REZOVAMY_RUNS", "new/runs")
    run_folder.here().prepare_junit()
    assert not pathlib.Path("new").exists()


@pytest.mark.usefixtures("folder")
def test_outside_of_workspaces_it_is_a_fault() -> None:
    with pytest.raises(Fault, match="REZOVAMY_RUNS"):
        run_folder.here().folder


@pytest.mark.usefixtures("folder")
def test_outside_of_workspaces_a_bundle_is_found_by_its_path() -> None:
    path = pathlib.Path("one.bundle")
    path.touch()
    runs = run_folder.here()
    assert runs.find("one.bundle") == path
    assert runs.names_run("one.bundle")
    assert runs.shortest(FIRST) == FIRST
    assert not runs.is_somewhere()
    for word in ("last", "aaaa"):
        with pytest.raises(Fault, match="REZOVAMY_RUNS"):
            runs.find(word)
