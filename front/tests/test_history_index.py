"""The index: what it keeps of runs, what questions find in it, and what can happen to it."""

from __future__ import annotations

import contextlib
import os
import pathlib
import resource
import signal
import sqlite3
import subprocess
import sys
import time
from collections.abc import Iterator

import pytest

from rezovamy_runs.faults.fault import Fault
from rezovamy_runs.history import flakiness, index, joining, opening, queries, schema
from rezovamy_runs.history.database import Database, SqliteDatabase
from rezovamy_runs.history.flakiness import Tally
from rezovamy_runs.history.joining import JoinedRun
from rezovamy_runs.history.outcomes import Outcome
from rezovamy_runs.history.rows import key_of_run, key_of_test
from rezovamy_runs.model import Verdict
from rezovamy_runs.store.notes import Part, RunNotes, Shard
from rezovamy_runs.store.run_folder import Store
from rezovamy_runs import model
from tests import FRONT, postgres
from tests.histories import Folder, id_of, row

PASS, FAIL = Verdict.PASS, Verdict.FAIL


def alpha(number: int) -> model.TestName:
    """A test by its number."""
    return model.TestName("alpha", f"t{number}")


@pytest.fixture
def folder(tmp_path: pathlib.Path) -> Folder:
    """A folder for runs."""
    return Folder(tmp_path / "runs")


@pytest.fixture(scope="session")
def server() -> Iterator[postgres.Server]:
    """A server of PostgreSQL."""
    with postgres.server() as made:
        yield made


def open_postgres(server: postgres.Server) -> Database:
    """Open an empty database of a server."""
    from rezovamy_runs.history.postgres import PostgresDatabase

    return PostgresDatabase(server.make("history"))


@pytest.fixture(params=["sqlite", pytest.param("postgres", marks=pytest.mark.postgres)])
def database(request: pytest.FixtureRequest, tmp_path: pathlib.Path) -> Iterator[Database]:
    """An index without runs, of each kind of database."""
    made = (
        SqliteDatabase(tmp_path / "index.sqlite")
        if request.param == "sqlite"
        else open_postgres(request.getfixturevalue("server"))
    )
    with contextlib.closing(made):
        schema.prepare(made)
        yield made


def never(line: str) -> None:
    """Fail where a line is said."""
    pytest.fail(line)


def runs_of(database: Database, folder: Folder) -> list[JoinedRun]:
    """Bring an index up to date, and return the runs as they count."""
    index.update(database, Store(folder.path), never)
    return joining.joined_runs(queries.run_rows(database))


# What it keeps.


def test_a_run_and_its_tests(database: Database, folder: Folder) -> None:
    known = RunNotes(
        commit="c0ffee", branch="main", dirty=True, group="g", shard=Shard(2, 4), part=Part.FILTERED
    )
    folder.add(7, ".F~s?", known, times=(0.5, 1.5))
    (run,) = runs_of(database, folder)
    path = folder.path / f"{id_of(7)}.bundle"
    notes_size = path.with_suffix(".json").stat().st_size
    assert run.first == row(
        7,
        stamp=f"{path.stat().st_size}+{notes_size}",
        started=1007.0,
        elapsed=1.0,
        exit_code=101,
        passed=2,
        failed=1,
        flaky=1,
        skipped=1,
        unseen=1,
        profile="default",
        bytes=path.stat().st_size,
        commit_id="c0ffee",
        branch="main",
        dirty=1,
        part="filtered",
        group_name="g",
        shard="2/4",
    )
    names = queries.test_names(database)
    assert names == {key_of_test(alpha(number)): alpha(number) for number in range(5)}
    told = {one.test: one.outcome for one in queries.outcomes_told(database, [run], names)}
    assert told == {
        alpha(0): Outcome(PASS, 0.5, 1, None),
        alpha(1): Outcome(FAIL, 1.5, 1, "exit code 101"),
        alpha(2): Outcome(Verdict.FLAKY, 1.0, 2, "exit code 101"),
        alpha(3): Outcome(Verdict.SKIP, 0.0, 1, None),
        alpha(4): Outcome(Verdict.UNFINISHED, 0.0, 1, None),
    }
    one = queries.outcomes_of_test(database, [run], key_of_test(alpha(1)), names)
    assert [told.outcome for told in one] == [Outcome(FAIL, 1.5, 1, "exit code 101")]
    assert queries.count_tests(database, run) == 4


def test_a_name_that_no_database_can_keep(database: Database, folder: Folder) -> None:
    folder.add(1, ".", RunNotes(branch="a\0b\ud800"))
    (run,) = runs_of(database, folder)
    assert run.branch == "a\\x00b\\u{d800}"


def test_only_what_is_new_is_read(
    database: Database, folder: Folder, monkeypatch: pytest.MonkeyPatch
) -> None:
    folder.add(1, ".")
    folder.add(2, ".")
    runs_of(database, folder)
    read: list[str] = []
    whole = index.read_one

    def reading(path: pathlib.Path, stamp: str) -> index.Read | None:
        """Note which bundle is read."""
        read.append(path.stem)
        return whole(path, stamp)

    monkeypatch.setattr(index, "read_one", reading)
    folder.add(3, ".")
    # Its notes came later.
    folder.add(2, ".", RunNotes(commit="c"))
    found = runs_of(database, folder)
    assert read == [id_of(2), id_of(3)]
    assert [(run.id, run.commit) for run in found] == [
        (id_of(1), None),
        (id_of(2), "c"),
        (id_of(3), None),
    ]


def test_a_run_that_is_gone_is_forgotten_or_kept(database: Database, folder: Folder) -> None:
    folder.add(1, ".F")
    folder.add(2, ".")
    runs_of(database, folder)
    (folder.path / f"{id_of(1)}.bundle").unlink()
    index.update(database, Store(folder.path), never, forgets=False)
    assert len(queries.run_rows(database)) == 2
    (run,) = runs_of(database, folder)
    assert run.id == id_of(2)
    assert list(database.rows("SELECT DISTINCT run FROM outcomes")) == [(key_of_run(id_of(2)),)]


def test_a_bundle_that_cannot_be_read_is_said(database: Database, folder: Folder) -> None:
    folder.add(1, ".")
    broken = folder.path / f"{id_of(2)}.bundle"
    broken.write_bytes(b"no bundle")
    said: list[str] = []
    index.update(database, Store(folder.path), said.append)
    assert len(said) == 1 and str(broken) in said[0]
    assert [one.id for one in queries.run_rows(database)] == [id_of(1)]


def test_many_runs_are_read_by_several_processes(database: Database, folder: Folder) -> None:
    for number in range(1, 31):
        folder.add(number, ".F")
    (folder.path / f"{id_of(9)}.bundle").write_bytes(b"no bundle")
    said: list[str] = []
    index.update(database, Store(folder.path), said.append)
    assert len(said) == 1 and id_of(9) in said[0]
    numbers = sorted(int(one.started) - 1000 for one in queries.run_rows(database))
    assert numbers == [number for number in range(1, 31) if number != 9]


# What questions find in it.


def test_tallies(database: Database, folder: Folder) -> None:
    folder.add_lines(
        """
        1  a   ..F.?F
        2  a   F.F.FF
        3  b   ..F.-s
        4  b*  F.F~..
        5  -   ..F...
        """
    )
    runs = runs_of(database, folder)
    # By sources: passed, did both, failed. Those of run 4 and of run 5 are known of no other run.
    expected = {
        (0, 0): (1, 0, 1),
        (0, 1): (1, 0, 0),
        (0, -4): (0, 0, 1),
        (0, -5): (1, 0, 0),
        (2, 0): (0, 0, 2),
        (2, 1): (0, 0, 1),
        (2, -4): (0, 0, 1),
        (2, -5): (0, 0, 1),
        (3, 0): (2, 0, 0),
        (3, 1): (1, 0, 0),
        (3, -4): (0, 1, 0),
        (3, -5): (1, 0, 0),
        (4, 0): (0, 0, 1),
        (4, -4): (1, 0, 0),
        (4, -5): (1, 0, 0),
        (5, 0): (0, 0, 2),
        (5, -4): (1, 0, 0),
        (5, -5): (1, 0, 0),
    }
    names = queries.test_names(database)
    found = queries.tallies(database, runs, names)
    assert {tally for tally in found} == {
        Tally(alpha(number), code, *counts) for (number, code), counts in expected.items()
    }
    kinds = {one.test.test: one.kind.name for one in flakiness.records(found)}
    assert kinds == {
        "t0": "AT_ONE_COMMIT",
        "t2": "ALWAYS_FAILS",
        "t3": "AT_ONE_COMMIT",
        "t4": "OVER_COMMITS",
        "t5": "OVER_COMMITS",
    }
    every = {tally.test for tally in queries.tallies(database, runs, names, every=True)}
    assert every == {alpha(number) for number in range(6)}
    assert queries.tallies(database, runs[2:3], names) == [Tally(alpha(2), 0, 0, 0, 1)]
    assert queries.tallies(database, [], names) == []


def test_what_failed_and_passed_again_is_flaky(database: Database, folder: Folder) -> None:
    known = RunNotes(commit="c")
    folder.add(1, ".FF", known)
    again = RunNotes(commit="c", part=Part.AGAIN)
    folder.add(2, "-.F", again, parent=1)
    runs = runs_of(database, folder)
    names = queries.test_names(database)
    assert sorted(queries.tallies(database, runs, names), key=lambda tally: tally.test) == [
        Tally(alpha(1), 0, 0, 1, 0),
        Tally(alpha(2), 0, 0, 0, 1),
    ]
    told = queries.outcomes_told(database, runs, names)
    (found,) = joining.outcomes_by_run(runs, told)
    assert {key.test: one.verdict.value for key, one in found.items()} == {
        "t0": "pass",
        "t1": "flaky",
        "t2": "fail",
    }


def test_shards_are_one_run(database: Database, folder: Folder) -> None:
    for number, marks in ((1, ".F"), (2, "--.F")):
        folder.add(number, marks, RunNotes(commit="c", group="g", shard=Shard(number, 2)))
    (run,) = runs_of(database, folder)
    assert (run.is_whole, queries.count_tests(database, run)) == (True, 4)
    tallies = queries.tallies(database, [run], queries.test_names(database))
    assert {tally.test for tally in tallies} == {alpha(1), alpha(3)}


# Versions.


def test_tables_get_the_steps_that_they_lack(database: Database) -> None:
    further = [*schema.STEPS, ["ALTER TABLE tests ADD COLUMN owner TEXT"]]
    database.insert("tests", schema.TEST_COLUMNS, [(1, "a", "t")])
    schema.prepare(database, further)
    schema.prepare(database, further)
    assert list(database.rows("SELECT test, owner FROM tests")) == [(1, None)]
    assert schema.version_of(database) == 2
    with pytest.raises(schema.OtherVersion, match="version 2, and 1 is known"):
        schema.prepare(database)


def test_a_step_that_fails_leaves_all_unchanged(database: Database) -> None:
    broken = [*schema.STEPS, ["ALTER TABLE tests ADD COLUMN owner TEXT", "NO STATEMENT"]]
    with pytest.raises(Exception, match="NO|syntax"):
        schema.prepare(database, broken)
    assert schema.version_of(database) == 1
    assert list(database.rows("SELECT * FROM tests")) == []
    schema.prepare(database)


# What can happen to the file.


def count_runs(folder: Folder, said: list[str]) -> int:
    """Ask the file of a folder for the number of its runs."""
    return opening.ask_file(
        Store(folder.path), lambda database: len(queries.run_rows(database)), said.append
    )


def test_a_lost_file_is_made_again(folder: Folder) -> None:
    folder.add(1, ".")
    said: list[str] = []
    assert count_runs(folder, said) == 1
    opening.remove(folder.path / opening.FILE)
    assert (count_runs(folder, said), said) == (1, [])


@pytest.mark.parametrize("damage", ["head", "middle", "empty", "cut"])
def test_a_damaged_file_is_made_again(folder: Folder, damage: str) -> None:
    for number in range(1, 5):
        folder.add(number, ".F....")
    said: list[str] = []
    assert count_runs(folder, said) == 4
    path = folder.path / opening.FILE
    data = path.read_bytes()
    path.write_bytes(
        {
            "head": b"x" * 100 + data[100:],
            "middle": data[:4096] + b"\xff" * (len(data) - 4096),
            "empty": b"",
            "cut": data[:5000],
        }[damage]
    )
    assert count_runs(folder, said) == 4
    assert said == ([] if damage == "empty" else [said[0]])
    assert damage == "empty" or "is damaged" in said[0]
    assert (count_runs(folder, []), len(said)) == (4, len(said))


def test_a_file_of_a_later_version_is_left_alone(folder: Folder) -> None:
    folder.add(1, ".")
    count_runs(folder, [])
    path = folder.path / opening.FILE
    with contextlib.closing(sqlite3.connect(path)) as connection, connection:
        connection.execute("INSERT INTO history_version VALUES (99)")
    before = path.read_bytes()
    with pytest.raises(Fault, match="a later version .*99.*reindex"):
        count_runs(folder, [])
    assert path.read_bytes() == before


LOOKS = (
    "from rezovamy_runs.history import opening, queries\n"
    "from rezovamy_runs.store.run_folder import Store\n"
    "import sys\n"
    "ask = lambda database: len(queries.run_rows(database))\n"
    "print(opening.ask_file(Store(sys.argv[1]), ask, lambda line: print(line)))\n"
)


def look(folder: Folder, code: str = LOOKS) -> subprocess.Popen[str]:
    """Start a process that counts the runs of a folder by its index."""
    return subprocess.Popen(
        [sys.executable, "-c", code, str(folder.path)],
        env={**os.environ, "PYTHONPATH": str(FRONT / "src")},
        stdout=subprocess.PIPE,
        stderr=subprocess.PIPE,
        text=True,
    )


def test_two_writers_at_once(folder: Folder) -> None:
    for number in range(1, 61):
        folder.add(number, ".F.~..")
    looking = [look(folder) for _ in range(3)]
    assert [one.communicate() for one in looking] == [("60\n", "")] * 3
    with contextlib.closing(SqliteDatabase(folder.path / opening.FILE)) as database:
        assert next(database.rows("SELECT COUNT(*) FROM outcomes")) == (360,)


# A writer that takes its time, so that it is killed within a transaction.
SLOWLY = (
    "import time\n"
    "from rezovamy_runs.history.database import SqliteDatabase\n"
    "whole = SqliteDatabase.insert\n"
    "def insert(*words):\n"
    "    whole(*words)\n"
    "    time.sleep(0.02)\n"
    "SqliteDatabase.insert = insert\n"
)


def runs_in(path: pathlib.Path) -> int:
    """Return how many runs the file of an index has; each has all its tests."""
    with contextlib.closing(SqliteDatabase(path)) as database:
        if not schema.has_tables(database, 1):
            return 0
        tests = "SELECT COUNT(*) FROM outcomes GROUP BY run"
        assert all(count == (6,) for count in database.rows(tests))
        return int(next(database.rows("SELECT COUNT(*) FROM runs"))[0])


@pytest.mark.parametrize("least", [0, 1, 5, 20])
def test_a_writer_that_is_killed(folder: Folder, least: int) -> None:
    """Each run is there whole or not at all, whenever it is killed, and the rest comes later."""
    for number in range(1, 61):
        folder.add(number, ".F.~..")
    path = folder.path / opening.FILE
    process = look(folder, SLOWLY + LOOKS)
    until = time.monotonic() + 60
    while (not path.exists() or runs_in(path) < least) and time.monotonic() < until:
        time.sleep(0.005)
    process.send_signal(signal.SIGKILL)
    process.communicate()
    assert least <= runs_in(path) < 60
    assert count_runs(folder, []) == 60


def is_running(process: str) -> bool:
    """Tell whether a process runs, and hasn't only to be reaped."""
    try:
        return bool(pathlib.Path(f"/proc/{process}/cmdline").read_bytes())
    except OSError:
        return False


def test_a_killed_writer_leaves_no_process(folder: Folder) -> None:
    for number in range(1, 41):
        folder.add(number, ".")
    process = look(folder)
    children = pathlib.Path(f"/proc/{process.pid}/task/{process.pid}/children")
    until = time.monotonic() + 30
    readers: list[str] = []
    while not readers and process.poll() is None and time.monotonic() < until:
        with contextlib.suppress(OSError):
            readers = children.read_text().split()
    process.kill()
    process.communicate()
    time.sleep(1)
    assert readers
    assert not [one for one in readers if is_running(one)]


def small_files() -> None:
    """Let no file become larger than 60 KB, as on a disk that is full then."""
    signal.signal(signal.SIGXFSZ, signal.SIG_IGN)
    resource.setrlimit(resource.RLIMIT_FSIZE, (60_000, 60_000))


def test_a_full_disk(folder: Folder) -> None:
    """The answer is whole all the same, and one line says what to do."""
    for number in range(1, 201):
        folder.add(number, ".F.~..")
    done = subprocess.run(
        [sys.executable, "-c", LOOKS, str(folder.path)],
        env={**os.environ, "PYTHONPATH": str(FRONT / "src")},
        capture_output=True,
        text=True,
        preexec_fn=small_files,
        check=True,
    )
    line, count = done.stdout.splitlines()
    assert "make room or give access" in line and count == "200"
    assert count_runs(folder, []) == 200


def test_a_folder_that_cannot_be_written(folder: Folder) -> None:
    folder.add(1, ".")
    (folder.path / opening.FILE).mkdir()
    said: list[str] = []
    assert count_runs(folder, said) == 1
    assert len(said) == 1 and "can't be kept" in said[0]


def test_no_folder(folder: Folder) -> None:
    assert count_runs(folder, []) == 0
    assert not folder.path.exists()


# A server.


def ask_server(url: str, folder: Folder) -> int:
    """Ask a server for the number of its runs."""
    return opening.ask_server(
        url, Store(folder.path), lambda database: len(queries.run_rows(database)), never
    )


@pytest.mark.postgres
def test_two_folders_have_one_history(server: postgres.Server, tmp_path: pathlib.Path) -> None:
    url = server.make("shared")
    one, other = Folder(tmp_path / "one"), Folder(tmp_path / "other")
    one.add(1, ".F")
    other.add(2, ".")
    assert (ask_server(url, one), ask_server(url, other), ask_server(url, one)) == (1, 2, 2)


@pytest.mark.postgres
def test_writers_of_one_server_at_once(server: postgres.Server, folder: Folder) -> None:
    url = server.make("writers")
    for number in range(1, 31):
        folder.add(number, ".F.~..")
    code = LOOKS.replace("ask_file(", f"ask_server({url!r}, ")
    looking = [
        subprocess.Popen(
            [sys.executable, "-c", code, str(folder.path)],
            env={**os.environ, "PYTHONPATH": str(FRONT / "src")},
            stdout=subprocess.PIPE,
            stderr=subprocess.STDOUT,
            text=True,
        )
        for _ in range(3)
    ]
    assert [one.communicate()[0] for one in looking] == ["30\n"] * 3


@pytest.mark.postgres
def test_a_server_that_goes_away(server: postgres.Server, folder: Folder) -> None:
    url = server.make("lost")
    folder.add(1, ".")
    assert ask_server(url, folder) == 1
    folder.add(2, ".")

    def stop(database: Database) -> int:
        server.stop()
        return len(queries.run_rows(database))

    with pytest.raises(Fault, match=r"can't be asked .* stay in .* next question adds them"):
        opening.ask_server(url, Store(folder.path), stop, never)
    with pytest.raises(Fault, match="can't be asked") as caught:
        ask_server(url, folder)
    assert "\n" not in str(caught.value)
    server.start()
    assert ask_server(url, folder) == 2


def test_what_is_no_url(folder: Folder) -> None:
    with pytest.raises(Fault, match="no URL of PostgreSQL"):
        opening.ask_server("mysql://x", Store(folder.path), lambda _: 0, never)


def test_without_psycopg(folder: Folder) -> None:
    code = "import sys\nsys.modules['psycopg'] = None\n" + LOOKS
    done = subprocess.run(
        [sys.executable, "-c", code.replace("ask_file(", "ask_server('postgresql:///x', ")]
        + [str(folder.path)],
        env={**os.environ, "PYTHONPATH": str(FRONT / "src")},
        stderr=subprocess.PIPE,
        text=True,
        check=False,
    )
    assert "needs psycopg: install python3-psycopg" in done.stderr.splitlines()[-1]
