"""Which runs go when old ones are removed."""

from __future__ import annotations

import os
import pathlib
import pty
import subprocess
import time

import pytest

from rezovamy_runs.model import Counts, Status, Summary
from rezovamy_runs.store import retention
from rezovamy_runs.store.retention import Rule
from rezovamy_runs.store.run_folder import Store
from tests import made
from tests.front_end import FrontEnd, front_end_in

# Five runs, the latest first: one an hour, of 10 bytes each; `d` is a rerun of `b`, `b` of `a`.
NOW = 100 * 3600.0
PARENTS = {"d": "b", "b": "a"}
FIRST, SECOND, THIRD = (
    f"{start}-0000-4000-8000-000000000000" for start in ("aaaa1111", "aaaa2222", "bbbb1111")
)


def summary(run_id: str, started: float) -> Summary:
    """Return the summary of a run of 10 bytes."""
    return Summary(
        id=run_id,
        bundle=pathlib.Path(f"/runs/{run_id}.bundle.gz"),
        size=10,
        profile="default",
        started=started,
        elapsed=1,
        status=Status.COMPLETED,
        exit_code=0,
        counts=Counts(1),
        nextest_version="",
        cli_args=(),
        parent=PARENTS.get(run_id),
    )


RUNS = [summary(run_id, NOW - 3600 * (age + 0.5)) for age, run_id in enumerate("edcba")]


@pytest.mark.parametrize(
    ("rule", "gone"),
    [
        (Rule(keep=5), ""),
        (Rule(keep=9), ""),
        (Rule(keep=1), "dcba"),
        (Rule(keep=0), "edcba"),
        # `d` stays, so `b` and `a` do.
        (Rule(keep=2), "c"),
        (Rule(keep=3), ""),
        (Rule(older=3600), "dcba"),
        (Rule(older=2 * 3600), "c"),
        (Rule(older=100 * 3600), ""),
        (Rule(size=50), ""),
        (Rule(size=49), ""),
        (Rule(size=10), "dcba"),
        (Rule(size=9), "edcba"),
        (Rule(keep=1, size=9), "dcba"),
        (Rule(keep=1, older=100 * 3600), ""),
        (Rule(keep=1, older=1), "dcba"),
        (Rule(older=100 * 3600, size=10), "dcba"),
    ],
)
def test_which_runs_go(rule: Rule, gone: str) -> None:
    assert "".join(run.id for run in retention.gone(RUNS, rule, NOW)) == gone


@pytest.fixture
def front_end(tmp_path: pathlib.Path) -> FrontEnd:
    """A front end with three runs, the last one a rerun of the first."""
    front_end = front_end_in(tmp_path)
    front_end.add(FIRST, 0, "pass")
    front_end.add(SECOND, 1000, "pass")
    rerun = made.bundle(made.run_started(2000), at=2000, run_id=THIRD, parent_run_id=FIRST)
    front_end.add_bundle(THIRD, rerun)
    return front_end


def left(front_end: FrontEnd) -> list[str]:
    """Return the ids of the runs that are left."""
    return Store(front_end.runs).ids()


def test_a_parent_stays(front_end: FrontEnd) -> None:
    assert front_end.output("prune", "--keep", "1").startswith("1 run removed, ")
    assert left(front_end) == [FIRST, THIRD]


def test_a_dry_run_removes_nothing(front_end: FrontEnd) -> None:
    first, last = front_end.output("prune", "--keep", "1", "--dry-run").splitlines()
    assert first.startswith(f"{SECOND} 1970-01-01 00:33:20 ")
    assert last.startswith("1 run of ") and last.endswith(" would be removed")
    assert left(front_end) == [FIRST, SECOND, THIRD]


@pytest.mark.parametrize(("answer", "removed"), [("y", True), ("n", False), ("", False)])
def test_a_terminal_is_asked(front_end: FrontEnd, answer: str, removed: bool) -> None:
    main, side = pty.openpty()
    os.write(main, f"{answer}\n".encode())
    words = front_end.words("prune", "--keep", "1")
    with os.fdopen(side, "rb+", buffering=0) as terminal:
        done = subprocess.run(
            words, stdin=terminal, stdout=terminal, env=front_end.environment, timeout=60
        )
    said = os.read(main, 10_000).decode()
    os.close(main)
    assert done.returncode == 0
    assert "Remove 1 run of " in said and "? [y/N] " in said
    assert (SECOND not in left(front_end)) is removed


def test_notes_and_pages_go_with_their_run(front_end: FrontEnd) -> None:
    for ending in (".json", ".html"):
        for run_id in (FIRST, SECOND):
            (front_end.runs / f"{run_id}{ending}").write_text("{}")
    front_end.output("prune", "--older", "1h", "--keep", "1", "--yes")
    assert [name for name in os.listdir(front_end.runs) if name.startswith(SECOND)] == []
    assert (front_end.runs / f"{FIRST}.json").exists()


def test_old_notes_of_no_run_go(front_end: FrontEnd) -> None:
    old, new = (front_end.runs / f"{run_id}.json" for run_id in (made.ID, "c" + FIRST[1:]))
    for path in (old, new):
        path.write_text("{}")
    os.utime(old, (time.time() - 2 * 86400,) * 2)
    front_end.output("prune", "--keep", "9")
    assert (old.exists(), new.exists()) == (False, True)


def test_without_a_rule_it_is_an_error(front_end: FrontEnd) -> None:
    done = front_end.run("prune", "--yes")
    assert (done.returncode, "--older AGE" in done.stderr) == (2, True)
