"""What the built program shows of the run in a bundle."""

from __future__ import annotations

import dataclasses
import json
import subprocess
from pathlib import Path
from typing import Any

import pytest

from workshop.cases.histories import (
    Line,
    cancel,
    end,
    fail,
    go_on,
    pause,
    retry,
    run,
    run_end,
    script,
    script_end,
    skip,
    slow,
    start,
    traced_bundle,
    traced_log,
)
from workshop.cases.texts import SMALL_SESSION
from workshop.oracle.container import container, entries

pytestmark = pytest.mark.program

SECOND = 10**6
OUTPUT = b"out/ba7816bf8f01cfea-stdout"
# The seconds at which a slice begins and ends.
Slices = list[tuple[int, int]]


@dataclasses.dataclass(frozen=True)
class Attempt:
    """An attempt on a slot, from one second to another one, and its slices."""

    slot: int
    started: int
    ended: int | None
    slices: Slices
    has_status: bool = True

    @property
    def active(self) -> int:
        """Return how many seconds the slices last."""
        return sum(last - first for first, last in self.slices)


@dataclasses.dataclass(frozen=True)
class Test:
    """A test of the binary `alpha::a` by its number, its verdict and its attempts."""

    __test__ = False

    number: int
    verdict: str
    attempts: tuple[Attempt, ...] = ()


@dataclasses.dataclass(frozen=True)
class Shown:
    """A history, and what is shown of it."""

    events: list[Line]
    tests: list[Test]
    pauses: Slices = dataclasses.field(default_factory=list)


HISTORIES = {
    "no event": Shown([], []),
    "a test that passes": Shown(
        [run(1000), start(1001, 1, 0), end(1003, 1, 0), run_end(1004)],
        [Test(1, "passed", (Attempt(0, 1001, 1003, [(1001, 1003)]),))],
    ),
    "a pause inside": Shown(
        [run(1000), start(1001, 1, 0), pause(1002, 0), go_on(1005, 0), end(1007, 1, 0)],
        [Test(1, "passed", (Attempt(0, 1001, 1007, [(1001, 1002), (1005, 1007)]),))],
        [(1002, 1005)],
    ),
    "a start in a pause": Shown(
        [run(1000), pause(1001, 0), start(1002, 1, 0), go_on(1004, 0), end(1005, 1, 0)],
        [Test(1, "passed", (Attempt(0, 1002, 1005, [(1002, 1002), (1004, 1005)]),))],
        [(1001, 1004)],
    ),
    "an end in a pause": Shown(
        [run(1000), start(1001, 1, 0), pause(1002, 0), end(1003, 1, 0), go_on(1004, 0)],
        [Test(1, "passed", (Attempt(0, 1001, 1003, [(1001, 1002), (1003, 1003)]),))],
        [(1002, 1004)],
    ),
    "a continuation that continues nothing": Shown(
        [run(1000), start(1001, 1, 0), go_on(1002, 0), end(1003, 1, 0)],
        [Test(1, "passed", (Attempt(0, 1001, 1003, [(1001, 1003)]),))],
    ),
    "a further attempt": Shown(
        [run(1000), start(1001, 2, 0), fail(1002, 2), retry(1003, 2, 3), end(1005, 2, 0)],
        [
            Test(
                2,
                "passed",
                (
                    Attempt(0, 1001, 1002, [(1001, 1002)]),
                    Attempt(3, 1003, 1005, [(1003, 1005)]),
                ),
            )
        ],
    ),
    "a test that never ends": Shown(
        [run(1000), start(1001, 1, 0), run_end(1004)],
        [Test(1, "unfinished", (Attempt(0, 1001, None, [(1001, 1004)], False),))],
    ),
    "a test that starts twice": Shown(
        [run(1000), start(1001, 1, 0), start(1002, 1, 1), end(1004, 1, 0)],
        [
            Test(1, "unfinished", (Attempt(0, 1001, 1002, [(1001, 1002)], False),)),
            Test(1, "passed", (Attempt(1, 1002, 1004, [(1002, 1004)]),)),
        ],
    ),
    "an end without a start": Shown([run(1000), end(1001, 1, 0)], [Test(1, "passed")]),
    "a skip, and a run of the same test": Shown(
        [run(1000), skip(1000, 1), start(1001, 1, 0), end(1002, 1, 0)],
        [
            Test(1, "skipped"),
            Test(1, "passed", (Attempt(0, 1001, 1002, [(1001, 1002)]),)),
        ],
    ),
    "two tests on one slot, of which no trace is drawn": Shown(
        [run(1000), start(1001, 1, 0), start(1002, 2, 0), end(1003, 1, 0), end(1004, 2, 0)],
        [
            Test(1, "passed", (Attempt(0, 1001, 1003, [(1001, 1003)]),)),
            Test(2, "passed", (Attempt(0, 1002, 1004, [(1002, 1004)]),)),
        ],
    ),
}


def view(program: Path, bundle: bytes, *words: str) -> subprocess.CompletedProcess[bytes]:
    """Let the program show a bundle."""
    return subprocess.run([program, "view", *words], input=bundle, capture_output=True, check=False)


def viewed(program: Path, events: list[Line]) -> Any:
    """Return what is shown of the run with these events."""
    done = view(program, traced_bundle(events), "--output", "skip")
    assert (done.returncode, done.stderr) == (0, b"")
    assert done.stdout.endswith(b"}\n")
    return json.loads(done.stdout)


def attempt_shown(attempt: Any) -> Attempt:
    """Return an attempt of a view, whose active time is that of its slices."""
    shown = Attempt(
        attempt["slot"],
        attempt["started"]["secs"],
        attempt["ended"]["secs"] if "ended" in attempt else None,
        [(first["secs"], last["secs"]) for first, last in attempt["slices"]],
        "status" in attempt,
    )
    assert attempt["active"] == shown.active * SECOND
    return shown


def test_shown(test: Any) -> Test:
    """Return a test of a view."""
    assert test["binary-id"] == "alpha::a"
    number = int(test["test-name"].removeprefix("t"))
    return Test(number, test["verdict"], tuple(map(attempt_shown, test["attempts"])))


test_shown.__test__ = False  # type: ignore[attr-defined]


@pytest.mark.parametrize("shown", HISTORIES.values(), ids=HISTORIES)
def test_what_is_shown_of_a_history(program: Path, shown: Shown) -> None:
    made = viewed(program, shown.events)
    assert [test_shown(test) for test in made["tests"]] == shown.tests
    assert [(first["secs"], last["secs"]) for first, last in made["pauses"]] == shown.pauses
    verdicts = [test.verdict for test in shown.tests]
    counts = made["counts"]
    assert {name: count for name, count in counts.items() if count} == {
        name: verdicts.count(name) for name in set(verdicts)
    }


def seconds(made: Any, member: str) -> list[int]:
    """Return the seconds of the events that a member of a view lists."""
    return [event["timestamp"]["secs"] for event in made[member]]


def test_what_is_shown_of_scripts_and_marks(program: Path) -> None:
    events = [
        run(1000),
        script(1001, 0, 1),
        script_end(1003, 0, 1),
        start(1004, 1, 0),
        slow(1005, 1),
        cancel(1006, 0),
        end(1007, 1, 0),
        run_end(1008),
    ]
    made = viewed(program, events)
    (one,) = made["scripts"]
    assert (one["script-id"], one["index"], one["active"]) == ("db1", 0, 2 * SECOND)
    assert seconds(made, "slow") == [1005]
    assert seconds(made, "cancelled") == [1006]
    assert (made["begin"]["secs"], made["end"]["secs"]) == (1000, 1008)


def test_starts_and_ends_are_as_the_log_has_them(program: Path) -> None:
    events = [
        run(1000),
        run(1001),
        run_end(1002),
        cancel(1003, 0),
        run_end(1004),
        script(1005, 0, 1),
    ]
    made = viewed(program, events)
    logged = [json.loads(line) for line in traced_log(events).splitlines()]
    assert made["run-started"] == logged[:2]
    assert made["run-finished"] == [logged[2], logged[4]]
    assert made["setup-script-started"] == [logged[5]]


# ---- outputs


def recorded(program: Path, folder: Path) -> list[tuple[bytes, bytes]]:
    """Return the entries of a bundle with the output `abc`."""
    path = folder / "bundle"
    subprocess.run([program, "record", path], input=SMALL_SESSION, capture_output=True, check=True)
    return list(entries(path.read_bytes()).items())


def with_output(parts: list[tuple[bytes, bytes]], output: bytes | None) -> bytes:
    """Return a bundle whose output has other bytes, or that lacks it."""
    made = dict(parts)
    store = dict(entries(made[b"store.zip"]))
    del store[OUTPUT]
    made[b"store.zip"] = container(
        [*store.items(), *([] if output is None else [(OUTPUT, output)])]
    )
    return container(list(made.items()))


def test_the_outputs_stand_behind_the_line(program: Path, tmp_path: Path) -> None:
    bundle = container(recorded(program, tmp_path))
    line = view(program, bundle, "--output", "skip").stdout
    assert line.count(b"\n") == 1
    assert view(program, bundle).stdout == line + OUTPUT + b" 3\nabc\n"


REFUSED = {
    "another output": (b"abd", b"OutputChanged file_name=" + OUTPUT + b"\n"),
    "the output with one byte more": (b"abcd", b"OutputChanged file_name=" + OUTPUT + b"\n"),
    "no output": (None, b"RecordRead FileNotFound file_name=" + OUTPUT + b"\n"),
}


@pytest.mark.parametrize("output, line", REFUSED.values(), ids=REFUSED)
def test_a_changed_output(program: Path, tmp_path: Path, output: bytes | None, line: bytes) -> None:
    bundle = with_output(recorded(program, tmp_path), output)
    done = view(program, bundle)
    assert (done.returncode, done.stdout, done.stderr) == (13, b"", line)
    assert view(program, bundle, "--output", "skip").returncode == 0


def test_a_bundle_without_a_store(program: Path) -> None:
    done = view(program, traced_bundle([run(1000)]))
    line = b"MissingFile file_name=store.zip\n"
    assert (done.returncode, done.stdout, done.stderr) == (12, b"", line)
