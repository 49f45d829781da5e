"""What is read of bundles that were made by hand."""

from __future__ import annotations

import pathlib
from collections.abc import Callable, Mapping

import pytest

from rezovamy_runs.bundles import bundle
from rezovamy_runs.faults.fault import Fault
from rezovamy_runs.json_values import JsonObject
from rezovamy_runs.model import Attempt, Counts, Result, Run, Test, Verdict
from tests import made
from workshop.oracle.container import container, entries

OK, CUT = made.file_name(b"ok\n", "stdout"), made.file_name(b"\xff", "combined")
STDOUT = {"output": {"output": {"split": {"stdout": {"full": OK}, "stderr": "empty"}}}}
COMBINED = {
    "output": {
        "output": {"combined": {"truncated": {"file-name": CUT, "original-size": 99}}},
        "errors": ["first", "second"],
    }
}
OUTPUTS = {OK: b"ok\n", CUT: b"\xff"}
SCRIPT: JsonObject = {
    "script_id": "db",
    "index": 4,
    "total": 5,
    "program": "sh",
    "args": ["-c"],
    "no_capture": False,
}

SECOND = 1_000_000

pytestmark = pytest.mark.program

Read = Callable[..., Run]
Refused = Callable[[bytes], str]


@pytest.fixture
def path(tmp_path: pathlib.Path) -> pathlib.Path:
    """Where the bundle of a test stands."""
    return tmp_path / "one.bundle"


@pytest.fixture
def read(path: pathlib.Path) -> Read:
    """What is read of a bundle with these events."""

    def read_it(*events: object, load: bool = True, stored: Mapping[str, bytes] = {}) -> Run:
        path.write_bytes(made.bundle(made.run_started(), *events, outputs=stored))
        return bundle.read_run(path, outputs=load)

    return read_it


@pytest.fixture
def refused(path: pathlib.Path) -> Refused:
    """The line that refuses a file with these bytes."""

    def refuse(data: bytes) -> str:
        path.write_bytes(data)
        with pytest.raises(Fault) as caught:
            bundle.read_run(path)
        said = str(caught.value)
        assert str(path) in said
        assert "\n" not in said
        return said

    return refuse


def aborted(**signal: object) -> object:
    """The result of an attempt that a signal ended."""
    return {"fail": {"failure": {"abort": signal}, "leaked": False}}


# Tests and their attempts.


def test_attempts_have_the_slots_of_their_starts(read: Read) -> None:
    first = made.status(0, 2, made.exit_code(), 1, 2, COMBINED)
    run = read(
        made.started(0, "t"),
        made.failed(2, "t", first),
        made.retried(3, "t", 2, 2, slot=5),
        made.finished(4, "t", first, made.status(3, 1, "pass", 2, 2, STDOUT)),
        stored=OUTPUTS,
    )
    failed = Attempt(
        number=1,
        total=2,
        started=1000.0,
        slot=3,
        result=Result("fail"),
        detail="exit code 101",
        seconds=2.0,
        combined=b"\xff",
        errors="first\nsecond",
        truncated={"combined": 99},
        slices=((1000 * SECOND, 1002 * SECOND),),
        active=2.0,
    )
    passed = Attempt(
        number=2,
        total=2,
        started=1003.0,
        slot=5,
        result=Result("pass"),
        seconds=1.0,
        stdout=b"ok\n",
        stderr=b"",
        slices=((1003 * SECOND, 1004 * SECOND),),
        active=1.0,
    )
    assert run.tests == (Test("alpha", "t", Verdict("flaky"), (failed, passed)),)
    assert run.counts == Counts(passed=1, flaky=1)


def test_outputs_are_left_out(read: Read) -> None:
    ended = made.finished(4, "t", made.status(0, 1, "pass", output=STDOUT))
    run = read(made.started(0, "t"), ended, load=False)
    (attempt,) = run.tests[0].attempts
    assert (attempt.stdout, attempt.stderr, attempt.combined) == (None, b"", None)


def test_an_output_that_is_missing_is_a_fault(read: Read) -> None:
    ended = made.finished(4, "t", made.status(0, 1, "pass", output=STDOUT))
    with pytest.raises(Fault, match=f"out/{OK}"):
        read(made.started(0, "t"), ended)


@pytest.mark.parametrize(
    ("value", "word", "detail", "verdict"),
    [
        ("pass", "pass", "", "pass"),
        ({"leak": "pass"}, "leak", "", "pass"),
        ({"leak": "fail"}, "leak-fail", "", "fail"),
        ({"timeout": "pass"}, "timeout-pass", "", "pass"),
        ({"timeout": "fail"}, "timeout", "", "fail"),
        ("exec-fail", "exec-fail", "", "fail"),
        (made.exit_code(7), "fail", "exit code 7", "fail"),
        (aborted(signal=6, name="SIGABRT"), "abort", "signal 6, SIGABRT", "fail"),
        (aborted(signal=99), "abort", "signal 99", "fail"),
    ],
)
def test_results(read: Read, value: object, word: str, detail: str, verdict: str) -> None:
    run = read(made.started(0, "t"), made.finished(1, "t", made.status(0, 1, value)))
    (test,) = run.tests
    assert (test.attempts[0].result, test.attempts[0].detail) == (word, detail)
    assert test.verdict == verdict


def test_a_process_that_cannot_start(read: Read) -> None:
    status = made.status(0, 0, "exec-fail", output={"start-error": "no such file"})
    run = read(made.started(0, "t"), made.finished(0, "t", status))
    assert run.tests[0].attempts[0].errors == "no such file"


def test_flaky_tests_may_fail(read: Read) -> None:
    statuses = made.status(0, 1, made.exit_code(), 1, 2), made.status(1, 1, "pass", 2, 2)
    run = read(
        made.started(0, "t"),
        made.retried(1, "t", 2, 2),
        made.finished(2, "t", *statuses, flaky="fail"),
    )
    assert (run.tests[0].verdict, run.counts) == ("fail", Counts(failed=1))


def test_a_test_without_an_end(read: Read) -> None:
    run = read(made.started(0, "t"), made.skipped(1, "u"))
    assert [test.verdict for test in run.tests] == ["unfinished", "skip"]
    assert (run.tests[0].attempts[0].ended, run.tests[1].reason) == (None, "ignored")
    assert run.counts == Counts(skipped=1, unseen=1)


def test_a_test_that_passed_starts_anew(read: Read) -> None:
    passed = made.status(0, 1)
    once = made.started(0, "t"), made.finished(1, "t", passed)
    run = read(*once, made.started(2, "t"), made.finished(3, "t", passed))
    assert [test.verdict for test in run.tests] == ["pass", "pass"]


def test_pauses(read: Read) -> None:
    def at(second: int, kind: str) -> object:
        return made.event(kind, second, setup_scripts_running=0, running=0)

    run = read(
        at(1, "run-paused"), at(2, "run-paused"), at(5, "run-continued"), at(7, "run-paused")
    )
    assert run.pauses == ((1001 * SECOND, 1005 * SECOND), (1007 * SECOND, 1007 * SECOND))


def test_setup_scripts(read: Read) -> None:
    status = made.status(0, 2, made.exit_code(3), output=COMBINED)
    run = read(
        made.event("setup-script-started", 0, **SCRIPT),
        made.event("setup-script-finished", 2, run_status=status, **SCRIPT),
        stored=OUTPUTS,
    )
    (found,) = run.scripts
    assert (found.id, found.index, found.program, found.args) == ("db", 4, "sh", ("-c",))
    attempt = found.attempt
    assert (attempt.result, attempt.seconds, attempt.combined) == ("fail", 2.0, b"\xff")


# Runs and their summaries.


def test_a_summary_is_of_the_manifest_and_both_ends(path: pathlib.Path) -> None:
    unseen = {"not-seen": [], "total-not-seen": 4}
    path.write_bytes(
        made.bundle(
            made.run_started(profile="ci"),
            made.skipped(1, "t"),
            made.run_finished(11, 11, outstanding_not_seen=unseen),
            ended=made.completed(7, 1, 101),
        )
    )
    found = bundle.read_summary(path)
    assert (found.id, found.profile) == (made.ID, "ci")
    assert (found.started, found.elapsed) == (1000.0, 11.0)
    assert (found.status, found.exit_code) == ("completed", 101)
    assert found.cli_args == ("cargo", "test")
    assert found.counts == Counts(skipped=1, unseen=4)
    assert found.size == path.stat().st_size


def test_a_run_without_an_end(path: pathlib.Path) -> None:
    ended = made.finished(2, "t", made.status(0, 2))
    path.write_bytes(made.bundle(made.run_started(), made.started(0, "t"), ended))
    found = bundle.read_summary(path)
    assert (found.status, found.exit_code) == ("incomplete", None)
    assert (found.counts, found.elapsed) == (Counts(passed=1), 2.0)


def test_a_long_last_line_is_read_whole(path: pathlib.Path) -> None:
    names = [f"{number:0100}" for number in range(1000)]
    unseen = {"not-seen": list(map(made.test_of, names)), "total-not-seen": 1000}
    path.write_bytes(
        made.bundle(
            made.run_started(),
            made.run_finished(11, 11, outstanding_not_seen=unseen),
            ended=made.completed(0, 0),
        )
    )
    assert bundle.read_summary(path).counts == Counts(unseen=1000)


def test_tests_that_never_started(path: pathlib.Path) -> None:
    unseen = {"not-seen": [made.test_of("t")], "total-not-seen": 3}
    path.write_bytes(made.bundle(made.run_finished(11, 11, outstanding_not_seen=unseen)))
    run = bundle.read_run(path)
    assert (run.never_started, run.unnamed) == ((("alpha", "t"),), 2)
    path.write_bytes(made.bundle(made.run_started()))
    assert bundle.read_run(path).unnamed == 0


def test_an_empty_log(path: pathlib.Path) -> None:
    path.write_bytes(made.bundle())
    assert bundle.read_run(path).tests == ()
    assert bundle.read_summary(path).counts == Counts()


def test_entries_in_another_order(path: pathlib.Path) -> None:
    parts = entries(made.bundle(made.run_started(profile="ci")))
    path.write_bytes(container([(b"more", b"x"), *reversed(parts.items())]))
    assert bundle.read_run(path).profile == "ci"


# Files that are no bundles.


@pytest.mark.parametrize(
    ("data", "said"),
    [
        (b"", "standard input is empty"),
        (b"text", "this isn't a bundle"),
        (b"nxtcont1\0", "manifest.json"),
        (b"nxtcont1\7", "byte 8 begins no entry"),
    ],
)
def test_other_files(refused: Refused, data: bytes, said: str) -> None:
    assert said in refused(data)


def test_a_file_that_is_not_called_a_bundle_is_not_to_be_removed(tmp_path: pathlib.Path) -> None:
    path = tmp_path / "passwd"
    path.write_bytes(b"text")
    with pytest.raises(Fault, match="rezovamy record BUNDLE < SESSION makes a bundle$"):
        bundle.read_run(path)


def test_every_cut_is_a_fault(refused: Refused) -> None:
    whole = made.bundle(made.run_started(), made.started(0, "t"))
    for length in range(len(whole)):
        refused(whole[:length])


@pytest.mark.parametrize(
    ("data", "said"),
    [
        (made.bundle(version=(1, 2)), "the bundle has format 1.2"),
        (made.bundle(version=(2, 0)), "the bundle has format 2.0"),
        (made.bundle(store=(3, 2)), "the store has format 3.2"),
    ],
)
def test_newer_versions(refused: Refused, data: bytes, said: str) -> None:
    assert said in refused(data)


@pytest.mark.parametrize(
    "line",
    [
        {"kind": "test-started"},
        [],
        made.started(1, "t") | {"test-instance": 3},
        made.finished(1, "t"),
        made.finished(1, "t", made.status(0, 1, "odd")),
    ],
    ids=["members missing", "no object", "no test", "no attempt", "no result"],
)
def test_lines_that_are_no_events(refused: Refused, line: object) -> None:
    assert "line 1 is neither blank nor an event" in refused(made.bundle(line))
