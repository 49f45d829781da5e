"""What the commands say of tests in quarantine, and how they end."""

from __future__ import annotations

import json
import xml.etree.ElementTree

import pytest

from rezovamy_runs.quarantine import FILE
from tests import EXAMPLES, junit_schema, made
from tests.front_end import FrontEnd
from tests.test_real_cargo import FILES, crate
from tests.test_real_cargo import front_end as front_end_of_cargo

__all__ = ["crate", "front_end_of_cargo"]

FIRST = "0a1b2c3d-0000-4000-8000-000000000001"
SECOND = "0a1b2c3d-0000-4000-8000-000000000002"


def put(front_end: FrontEnd, text: str) -> None:
    """Let the quarantine of a workspace have these lines."""
    (front_end.folder / FILE).parent.mkdir(exist_ok=True)
    (front_end.folder / FILE).write_text(text)


@pytest.fixture
def workspace(front_end: FrontEnd) -> FrontEnd:
    """A front end in a package with two runs, of which t0 and t1 fail in the later one."""
    (front_end.folder / "Cargo.toml").write_text(FILES["Cargo.toml"])
    (front_end.folder / "src").mkdir()
    (front_end.folder / "src/lib.rs").write_text("")
    front_end.add(FIRST, 0, "pass", "pass")
    front_end.add(SECOND, 1000, made.exit_code(), made.exit_code())
    return front_end


ONE = "alpha t0  # slow machine\n"
BOTH = f"{ONE}t1\n"


@pytest.mark.program
@pytest.mark.parametrize("lines, status", [("", 4), (ONE, 4), (BOTH, 0)])
def test_compare_fails_for_others(workspace: FrontEnd, lines: str, status: int) -> None:
    put(workspace, lines)
    assert workspace.run("compare", FIRST, SECOND, "--fail").returncode == status


@pytest.mark.program
def test_what_is_said(workspace: FrontEnd) -> None:
    put(workspace, ONE)
    assert "  alpha t0 (QUARANTINED)\n  alpha t1\n" in workspace.output("compare", FIRST, SECOND)
    assert "alpha t0 (QUARANTINED)\n" in workspace.output("flaky")
    found = json.loads(workspace.output("flaky", "--json"))
    assert [(one["test"], one["quarantined"]) for one in found] == [("t0", True), ("t1", False)]
    shown = workspace.output("show", SECOND)
    assert "QUARANTINED FAIL [1.0s] alpha t0 (exit code 101, slow machine)\n" in shown
    assert "2 tests in 1.0s: 0 passed, 2 failed (1 in quarantine)\n" in shown


@pytest.fixture
def recorded(workspace: FrontEnd) -> FrontEnd:
    """A front end with a run by the program, in which two tests of `sums::wrong` fail.

    The status stays that of cargo, whatever is in quarantine.
    """
    put(workspace, "sums::wrong *")
    assert workspace.run("test", "--from", str(EXAMPLES / "sums.libtest.json")).returncode == 101
    return workspace


PRODUCT = "sums::wrong expects_a_product # slow machine\n"
SAID = "panicked at tests/wrong.rs:7:5: assertion `left == right` failed: that is the product"


@pytest.mark.program
@pytest.mark.parametrize(
    "lines, skipped, status",
    [
        ("", {}, 4),
        (PRODUCT, {"expects_a_product": f"QUARANTINED: slow machine; it failed: {SAID}"}, 4),
        (
            f"{PRODUCT}answers_an_error\npanics\n",
            {
                "expects_a_product": f"QUARANTINED: slow machine; it failed: {SAID}",
                "answers_an_error": 'QUARANTINED; it failed: Error: "Some(1) is no error"',
            },
            0,
        ),
    ],
)
def test_xml(recorded: FrontEnd, lines: str, skipped: dict[str, str], status: int) -> None:
    """A failure in quarantine is skipped, and keeps its output; what passed stays."""
    put(recorded, lines)
    folder = recorded.folder / "xml"
    done = recorded.run("junit", "last-any", "--fail", "--to", str(folder))
    assert (done.returncode, done.stderr) == (status, "")
    root = xml.etree.ElementTree.parse(folder / "junit.xml").getroot()
    (suite,) = (one for one in root if one.get("name") == "sums::wrong")
    failed = {"expects_a_product", "answers_an_error"} - set(skipped)
    assert suite.get("failures") == root.get("failures") == str(len(failed))
    assert suite.get("skipped") == str(len(skipped))
    for case in suite:
        name = case.get("name", "")
        tags = [one.tag for one in case]
        if name in skipped:
            assert (tags[0], case[0].get("message")) == ("skipped", skipped[name])
        assert tags[1:] == (["system-out", "system-err"] if name != "panics" else [])
    assert junit_schema.faults([folder / "junit.xml"]) == []


@pytest.mark.program
@pytest.mark.parametrize("command", ["test", "junit", "flaky", "compare", "again"])
def test_a_wrong_line_is_told_before_anything_runs(recorded: FrontEnd, command: str) -> None:
    put(recorded, "\nt0 until 2026-02-30\n")
    done = recorded.run(command)
    path = recorded.folder / FILE
    assert done.returncode == 2
    assert done.stderr.splitlines()[-1] == (
        f"rezovamy-runs: {path}:2: 2026-02-30 is no day: write it as 2026-12-31"
    )


@pytest.mark.cargo
@pytest.mark.program
def test_a_run_of_cargo(front_end_of_cargo: FrontEnd) -> None:
    """The failure is told, the rest runs in spite of `--fail-fast`, and the status is 0."""
    real = front_end_of_cargo
    put(real, "tiny fails until 2999-12-31 # it is wrong\ngone\n")
    try:
        words = ("--fail-fast", "--test-threads", "1")
        done = real.run("test", *words)
        assert (done.returncode, "1 passed, 1 failed (1 in quarantine)" in done.stdout) == (0, True)
        assert "QUARANTINED FAIL " in done.stderr and "it is wrong" in done.stderr
        assert done.stderr.endswith(
            f"rezovamy-runs: {FILE}:2: no test of the run is called `gone`: "
            "correct the line, or remove it\n"
        )
        again = real.run("again")
        assert (again.returncode, "`gone`" in again.stderr) == (0, False)
        assert real.run("test", "--shared").returncode == 0
        put(real, "tiny fails until 2000-01-01\n")
        done = real.run("test", *words)
        assert (done.returncode, "in quarantine" in done.stdout) == (101, False)
        assert "the quarantine of `tiny fails` ended on 2000-01-01" in done.stderr
    finally:
        (real.folder / FILE).unlink()
