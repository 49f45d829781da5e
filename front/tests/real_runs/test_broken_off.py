"""Runs that are broken off while a test hangs: by the keyboard, by a CI, or killed."""

from __future__ import annotations

import signal

import pytest

from tests.real_runs.broken_off import interrupted_run, killed_run
from tests.real_runs.cargo_runs import Cargo
from tests.real_runs.sessions import Session, session_of

pytestmark = pytest.mark.cargo


def check_broken_off(session: Session, reason: str, status: int) -> None:
    """See that a run was cancelled for a reason while its only test ran."""
    assert (session.status["status"], session.status["exit-code"]) == ("cancelled", status)
    kinds = ["run-started", "test-started", "run-begin-cancel", "run-finished"]
    assert [event.kind for event in session.events] == kinds
    assert session.events[2].members.text("reason") == reason
    hanging = {"binary-id": "ends::hangs", "test-name": "hangs"}
    assert session.not_seen == {"not-seen": [hanging], "total-not-seen": 1}


def test_a_run_that_the_keyboard_breaks_off(hanging_run: Session) -> None:
    check_broken_off(hanging_run, "interrupt", 130)


def test_a_run_that_a_ci_breaks_off(cargo: Cargo) -> None:
    check_broken_off(interrupted_run(cargo, signal.SIGTERM), "signal", 143)


def test_a_run_that_is_killed(cargo: Cargo) -> None:
    killed = killed_run(cargo)
    assert killed.status == 137
    check_broken_off(session_of(killed.lines, "--status", "137"), "signal", 137)
