"""Runs of cargo over `examples/mishaps` that several tests read, each made once."""

from __future__ import annotations

import dataclasses
import pathlib
import signal

import pytest

from tests.real_runs.broken_off import interrupted_run
from tests.real_runs.cargo_runs import Answer, Cargo, cargo_in
from tests.real_runs.recorder import Recorder
from tests.real_runs.sessions import Session, live_session, session_of

LONG_OUTPUT = ["-p", "ends", "--test", "prints_much"]
BROKEN_LIBRARY = ["-p", "ends", "--lib", "--features", "broken"]


@dataclasses.dataclass(frozen=True)
class RecordedRun:
    """What cargo printed, and the session of it."""

    printed: str
    session: Session


@pytest.fixture(scope="session")
def cargo(tmp_path_factory: pytest.TempPathFactory) -> Cargo:
    """Cargo over a copy of the packages."""
    return cargo_in(tmp_path_factory.mktemp("real-runs"), "mishaps")


@pytest.fixture(scope="session")
def plain_run(cargo: Cargo) -> str:
    """What cargo prints for people of a run of all tests."""
    cargo.forget_failure()
    return cargo.text("--no-fail-fast")


@pytest.fixture(scope="session")
def whole_run(cargo: Cargo) -> RecordedRun:
    """A run of all tests, after which the flaky ones run a second time."""
    cargo.forget_failure()
    runs = [["--no-fail-fast"], ["-p", "ends", "--test", "flaky"]]
    printed, session = live_session(cargo, runs)
    return RecordedRun(printed.decode(), session)


@pytest.fixture(scope="session")
def broken_build(cargo: Cargo) -> Answer:
    """The lines of a run whose library can't be built."""
    return cargo.events(*BROKEN_LIBRARY)


@pytest.fixture(scope="session")
def hanging_run(cargo: Cargo) -> Session:
    """A run that was broken off by the keyboard while a test hung."""
    return interrupted_run(cargo, signal.SIGINT)


@pytest.fixture(scope="session")
def long_output(cargo: Cargo) -> Session:
    """A run whose only test prints much, and fails with a long message."""
    answer = cargo.events(*LONG_OUTPUT, tests=["--ignored"])
    return session_of(answer.lines, "--status", str(answer.status))


@pytest.fixture
def recorder(program: pathlib.Path, tmp_path: pathlib.Path) -> Recorder:
    """The built program, run in a folder of its own."""
    return Recorder(program, tmp_path)
