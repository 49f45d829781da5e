"""What all Python tests share: what each needs of the machine, and what follows if that is missing.

A test that is marked `program`, `cargo`, `browser`, `firefox`, `tmux` or `postgres` needs the built
program, cargo, Chromium, Firefox, tmux, or a server of PostgreSQL with psycopg. Where it is missing
the test is skipped; with REZOVAMY_TEST_ALL=1, as in the gate, it fails.
"""

from __future__ import annotations

import importlib.util
import os
import pathlib
import shutil
import signal
import tempfile
from typing import NoReturn

import pytest

from tests import postgres

TOP = pathlib.Path(__file__).resolve().parent
BUILT = TOP / "crates/rezovamy/out/rezovamy"
BROWSERS = ("chromium", "chromium-browser", "google-chrome")
FIREFOX = ("firefox-esr", "firefox")


def program_path() -> pathlib.Path | None:
    """Return the program that REZOVAMY names, or the one that was built in this clone."""
    named = os.environ.get("REZOVAMY")
    path = pathlib.Path(named).resolve() if named else BUILT
    return path if os.access(path, os.X_OK) else None


def has_postgres() -> bool:
    """Tell whether a server of PostgreSQL and psycopg are here."""
    return postgres.programs() is not None and importlib.util.find_spec("psycopg") is not None


def leave_out(missing: str) -> NoReturn:
    """Skip the test that runs, or fail it where all tests are asked for."""
    if os.environ.get("REZOVAMY_TEST_ALL"):
        pytest.fail(f"{missing} is missing", pytrace=False)
    pytest.skip(f"{missing} is missing")


def pytest_configure(config: pytest.Config) -> None:
    """Give the tests folders of their own for what is kept, so that none touches the user's.

    Let a signal of the keyboard or of a terminal that goes come, which a shell ignores for what it
    runs in the background, and `nohup` for all: what a test starts would ignore it too.
    """
    state = tempfile.TemporaryDirectory(prefix="rezovamy-state-")
    os.environ["XDG_STATE_HOME"] = state.name
    os.environ["XDG_CACHE_HOME"] = os.path.join(state.name, "cache")
    config.add_cleanup(state.cleanup)
    if signal.getsignal(signal.SIGINT) == signal.SIG_IGN:
        signal.signal(signal.SIGINT, signal.default_int_handler)
    if signal.getsignal(signal.SIGHUP) == signal.SIG_IGN:
        signal.signal(signal.SIGHUP, signal.SIG_DFL)


def pytest_runtest_setup(item: pytest.Item) -> None:
    """Leave out a test whose marks name something that isn't here."""
    if item.get_closest_marker("program") and program_path() is None:
        leave_out("the built program")
    if item.get_closest_marker("cargo") and shutil.which("cargo") is None:
        leave_out("cargo")
    if item.get_closest_marker("postgres") and not has_postgres():
        leave_out("PostgreSQL or psycopg")
    if item.get_closest_marker("browser") and not any(map(shutil.which, BROWSERS)):
        leave_out("Chromium")
    if item.get_closest_marker("firefox") and not any(map(shutil.which, FIREFOX)):
        leave_out("Firefox")
    if item.get_closest_marker("tmux") and shutil.which("tmux") is None:
        leave_out("tmux")


@pytest.fixture(scope="session")
def program() -> pathlib.Path:
    """The path of the built program."""
    return program_path() or leave_out("the built program")
