"""The words of the workshop's commands."""

from __future__ import annotations

import subprocess
import sys

import pytest

from workshop import TOP

COMMANDS = sorted(
    path.stem for path in (TOP / "workshop").glob("*.py") if "__main__" in path.read_text()
)


def status_of(command: str, *words: str) -> int:
    """Return the status of a command with these words."""
    return subprocess.run(
        [sys.executable, "-m", f"workshop.{command}", *words],
        cwd=TOP,
        stdin=subprocess.DEVNULL,
        capture_output=True,
        check=False,
    ).returncode


def test_there_are_commands() -> None:
    assert len(COMMANDS) >= 12


@pytest.mark.parametrize("command", COMMANDS)
@pytest.mark.parametrize(("word", "status"), [("--help", 0), ("--no-such-word", 2)])
def test_words(command: str, word: str, status: int) -> None:
    """A command says how it is used, and refuses words that it doesn't know."""
    assert status_of(command, word) == status


@pytest.mark.parametrize("words", [["-5"], ["5", "--binaries", "0"]], ids=" ".join)
def test_numbers_that_make_no_sense(words: list[str]) -> None:
    assert status_of("make_session", *words) == 2


@pytest.mark.parametrize("command", ["sweep", "try_commands"])
def test_a_program_that_is_not_there(command: str) -> None:
    assert status_of(command, f"{TOP}/no-program") == 2
