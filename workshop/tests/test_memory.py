"""How much memory the built program holds.

It is within 2.5 times its input, beside its own, for each command and each shape of session. Only
`salvage` may hold three times its input.
"""

from __future__ import annotations

import subprocess
import sys
from pathlib import Path

import pytest

from workshop import TOP

MAKE_SESSION = [sys.executable, "-m", "workshop.make_session"]
SHAPES = {
    "in four binaries": ["8000"],
    "each in a binary of its own": ["8000", "--binaries", "8000"],
    "all open at once": ["8000", "--slots", "8000"],
    "outputs of their own": ["4000", "--distinct", "1000"],
    "outputs of 1 MiB": ["12", "--distinct", "1048576"],
}
# What the program holds of any input, and a little more, in bytes.
OWN = 4 << 20
# How many times its input a command may hold, if that isn't 2.5 times.
MOST = {"salvage written": 3}
# The last one writes the bundle that the readers read.
WRITERS = ("record bundle --message-format json-pretty", "record bundle")
READERS = (
    "info",
    "trace",
    "trace --message-format json-pretty",
    "replay",
    "report",
    "slots",
    "rerun",
    "view",
    "view --output load",
    "upgrade written",
    "salvage written",
)


# Runs the program of its words, and prints the most bytes that it held. Until the program is loaded
# the process that starts it counts as the program. So that one has to be small; pytest isn't.
MEASURE = """
import os, sys
to_nothing = [(os.POSIX_SPAWN_OPEN, 1, os.devnull, os.O_WRONLY, 0)]
started = os.posix_spawn(sys.argv[1], sys.argv[1:], os.environ, file_actions=to_nothing)
_, status, usage = os.wait4(started, 0)
print(usage.ru_maxrss * 1024)
sys.exit(os.waitstatus_to_exitcode(status))
"""


def most_held(program: Path, words: str, source: Path) -> int:
    """Return the most bytes that the program held, with this file as standard input."""
    command = [sys.executable, "-S", "-c", MEASURE, str(program), *words.split()]
    with source.open("rb") as given:
        done = subprocess.run(
            command, stdin=given, stdout=subprocess.PIPE, cwd=source.parent, check=False
        )
    assert done.returncode == 0, words
    return int(done.stdout)


@pytest.mark.program
@pytest.mark.parametrize("shape", SHAPES.values(), ids=SHAPES)
def test_memory_stays_within_its_share_of_the_input(
    shape: list[str], program: Path, tmp_path: Path
) -> None:
    session, bundle = tmp_path / "session", tmp_path / "bundle"
    with session.open("wb") as out:
        subprocess.run([*MAKE_SESSION, *shape, "--ends"], cwd=TOP, stdout=out, check=True)
    tried = [(words, session) for words in WRITERS] + [(words, bundle) for words in READERS]
    above = {
        words: held
        for words, source in tried
        if (held := most_held(program, words, source))
        >= OWN + MOST.get(words, 2.5) * source.stat().st_size
    }
    assert above == {}
