"""The comparison of two programs: which rows there are, what is measured, and what a row says."""

from __future__ import annotations

import re
import subprocess
import sys
from pathlib import Path

import pytest

from workshop import TOP, compare_speed
from workshop.compare_speed import COMMANDS, SHAPES, Command, Cost

USAGE = r"Usage: rezovamy record BUNDLE\n       rezovamy trace\n       rezovamy replay\n%s"
# A program that draws no trace, and can't replay.
STUB = f"""\
#!/bin/sh
case $1 in
--help) printf '{USAGE}' "$KNOWN" ;;
record) cp /dev/stdin "$2" ;;
replay) echo CannotReplay >&2; exit 8 ;;
esac
"""
CELLS = (
    r"\| 1,000 tests \| `trace` \| \d+\.\d{3} s \| \d+\.\d{3} s \| (\d+\.\d\d|-)"
    r" \| \d+ MB \| \d+ MB \|\n"
)


def written(folder: Path, name: str, known: str = "") -> Path:
    """Write a stub that says it knows one command more."""
    path = folder / name
    path.write_text(STUB.replace("$KNOWN", known))
    path.chmod(0o755)
    return path


def test_what_both_know() -> None:
    rows = compare_speed.rows_asked({"record", "trace"}, "")
    assert list(rows) == list(SHAPES)
    shown = ["record", "record --message-format json-pretty", "trace"]
    assert all([command.shown for command in commands] == shown for commands in rows.values())


def test_a_word_of_session_or_command() -> None:
    rows = compare_speed.rows_asked({"record", "sample", "replay"}, "1,000 tests, sample")
    names = [(shape.name, [each.name for each in found]) for shape, found in rows.items()]
    assert names == [("1,000 tests", ["sample"])]
    assert len(compare_speed.rows_asked({"replay"}, "skip")) == len(SHAPES)
    assert compare_speed.rows_asked({"replay"}, "no such word") == {}


def test_a_sample_is_made_where_it_can_be() -> None:
    sample = next(command for command in COMMANDS if command.name == "sample")
    taken = [shape.name for shape in SHAPES if sample.takes(shape)]
    assert taken == ["1,000 tests", "10,000 tests"]
    assert sample.words(SHAPES[0], "b")[:3] == ["sample", "1000", "b"]


def test_what_a_row_says() -> None:
    before, after = Cost(0.5, 12_400_000), Cost(0.25, 30_600_000)
    line = compare_speed.row(SHAPES[0], Command("trace"), before, after)
    assert line == "| 1,000 tests | `trace` | 0.500 s | 0.250 s | 0.50 | 12 MB | 31 MB |\n"


def test_the_least_time_and_the_most_memory() -> None:
    cost = Cost()
    for seconds, memory in ((2.0, 10), (1.0, 30), (3.0, 20)):
        cost.add(Cost(seconds, memory))
    assert cost == Cost(1.0, 30)


@pytest.fixture
def programs(tmp_path: Path) -> list[Path]:
    """Write two programs, of which the second knows a command more."""
    return [written(tmp_path, "old"), written(tmp_path, "new", "       rezovamy info\\n")]


def run_it(programs: list[Path], only: str) -> tuple[int, str, str]:
    """Compare the programs in two turns."""
    words = [sys.executable, "-m", "workshop.compare_speed", *map(str, programs)]
    words += ["--turns", "2", "--only", only]
    done = subprocess.run(words, cwd=TOP, capture_output=True, text=True)
    return done.returncode, done.stdout, done.stderr


def test_two_programs_in_turns(programs: list[Path]) -> None:
    status, out, err = run_it(programs, "1,000 tests, trace")
    assert (status, err) == (0, "")
    assert out.startswith(compare_speed.HEADING)
    assert re.fullmatch(CELLS, out.removeprefix(compare_speed.HEADING))


def test_what_fails_is_said(programs: list[Path]) -> None:
    status, out, err = run_it(programs, "1,000 tests, replay --output")
    assert (status, out) == (0, compare_speed.HEADING)
    row = f"1,000 tests, replay --output skip: {programs[0]}"
    assert err == f"left out: {row}: status 8, CannotReplay\n"


def test_what_one_of_them_knows_is_no_row(programs: list[Path]) -> None:
    status, out, err = run_it(programs, "info")
    assert (status, out) == (2, "")
    assert "no row has 'info' in it" in err


def test_the_commands_of_the_program() -> None:
    usage = (TOP / "crates/rec_words/src/usage.rt").read_text()
    known = {"record", "trace", "replay", "report", "info", "slots", "rerun", "sample"}
    assert known <= compare_speed.commands_of(usage)
    # `live` makes a folder, so a second run fails, and `pack` reads that folder.
    compared = {command.name for command in COMMANDS} | {"live", "pack"}
    assert compare_speed.commands_of(usage) <= compared
