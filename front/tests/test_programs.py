"""The programs of the front end as processes: their words, their streams, and odd paths."""

from __future__ import annotations

import json
import os
import pathlib
import subprocess

import pytest

from tests import EXAMPLES, FRONT
from tests.junit_cases import passed_report

PROGRAMS = ("junit_xml", "rezovamy-runs", "run_again", "session_from_libtest")
TOOL = FRONT / "session_from_libtest"
LINES = EXAMPLES / "sums.libtest.json"


@pytest.mark.parametrize("name", PROGRAMS)
@pytest.mark.parametrize(("word", "status"), [("--help", 0), ("--no-such-word", 2)])
def test_words(name: str, word: str, status: int) -> None:
    """A program says how it is used, and refuses words that it doesn't know."""
    words = [str(FRONT / name), word]
    done = subprocess.run(words, stdin=subprocess.DEVNULL, capture_output=True, check=False)
    assert done.returncode == status, done.stderr.decode()


@pytest.mark.parametrize(
    ("streams", "said"),
    [
        ("<&-", "input is closed"),
        (f"< {LINES} >&-", "output is closed"),
        (f"< {LINES} > /dev/full", "No space left"),
    ],
    ids=["input", "output", "full"],
)
def test_a_stream_that_is_closed_or_full(streams: str, said: str) -> None:
    """It is said to be so."""
    script = f"{TOOL} --no-clock {streams}"
    done = subprocess.run(["bash", "-c", script], capture_output=True, text=True, check=False)
    last = done.stderr.splitlines()[-1]
    assert done.returncode == 1
    assert last.startswith("session_from_libtest: ")
    assert said in last


def test_a_folder_whose_name_is_not_utf_8(tmp_path: pathlib.Path) -> None:
    """It is written and named."""
    folder = os.fsencode(tmp_path) + b"/\xff\xe9"
    words = [os.fsencode(FRONT / "junit_xml"), b"-", folder]
    report = json.dumps(passed_report()).encode()
    done = subprocess.run(words, input=report, capture_output=True, check=False)
    assert (done.returncode, done.stdout) == (0, folder + b"/junit.xml\n")
    assert os.path.exists(folder + b"/junit.xml")


def test_nobody_reads_what_is_said(tmp_path: pathlib.Path) -> None:
    """The session is whole all the same."""
    session = tmp_path / "session"
    lines = f"(yes text | head -n 99999; cat {LINES})"
    script = f"{lines} | {TOOL} --no-clock 2>&1 > {session} | true; exit ${{PIPESTATUS[1]}}"
    done = subprocess.run(["bash", "-c", script], capture_output=True, text=True, check=False)
    assert done.returncode == 0, done.stderr
    assert b"run-finished" in session.read_bytes()
