"""What a narrow terminal shows: lines are broken between words, and no word within."""

from __future__ import annotations

import dataclasses
import pathlib
import shlex
import subprocess
import time

import pytest

from rezovamy_runs import terminal
from tests import EXAMPLES
from tests.front_end import FrontEnd

LINES = EXAMPLES / "sums.libtest.json"
LONGEST_WAIT = 120
RED = "\x1b[31mFAIL\x1b[0m"


@pytest.mark.parametrize(
    ("text", "width", "shown"),
    [
        ("", 10, ""),
        ("one two", 7, "one two"),
        ("one two", 6, "one\n  two"),
        ("one two three four", 10, "one two\n  three\n  four"),
        # What is left stands below what it belongs to.
        ("    one two", 8, "    one\n  two"),
        ("  1.0s  a test", 12, "  1.0s  a\n    test"),
        # A word that is too long stays whole, so that it can be copied.
        ("in /a/long/path.gz there", 10, "in\n  /a/long/path.gz\n  there"),
        ("/a/long/path.gz", 5, "/a/long/path.gz"),
        # Colours take no columns, and wide letters two.
        (f"{RED} a b", 8, f"{RED} a b"),
        (f"{RED} a b", 7, f"{RED} a\n  b"),
        ("中中 中", 6, "中中\n  中"),
        ("one two\n\nthree\n", 6, "one\n  two\n\nthree\n"),
    ],
)
def test_lines_are_broken_between_words(text: str, width: int, shown: str) -> None:
    assert terminal.folded(text, width) == shown


@dataclasses.dataclass
class Screen:
    """A terminal of tmux with so many columns, in which a front end runs."""

    front_end: FrontEnd
    columns: int

    def shows(self, *words: str) -> list[str]:
        """Return the lines that a command leaves on the screen."""
        end = "[it has ended]"
        command = f"{shlex.join(self.front_end.words(*words))}; echo {shlex.quote(end)}; sleep 600"
        size = ["-x", str(self.columns), "-y", "300"]
        try:
            self.tmux("-f", "/dev/null", "new-session", "-d", *size, "sh", "-c", command)
            until = time.monotonic() + LONGEST_WAIT
            while end not in (lines := self.lines()):
                assert time.monotonic() < until, lines
                time.sleep(0.1)
            return lines[: lines.index(end)]
        finally:
            self.tmux("kill-server")

    def lines(self) -> list[str]:
        """Return the lines of the screen as they stand there."""
        return self.tmux("capture-pane", "-p").rstrip().split("\n")

    def tmux(self, *words: str) -> str:
        """Ask a tmux of its own."""
        done = subprocess.run(
            ["tmux", "-S", str(self.front_end.folder / "tmux"), *words],
            cwd=self.front_end.folder,
            env={**self.front_end.environment, "TERM": "xterm"},
            capture_output=True,
            check=True,
            text=True,
        )
        return done.stdout


@pytest.fixture
def narrow(front_end: FrontEnd, program: pathlib.Path) -> Screen:
    """A terminal of 30 columns."""
    front_end.environment |= {"REZOVAMY": str(program), "LANG": "C.UTF-8"}
    return Screen(front_end, 30)


@pytest.mark.tmux
def test_a_terminal_of_thirty_columns_breaks_no_word(narrow: Screen) -> None:
    lines = narrow.shows("test", "--from", str(LINES))
    assert max(map(len, lines)) <= 30
    text = "\n".join(lines)
    first = "FAIL [0.000s] sums::wrong\n  answers_an_error (exit code\n  101)\n  output\n"
    second = "FAIL [0.000s] sums::wrong\n  expects_a_product (exit code\n  101)\n  output\n"
    assert 0 < text.index(first) < text.index(second)
    assert "slowest tests:\n      1.0s  sums::slow\n        takes_a_second\n" in text
    assert "7 tests in 1.0s: 5 passed, 2\n  failed, 1 skipped\n" in text


@pytest.mark.tmux
def test_a_wide_terminal_breaks_no_line(narrow: Screen) -> None:
    lines = Screen(narrow.front_end, 100).shows("test", "--from", str(LINES))
    assert "FAIL [0.000s] sums::wrong answers_an_error (exit code 101)" in lines


@pytest.mark.tmux
def test_each_failure_is_told_once_on_a_terminal(narrow: Screen) -> None:
    lines = Screen(narrow.front_end, 100).shows("test", "--from", str(LINES))
    assert sum("about to fail" in line for line in lines) == 1


def test_each_failure_is_told_once_where_no_terminal_is(
    front_end: FrontEnd, program: pathlib.Path
) -> None:
    """Its output stands there once, and the failures are in the order of their names."""
    front_end.environment["REZOVAMY"] = str(program)
    done = front_end.run("test", "--from", str(LINES))
    printed = done.stdout + done.stderr
    assert printed.count("about to fail") == 1 == printed.count("is no error")
    assert printed.index("wrong answers_an_error") < printed.index("wrong expects_a_product")
