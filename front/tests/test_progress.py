"""What is shown of a run while it goes on."""

from __future__ import annotations

import fcntl
import io
import itertools
import json
import os
import struct
import termios

import pytest

from rezovamy_runs import terminal
from rezovamy_runs.json_values import JsonObject
from rezovamy_runs.processes.jobs import Ended, Ending, Exit, Started, Verdict
from rezovamy_runs.runner.process_progress import ProcessProgress
from rezovamy_runs.runner.progress import Progress, ProgressLine
from rezovamy_runs.runner.session_builder import SessionBuilder
from rezovamy_runs.streams.clock import measured_clock
from rezovamy_runs.streams.messages import SECOND
from rezovamy_runs.streams.run_state import Console
from rezovamy_runs.terminal import Paint
from tests.process_runs import shell

SUITE: JsonObject = {"type": "suite", "event": "started", "test_count": 3}


def event(name: str, kind: str, **more: object) -> JsonObject:
    """Return an event of a test."""
    return {"type": "test", "event": kind, "name": name, **more}


class Stream(io.StringIO):
    """A stream that keeps what is written, and may be a terminal."""

    def __init__(self, is_terminal: bool = False) -> None:
        super().__init__()
        self.is_terminal = is_terminal

    def isatty(self) -> bool:
        """Tell whether it is a terminal."""
        return self.is_terminal


class FullStream(Stream):
    """A stream that takes nothing."""

    def write(self, text: str) -> int:
        """Fail."""
        raise OSError("full")


class Shown:
    """A run of which lines come, its progress on a stream, and the seconds that went by."""

    def __init__(self, stream: Stream) -> None:
        self.stream, self.now = stream, 0.0
        self.progress = Progress(stream, lambda: self.now)
        self.builder = SessionBuilder(measured_clock(1000), Console(self.say, "rezovamy-runs"))
        self.progress.reader = self.builder.reader

    def say(self, line: str) -> None:
        """Print a line above the progress."""
        self.progress.print_line(line)

    def read(self, *lines: JsonObject | str) -> None:
        """Read lines, events or texts."""
        for line in lines:
            text = line if isinstance(line, str) else json.dumps(line)
            self.builder.read(text.encode() + b"\n")

    def refresh_at(self, *seconds: float) -> None:
        """Show how far the run is at instants."""
        for self.now in seconds:
            self.progress.refresh()


@pytest.fixture
def shown() -> Shown:
    """A run that is shown where no terminal is."""
    return Shown(Stream())


def test_elsewhere_a_line_comes_each_ten_seconds(shown: Shown) -> None:
    """It says how far the run is, after the failures."""
    shown.read(SUITE, event("a", "started"), event("b", "started"), event("c", "started"))
    shown.read(event("a", "failed", exec_time=2.0))
    shown.refresh_at(9.9, 10.0, 19.9)
    assert shown.stream.getvalue() == (
        "FAIL [2.0s] binary-1 a\n1 of 3 tests ended, 1 failed; running: b 2.0s, and 1 more\n"
    )


def test_on_a_terminal_the_line_is_drawn_over() -> None:
    """What is said comes in its place."""
    shown = Shown(Stream(is_terminal=True))
    shown.progress.paint = Paint(False)
    shown.read(SUITE, event("a", "started"))
    shown.refresh_at(0.1, 0.2, 0.3)
    line = "0 of 3 tests ended, 0 failed; running: a 0.000s"
    assert shown.stream.getvalue() == line
    shown.say("Compiling")
    shown.progress.finish()
    assert shown.stream.getvalue() == f"{line}\r\x1b[KCompiling\n"


def test_what_ran_before_another_binary_does_not_seem_to_run(shown: Shown) -> None:
    """Cargo announces the next one once the binary has ended."""
    announced = "     Running tests/{0}.rs (target/debug/deps/{0}-0123456789abcdef)"
    for binary, name in (("x", "a"), ("y", "b")):
        shown.read(announced.format(binary), SUITE, event(name, "started"))
    shown.refresh_at(10.0)
    assert shown.stream.getvalue() == "1 of 6 tests ended, 0 failed; running: b 0.000s\n"


def test_before_the_first_test_nothing_is_drawn(shown: Shown) -> None:
    """A build may take long."""
    shown.refresh_at(60.0)
    assert shown.stream.getvalue() == ""


def test_a_run_without_lines_ends_without_a_word(shown: Shown) -> None:
    """Nothing is left to say."""
    shown.progress.finish()
    assert shown.stream.getvalue() == ""


def test_what_cargo_says_is_harmless(shown: Shown) -> None:
    """Colours go, and other sequences are spelled."""
    shown.say("a\x1b]0;b\x07\x1b[31mred")
    assert shown.stream.getvalue() == "a\\x1b]0;b\\x07red\n"


def test_a_stream_that_is_full_takes_nothing() -> None:
    """The run goes on."""
    progress = Progress(FullStream())
    progress.print_line("a")
    progress.print_line("b")
    Progress(None)


@pytest.mark.parametrize(("variable", "width"), [("", 30), ("50", 50), ("0", 30), ("x", 30)])
def test_a_line_is_as_wide_as_its_own_terminal(
    monkeypatch: pytest.MonkeyPatch, variable: str, width: int
) -> None:
    """Standard output may be another one, or none."""
    monkeypatch.setenv("COLUMNS", variable)
    ours, theirs = os.openpty()
    fcntl.ioctl(theirs, termios.TIOCSWINSZ, struct.pack("HHHH", 40, 30, 0, 0))
    with os.fdopen(ours, "rb"), os.fdopen(theirs, "w") as stream:
        assert terminal.width_of(stream) == width


def test_a_stream_that_is_no_terminal_has_the_usual_width(
    monkeypatch: pytest.MonkeyPatch,
) -> None:
    monkeypatch.delenv("COLUMNS", raising=False)
    with open(os.devnull, "w", encoding="utf-8") as stream:
        assert terminal.width_of(stream) == 80


@pytest.mark.parametrize(
    ("columns", "line"),
    [
        (80, "1 of 12 tests ended, 0 failed; running: b 20.0s"),
        (48, "1 of 12 tests ended, 0 failed; running: b 20.0s"),
        (47, "1/12, 0 failed; b 20.0s"),
        (20, "1/12, 0 failed;  .."),
    ],
)
def test_few_words_on_a_narrow_terminal(
    monkeypatch: pytest.MonkeyPatch, columns: int, line: str
) -> None:
    monkeypatch.setenv("COLUMNS", str(columns))
    monkeypatch.setenv("TERM", "xterm")
    stream, ran = Stream(is_terminal=True), Ending(Verdict.PASSED, Exit(0), 0, 1)
    seconds = itertools.count()
    drawn = ProcessProgress(12, ProgressLine(stream, lambda: float(next(seconds))))
    first, second = shell("a"), shell("b")
    drawn.show(Started(first, 1, 1, 0, 0))
    drawn.show(Started(second, 1, 1, 1, 0))
    drawn.show(Ended(first, 1, 1, 0, ran, None, 20 * SECOND))
    assert stream.getvalue().rpartition("\x1b[K")[2] == line
