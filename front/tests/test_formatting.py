"""Texts for people."""

from __future__ import annotations

import io

import pytest

from rezovamy_runs import formatting, terminal
from tests.duration_cases import DURATIONS


@pytest.mark.parametrize(("seconds", "text"), DURATIONS)
def test_durations(seconds: float, text: str) -> None:
    assert formatting.duration(seconds) == text


@pytest.mark.parametrize(
    ("count", "text"),
    [
        (0, "0 B"),
        (1023, "1023 B"),
        (1024, "1.0 KiB"),
        (1536, "1.5 KiB"),
        (1024**2 - 1, "1.0 MiB"),
        (5 * 1024**3, "5.0 GiB"),
        (1024**4, "1.0 TiB"),
    ],
)
def test_sizes(count: int, text: str) -> None:
    assert formatting.size(count) == text


@pytest.mark.parametrize(("number", "text"), [(0, "0 tests"), (1, "1 test"), (2, "2 tests")])
def test_counts(number: int, text: str) -> None:
    assert formatting.count(number, "test") == text


@pytest.mark.parametrize(
    ("line", "width", "text"),
    [
        ("abcdefghij", 11, "abcdefghij"),
        ("abcdefghij", 10, "abcdef .."),
        ("测试名称测", 11, "测试名称测"),
        ("测试名称测", 10, "测试名 .."),
        ("e\u0301e\u0301e", 4, "e\u0301e\u0301e"),
        ("abc", 2, " "),
        ("abc", 0, ""),
        ("", 0, ""),
    ],
)
def test_a_line_is_cut_where_a_terminal_would_wrap_it(line: str, width: int, text: str) -> None:
    assert terminal.cut(line, width) == text


def test_an_instant_that_no_calendar_has() -> None:
    assert formatting.moment(1e18) == "second 1000000000000000000"


@pytest.mark.parametrize(
    ("printed", "shown"),
    [
        pytest.param(
            "a\x1b]0;title\x07b\x9b2J\x7f\0",
            "a\\x1b]0;title\\x07b\\x9b2J\\x7f\\x00",
            id="control characters are spelled",
        ),
        pytest.param("\x1b[1;31mred\x1b[0m\x1b[m\x1b[2J", "red\\x1b[2J", id="colours go"),
        pytest.param("a\tb\r\nc\rd\n", "a\tb\nc\\x0dd\n", id="lines and tabs stay"),
        pytest.param(
            "a\u202eb\u2066c\ufeffé😀",
            "a\\u{202e}b\\u{2066}c\\u{feff}é😀",
            id="what reorders text is spelled",
        ),
    ],
)
def test_a_text_can_do_no_harm(printed: str, shown: str) -> None:
    assert formatting.harmless(printed) == shown


def test_a_name_is_one_line() -> None:
    assert formatting.name("a\nb\tc\x1b[31m") == "a\\x0ab\\x09c\\x1b[31m"


def test_bytes_that_are_not_utf8_are_shown() -> None:
    assert formatting.output(b"a\xff\xc3\xa9\x00") == "a\\xffé\\x00"


class Terminal(io.StringIO):
    """A stream that is a terminal."""

    def isatty(self) -> bool:
        return True


@pytest.fixture
def environment(monkeypatch: pytest.MonkeyPatch) -> pytest.MonkeyPatch:
    """The environment of a terminal with colours, which can be set."""
    monkeypatch.setenv("TERM", "xterm")
    monkeypatch.delenv("NO_COLOR", raising=False)
    return monkeypatch


@pytest.mark.usefixtures("environment")
@pytest.mark.parametrize(
    ("stream", "has_colours"), [(Terminal(), True), (io.StringIO(), False), (None, False)]
)
def test_colours_are_for_terminals(stream: io.StringIO | None, has_colours: bool) -> None:
    assert terminal.colours(stream) is has_colours


@pytest.mark.parametrize(
    ("name", "value", "has_colours"),
    [("NO_COLOR", "1", False), ("TERM", "dumb", False), ("NO_COLOR", "", True)],
)
def test_the_environment_may_ask_for_no_colours(
    environment: pytest.MonkeyPatch, name: str, value: str, has_colours: bool
) -> None:
    environment.setenv(name, value)
    assert terminal.colours(Terminal()) is has_colours


@pytest.mark.parametrize(("has_colours", "painted"), [(True, "\x1b[31mx\x1b[0m"), (False, "x")])
def test_paint(has_colours: bool, painted: str) -> None:
    assert terminal.Paint(has_colours)("red", "x") == painted
