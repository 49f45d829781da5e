"""What the page's script makes of durations, sizes and texts, in Node."""

from __future__ import annotations

import dataclasses
import json
import shutil
import subprocess
from collections.abc import Iterator

import pytest

from rezovamy_runs.page import document
from tests.duration_cases import DURATIONS

NODE = shutil.which("node")
SPELLED = "`<${colour === undefined ? spelled(part) : ''}>`"
EVALUATE = """
require('readline').createInterface({ input: process.stdin }).on('line', (line) => {
  const [expression, one] = JSON.parse(line);
  console.log(JSON.stringify(eval(expression)));
});
"""
DOCUMENT = """const document = {
  getElementById: () => ({ textContent: require('fs').readFileSync(0, 'utf-8') }),
};"""

pytestmark = pytest.mark.skipif(NODE is None, reason="no Node is here")


@dataclasses.dataclass(frozen=True)
class Script:
    """The page's script in Node, which evaluates an expression for each line that it reads."""

    process: subprocess.Popen[str]

    def value(self, expression: str, one: object) -> object:
        """Return the value of an expression, in which `one` is what is given."""
        assert self.process.stdin and self.process.stdout
        print(json.dumps([expression, one]), file=self.process.stdin, flush=True)
        value: object = json.loads(self.process.stdout.readline())
        return value


@pytest.fixture(scope="module")
def script() -> Iterator[Script]:
    """Yield a process of Node with the page's script."""
    words = [NODE or "node", "-e", document.part("text.js") + EVALUATE]
    with subprocess.Popen(
        words, stdin=subprocess.PIPE, stdout=subprocess.PIPE, text=True
    ) as process:
        yield Script(process)


# The page has no room for zeros: its tests may take microseconds.
SHORT = [(1e-7, "< 1µs"), (1e-6, "1µs"), (0.000499, "499µs"), (-1.5, "−1.5s")]


@pytest.mark.parametrize(("seconds", "told"), DURATIONS + SHORT)
def test_durations(script: Script, seconds: float, told: str) -> None:
    assert script.value("duration(one)", seconds) == told


@pytest.mark.parametrize(
    ("size", "told"),
    [
        (0, "0 B"),
        (999, "999 B"),
        (1000, "1.00 kB"),
        (99_949, "99.9 kB"),
        (999_499, "999 kB"),
        (999_500, "1.00 MB"),
        (5_000_000_000, "5.00 GB"),
    ],
)
def test_sizes(script: Script, size: int, told: str) -> None:
    assert script.value("bytes(one)", size) == told


@pytest.mark.parametrize(
    ("number", "told"),
    [
        (0, "0 tests"),
        (1, "1 test"),
        (999, "999 tests"),
        (1000, "1,000 tests"),
        (1234567, "1,234,567 tests"),
    ],
)
def test_numbers(script: Script, number: int, told: str) -> None:
    assert script.value("plural(one, 'test')", number) == told


@pytest.mark.parametrize(
    ("text", "told"),
    [
        ("plain\ttext\r\nin lines\n", "plain\ttext\r\nin lines\n"),
        ("50%\r100%", "50%<\\r>100%"),
        ("\x1b]0;title\x07", "<\\x1b>]0;title<\\x07>"),
        ("\udcff\udc80", "<\\xff\\x80>"),
        ("a\u202eb\u2028", "a<\\u{202e}>b<\\u{2028}>"),
        ("\x1b[1;31mred\x1b[0m", "<>red<>"),
        ("\U0001f980 é", "\U0001f980 é"),
    ],
    ids=["plain", "return", "escape", "bytes", "directions", "colours", "letters"],
)
def test_what_could_do_harm_is_spelled(script: Script, text: str, told: str) -> None:
    assert script.value(f"one.replace(SPECIAL, (part, colour) => {SPELLED})", text) == told


@pytest.mark.parametrize(
    ("codes", "styles"),
    [
        ("1;31", ["s-bold", "s-1"]),
        ("", []),
        ("38;5;9;4", ["s-underline"]),
        ("38;2;1;2;3;4", ["s-underline"]),
        ("31;39", []),
        ("1;22", []),
        ("91;32", ["s-2"]),
    ],
)
def test_colours(script: Script, codes: str, styles: list[str]) -> None:
    assert script.value("styled([], one)", codes) == styles


@pytest.mark.parametrize(
    ("sought", "places"),
    [("a", [0, 3]), ("ab", [0]), ("", []), ("c", [])],
)
def test_places_of_what_is_sought(script: Script, sought: str, places: list[int]) -> None:
    assert script.value("places_of(one, 'AbxA')", sought) == places


def test_a_thousand_places_are_found(script: Script) -> None:
    assert script.value("places_of('a', one).length", "a" * 2000) == 1000


def test_very_many_tests() -> None:
    attempt = {"number": 1, "seconds": 2}
    test = {"name": "t", "state": "passed", "binary": 0, "attempts": [attempt]}
    value: dict[str, object] = {"binaries": ["alpha"], "outputs": [], "causes": [], "unnamed": 0}
    value["tests"] = [test] * 200_000
    parts = [DOCUMENT, *map(document.part, ("text.js", "states.js", "data.js"))]
    parts.append("console.log(LONGEST, TEST_COUNT);")
    words = [NODE or "node", "-e", "\n".join(parts)]
    done = subprocess.run(
        words, input=json.dumps(value), capture_output=True, text=True, check=True
    )
    assert done.stdout == "2 200000\n"
