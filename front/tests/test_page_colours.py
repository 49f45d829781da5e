"""The colours of pages: what is to be read or told apart stands out, in light and dark."""

from __future__ import annotations

import math
import re

import pytest

from rezovamy_runs.page import document

WORDS = ["ink", "muted", "faint", "accent", "failed", "flaky", "passed", "skipped"]
WORDS += ["unfinished", "not-started", "script"]
OUTPUT_COLOURS = ["red", "green", "yellow", "blue", "magenta", "cyan", "gray"]
SLICES = ["passed", "script", "flaky", "retried", "unfinished", "failed"]
LABELS = {
    "on-failed": ["failed"],
    "on-slice": ["passed", "script"],
    "ink": ["flaky", "retried", "unfinished"],
}


def colours(block: str) -> dict[str, str]:
    """Return the colours that a block of the style names."""
    return dict(re.findall(r"--([\w-]+): #([0-9a-f]{3,6})", block))


def linear(part: float) -> float:
    """Return the light of a part of a colour, from 0 to 1."""
    return part / 12.92 if part <= 0.03928 else math.pow((part + 0.055) / 1.055, 2.4)


def luminance(digits: str) -> float:
    """Return how light a colour is, from 0 to 1, as guidelines for accessible pages reckon it."""
    whole = digits if len(digits) == 6 else "".join(2 * digit for digit in digits)
    red, green, blue = (linear(int(whole[at : at + 2], 16) / 255) for at in (0, 2, 4))
    return 0.2126 * red + 0.7152 * green + 0.0722 * blue


@pytest.fixture(params=["light", "dark"])
def theme(request: pytest.FixtureRequest) -> dict[str, str]:
    """Return the colours of each theme; the dark one has those of the light one but its own."""
    blocks = re.findall(r"^:root[^{]*\{(.*?)^\}", document.part("style.css"), re.M | re.S)
    assert len(blocks) == 2
    light, dark = map(colours, blocks)
    return light if request.param == "light" else {**light, **dark}


def contrast(theme: dict[str, str], one: str, other: str) -> float:
    """Return how much two colours of a theme stand out from each other."""
    dark, light = sorted((luminance(theme[one]), luminance(theme[other])))
    return (light + 0.05) / (dark + 0.05)


@pytest.mark.parametrize("ground", ["panel", "back", "hover", "chosen", "code"])
@pytest.mark.parametrize("word", WORDS + OUTPUT_COLOURS)
def test_words_can_be_read(theme: dict[str, str], word: str, ground: str) -> None:
    assert contrast(theme, word, ground) >= 4.5


@pytest.mark.parametrize("ground", ["panel", "pause"])
@pytest.mark.parametrize("kind", SLICES)
def test_slices_stand_out(theme: dict[str, str], kind: str, ground: str) -> None:
    assert contrast(theme, f"edge-{kind}", ground) >= 3


@pytest.mark.parametrize("line", ["pause-line", "edge"])
def test_lines_stand_out(theme: dict[str, str], line: str) -> None:
    assert contrast(theme, line, "panel") >= 3


@pytest.mark.parametrize(
    ("label", "kind"), [(label, kind) for label, kinds in LABELS.items() for kind in kinds]
)
def test_labels_of_slices_can_be_read(theme: dict[str, str], label: str, kind: str) -> None:
    assert contrast(theme, label, f"slice-{kind}") >= 4.5
