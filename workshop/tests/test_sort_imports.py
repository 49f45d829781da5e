"""Imports: their order, and that those of several lines stay whole."""

from __future__ import annotations

import pytest

from workshop.sort_imports import import_length, in_order

CRATES = ["rec_low", "rec_high"]
SORTED = """-- A law.
use Rattle.std.specs.Prelude.{ℕ, List}
use Rattle.std.specs.Prelude.{Some}
use Rattle.json.specs.Json.{value}
use Rattle.rec_low.specs.Errors.Error.TheVariants
    as errors
use Rattle.rec_low.specs.Errors.Error.TheVariants.{
  Failed,
}
use
    Rattle.rec_low.specs.Forms.Goals
    as goal
use Rattle.rec_high.specs.Runs.{run}

pub law : ℕ
"""


def test_what_is_in_order_stays() -> None:
    assert in_order(SORTED, CRATES) == SORTED


def test_imports_of_several_lines_move_whole() -> None:
    head, *lines = SORTED.split("\n")
    blocks = [lines[3:5], lines[5:8], lines[8:11], lines[11:12], lines[2:3], lines[0:2]]
    mixed = [line for block in blocks for line in block]
    assert in_order("\n".join([head, *mixed, *lines[12:]]), CRATES) == SORTED


def test_each_block_is_sorted_alone() -> None:
    text = "    ghost use Rattle.rec_low.A.{a};\n\n    ghost use Rattle.std.B.{\n      b,\n    };\n"
    assert in_order(text, CRATES) == text


@pytest.mark.parametrize(
    ("lines", "length"),
    [
        ([], 0),
        (["used : ℕ"], 0),
        (["use Rattle.a.B as b", "use Rattle.a.C"], 1),
        (["use Rattle.a.B", "    as b", "    more"], 2),
        (["ghost use Rattle.a.{", "  b,", "};", "  as"], 3),
    ],
)
def test_the_lines_of_an_import(lines: list[str], length: int) -> None:
    assert import_length(lines) == length
