"""Outputs that lost their middle while their process ran."""

from __future__ import annotations

import pytest

from rezovamy_runs import cut_outputs
from rezovamy_runs.processes.output import Capture
from rezovamy_runs.runner.process_statuses import shown

MIB = 1048576
NOTE = b"\n\n... [truncated 1999 bytes] ...\n\n"


@pytest.mark.parametrize(
    ("kept", "size"),
    [
        (b"", None),
        (b"short", None),
        (b"x" * (MIB + 4096), None),
        (b"x" * MIB + NOTE + b"y" * 4096, 1054671),
        (b"x" * (MIB - 38) + NOTE + b"y" * 4096, 1054633),
        # The note of a test isn't in the place of that of the front end.
        (b"x" * (MIB - 1) + b"x" + NOTE + b"y" * 4095, None),
        (b"x" * (MIB + 1) + NOTE + b"y" * 4096, None),
        (b"x" * 1000 + NOTE + b"y" * 4096, None),
    ],
    ids=["nothing", "short", "long", "cut", "cut, and short", "late", "far", "early"],
)
def test_the_size_that_an_output_had(kept: bytes, size: int | None) -> None:
    assert cut_outputs.original_size(kept) == size


@pytest.mark.parametrize("length", [MIB + 4097, 3_000_000])
def test_an_output_that_is_captured(length: int) -> None:
    """What is kept of it tells its length."""
    capture = Capture(MIB)
    capture.feed(b"z" * length)
    assert cut_outputs.original_size(shown(capture.captured())) == length
