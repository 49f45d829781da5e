"""What several tests of the workshop use."""

from __future__ import annotations

from pathlib import Path
from typing import Protocol

import pytest

BODY = "fn a() { one(); two(); }\nfn b() { two(); }\n"


class Write(Protocol):
    """Writes a file of a crate, whose folders are made."""

    def __call__(self, path: str, text: str) -> None:
        """Write a text to a path in the crate's folder."""


@pytest.fixture
def write(tmp_path: Path) -> Write:
    """Write into a folder that has the file `src/a.rt` of a crate."""

    def write_text(path: str, text: str) -> None:
        (tmp_path / path).parent.mkdir(parents=True, exist_ok=True)
        (tmp_path / path).write_text(text)

    write_text("src/a.rt", BODY)
    return write_text
