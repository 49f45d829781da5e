"""Writes files that are there whole, or as they were."""

from __future__ import annotations

import contextlib
import os
import pathlib
import tempfile
from collections.abc import Iterator


def current_umask() -> int:
    """Return the bits of a file's mode that the process takes away."""
    mask = os.umask(0o077)
    os.umask(mask)
    return mask


def made_aside(target: pathlib.Path, name: str, suffix: str = "") -> pathlib.Path:
    """Make an empty file beside another one, whose name begins with a dot and this name."""
    descriptor, aside = tempfile.mkstemp(prefix=f".{name}.", suffix=suffix, dir=target.parent)
    os.close(descriptor)
    return pathlib.Path(aside)


@contextlib.contextmanager
def becoming(target: pathlib.Path, aside: pathlib.Path) -> Iterator[None]:
    """Let a file that is written meanwhile become another one; after a fault it goes."""
    try:
        yield
        os.chmod(aside, 0o666 & ~current_umask())
        with open(aside, "rb") as written:
            os.fsync(written.fileno())
        os.replace(aside, target)
    finally:
        with contextlib.suppress(FileNotFoundError):
            os.unlink(aside)
