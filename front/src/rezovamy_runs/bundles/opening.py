"""Lends the bytes of bundles, and says what is wrong with a file that can't be lent."""

from __future__ import annotations

import contextlib
from collections.abc import Iterator
from typing import IO

from rezovamy_runs.bundles import bundle_file
from rezovamy_runs.bundles.bundle_file import PathLike, Unreadable
from rezovamy_runs.faults.fault import Fault


@contextlib.contextmanager
def plain(path: PathLike) -> Iterator[IO[bytes]]:
    """Lend a file with the bytes of the bundle at a path; one that can't be read is a fault."""
    with contextlib.ExitStack() as stack:
        try:
            file = stack.enter_context(bundle_file.plain(path))
        except FileNotFoundError:
            raise
        except OSError as error:
            said = f"can't be read: {error.strerror or error}; give access, or remove it"
            raise Fault(f"{path} {said}") from error
        except Unreadable as error:
            said = f"is no bundle that can be read: {error}; {remedy(path)}"
            raise Fault(f"{path} {said}") from error
        yield file


def remedy(path: PathLike) -> str:
    """Say what to do about a file that can't be read. If it isn't called a bundle, say so."""
    if bundle_file.is_named_so(str(path)):
        return "record the run again, or remove the file"
    return "name a bundle"
