"""Reads bundles by the program: what a user sees of a run is made of its view."""

from __future__ import annotations

import contextlib
import json
import mmap
import os
import pathlib
import tempfile
from collections.abc import Iterator
from typing import IO

from rezovamy_runs import recorder
from rezovamy_runs.bundles import view
from rezovamy_runs.bundles.bundle_file import PathLike
from rezovamy_runs.bundles.statuses import Load
from rezovamy_runs.bundles.view_json import View
from rezovamy_runs.faults.fault import Fault
from rezovamy_runs.model import Run, Summary

# What stands before the name of an output in the line that it begins with.
OUTPUTS = b"out/"


def read_run(path: PathLike, outputs: bool = True) -> Run:
    """Return the run of the bundle at a path; `outputs=False` leaves the outputs of tests out.

    A bundle that the program rejects is a fault that says why.
    """
    with viewed(path, outputs) as (seen, load), understood():
        return view.run_of(seen, pathlib.Path(path), os.stat(path).st_size, load)


def read_summary(path: PathLike) -> Summary:
    """Return what is known of the run of the bundle at a path without a look at its tests."""
    with viewed(path, False) as (seen, _), understood():
        return view.summary_of(seen, pathlib.Path(path), os.stat(path).st_size)


@contextlib.contextmanager
def viewed(path: PathLike, outputs: bool) -> Iterator[tuple[View, Load]]:
    """Lend the view of the bundle at a path, and what returns its outputs."""
    words = ["view", "--output", "load" if outputs else "skip"]
    with tempfile.TemporaryFile() as printed:
        recorder.run_on_bundle(words, pathlib.Path(path), stdout=printed)
        with mapped(printed) as data, understood():
            end = data.find(b"\n")
            seen: View = json.loads(data[:end])
            yield seen, Outputs(data, end + 1).load if outputs else leave_out


@contextlib.contextmanager
def mapped(file: IO[bytes]) -> Iterator[mmap.mmap]:
    """Lend what a file has without a copy of it."""
    with understood(), mmap.mmap(file.fileno(), 0, access=mmap.ACCESS_READ) as data:
        yield data


@contextlib.contextmanager
def understood() -> Iterator[None]:
    """Say of what the program printed that it is no view, if it is read in vain."""
    try:
        yield
    except (KeyError, TypeError, ValueError) as error:
        said = f"{recorder.find()} prints no view that can be read ({error!r})"
        raise Fault(f"{said}: install the program again, or name another in REZOVAMY") from error


class Outputs:
    """The outputs behind a view; equal ones are one value."""

    def __init__(self, data: mmap.mmap, begin: int) -> None:
        self._data = data
        self._places = dict(places(data, begin))
        self._loaded: dict[str, bytes] = {}

    def load(self, name: str) -> bytes:
        """Return the bytes of an output."""
        if name not in self._loaded:
            begin, end = self._places[name]
            self._loaded[name] = self._data[begin:end]
        return self._loaded[name]


def places(data: mmap.mmap, at: int) -> Iterator[tuple[str, tuple[int, int]]]:
    """Walk over the outputs behind a view, and yield where the bytes of each begin and end."""
    while at < len(data):
        begin = data.find(b"\n", at) + 1
        name, size = data[at : begin - 1].removeprefix(OUTPUTS).rsplit(b" ", 1)
        end = begin + int(size)
        yield name.decode(), (begin, end)
        at = end + 1


def leave_out(_name: str) -> bytes | None:
    """Return nothing in place of an output."""
    return None
