"""Reads and writes containers, the form of bundles and of their stores.

docs/FORMATS.md describes it.
"""

from __future__ import annotations

from collections.abc import Callable, Iterable, Iterator
from typing import NamedTuple

MAGIC = b"nxtcont1"
ENTRY, END = b"\1", b"\0"

# Returns at most so many bytes from a place on, less where the data ends before.
Read = Callable[[int, int], bytes]


class Unreadable(Exception):
    """Why data is no container, or no bundle."""


class Place(NamedTuple):
    """Where the content of an entry stands, and how long it is."""

    begin: int
    size: int


def places(read: Read, begin: int, end: int) -> Iterator[tuple[bytes, Place]]:
    """Walk over a container, and return the name and the place of each whole entry."""
    if read(begin, len(MAGIC)) != MAGIC:
        raise Unreadable("it doesn't begin as one")
    at = begin + len(MAGIC)
    while True:
        head = read(at, 3)
        if head[:1] == END:
            return
        if head[:1] != ENTRY or len(head) < 3:
            raise Unreadable(f"it is broken at byte {at}")
        length = int.from_bytes(head[1:], "big")
        name_and_size = read(at + 3, length + 8)
        size = int.from_bytes(name_and_size[length:], "big")
        at += 11 + length
        if len(name_and_size) < length + 8 or at + size > end:
            raise Unreadable(f"it is cut at byte {at}")
        yield name_and_size[:length], Place(at, size)
        at += size


class Entries:
    """The entries of a container, by their names; contents are read when they are asked for."""

    def __init__(self, read: Read, begin: int, end: int) -> None:
        self.read = read
        self.places = dict(places(read, begin, end))

    def place(self, name: bytes) -> Place:
        """Return where the entry of this name stands."""
        if name not in self.places:
            raise Unreadable(f"it has no {name.decode()}")
        return self.places[name]

    def content(self, name: bytes) -> bytes:
        """Return the content of the entry of this name."""
        at, size = self.place(name)
        parts = []
        while size > 0:
            part = self.read(at, size)
            if not part:
                raise Unreadable(f"it is cut at byte {at}")
            parts.append(part)
            at, size = at + len(part), size - len(part)
        return b"".join(parts)

    def inner(self, name: bytes) -> Entries:
        """Return the entries of the container that an entry holds."""
        at, size = self.place(name)
        return Entries(self.read, at, at + size)


def entries(data: bytes) -> dict[bytes, bytes]:
    """Return the contents of the entries that stand whole in bytes, by their names."""
    found = {}
    try:
        for name, (at, size) in places(lambda at, size: data[at : at + size], 0, len(data)):
            found[name] = data[at : at + size]
    except Unreadable:
        pass
    return found


def entry(data: bytes, wanted: bytes) -> bytes | None:
    """Return the content of the entry of this name, None where no whole entry has it."""
    return entries(data).get(wanted)


def container(contents: Iterable[tuple[bytes, bytes]]) -> bytes:
    """Return a container of these names and contents."""
    written = [
        ENTRY + len(name).to_bytes(2, "big") + name + len(content).to_bytes(8, "big") + content
        for name, content in contents
    ]
    return MAGIC + b"".join(written) + END
