"""A case for the built program: what it is given, and what must come of it."""

from __future__ import annotations

import dataclasses
from collections.abc import Callable
from typing import TypeAlias

from workshop.oracle.container import entries

# The words after the program's name, and a name in a container with its content.
Words: TypeAlias = tuple[str, ...]
Entry: TypeAlias = tuple[bytes, bytes]


@dataclasses.dataclass(frozen=True)
class Holds:
    """Bytes of which only something is said."""

    says: str
    test: Callable[[bytes], bool]

    def __repr__(self) -> str:
        """Return what is said."""
        return self.says


# Bytes as they must be, or what is said of them.
Wanted: TypeAlias = bytes | Holds

ANY = Holds("anything", lambda data: True)
SOME = Holds("something", lambda data: data != b"")


def begins(prefix: bytes) -> Holds:
    """Say that bytes begin with these."""
    return Holds(f"something that begins with {prefix!r}", lambda data: data.startswith(prefix))


def ends(suffix: bytes) -> Holds:
    """Say that bytes end with these."""
    return Holds(f"something that ends with {suffix!r}", lambda data: data.endswith(suffix))


def has(*parts: bytes) -> Holds:
    """Say that bytes have each of these parts."""
    return Holds(f"something with {parts}", lambda data: all(part in data for part in parts))


def lacks(part: bytes) -> Holds:
    """Say that bytes don't have this part."""
    return Holds(f"something without {part!r}", lambda data: part not in data)


def of_length(length: int) -> Holds:
    """Say how many bytes there are."""
    return Holds(f"{length} bytes", lambda data: len(data) == length)


def entry_is(name: bytes, wanted: Wanted) -> Holds:
    """Say of a container that its entry of this name is `wanted`, or that this holds of it."""
    return Holds(
        f"a container whose {name!r} is {wanted!r}",
        lambda data: fits(wanted, entries(data).get(name)),
    )


def outputs(data: bytes) -> list[Entry]:
    """List the outputs in the store of a bundle with their paths, in their order."""
    stored = entries(entries(data)[b"store.zip"])
    return [(name, content) for name, content in stored.items() if name.startswith(b"out/")]


def kept_are(wanted: list[bytes]) -> Holds:
    """Say of a bundle that its outputs are these."""
    return Holds(
        f"a bundle with the contents {wanted}",
        lambda data: [content for _, content in outputs(data)] == wanted,
    )


def both(first: Wanted, second: Wanted) -> Holds:
    """Say two things of the same bytes."""
    return Holds(f"{first!r} and {second!r}", lambda data: fits(first, data) and fits(second, data))


def fits(wanted: Wanted | None, found: bytes | None) -> bool:
    """Return whether bytes are the wanted ones, or what is said holds of them; None is nothing."""
    if isinstance(wanted, Holds):
        return found is not None and wanted.test(found)
    return wanted == found


@dataclasses.dataclass(frozen=True)
class Beside:
    """What is wanted beside what the same words print of another input.

    `wanted` makes of these bytes what must be printed, or what is said of it.
    """

    input: bytes
    wanted: Callable[[bytes], Wanted]


@dataclasses.dataclass(frozen=True)
class Recorded:
    """The bundle that `record` writes of a session under these options."""

    session: bytes
    options: Words = ()

    def asked(self) -> tuple[Words, bytes]:
        """Return the words and the standard input by which the program writes it into `b`."""
        return ("record", "b", *self.options), self.session


@dataclasses.dataclass(frozen=True)
class Sampled:
    """The bundle that `sample` writes of this many tests."""

    tests: int

    def asked(self) -> tuple[Words, bytes]:
        """Return the words and the standard input by which the program writes it into `b`."""
        return ("sample", str(self.tests), "b"), b""


@dataclasses.dataclass(frozen=True)
class Endless:
    """A line that comes again and again."""

    line: str


# A bundle that is written first, and all that a case may give to the program.
Written: TypeAlias = Recorded | Sampled
Given: TypeAlias = bytes | Endless | Written


@dataclasses.dataclass(frozen=True)
class Case:
    """Words and standard input of the program, and what must come of them.

    `out` and `err` are all that is printed, or something that is said of it, `out` also beside what
    another input prints; `file` is what the file `b` in the folder of the case has then, None where
    there is none. Where a `device` is named, standard error goes to it, and is not seen.
    """

    name: str
    words: Words
    input: Given = b""
    status: int = 0
    out: Wanted | Beside = b""
    err: Wanted = b""
    file: Wanted | None = None
    device: str | None = None
