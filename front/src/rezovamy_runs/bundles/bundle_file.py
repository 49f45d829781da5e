"""The files of bundles: their names, and their bytes, which may be compressed."""

from __future__ import annotations

import contextlib
import gzip
import os
import pathlib
import shutil
import tempfile
import zlib
from collections.abc import Iterator
from typing import IO, BinaryIO

PLAIN, COMPRESSED = ".bundle", ".bundle.gz"
ENDINGS = (PLAIN, COMPRESSED)
# What a compressed file begins with, by RFC 1952.
GZIP = b"\x1f\x8b"
# A higher level makes bundles hardly smaller, and takes longer.
LEVEL = 6
# How many bytes are copied at a time.
PIECE = 1 << 20

PathLike = str | os.PathLike[str]


class Unreadable(Exception):
    """Why a compressed file can't be read."""


def is_named_so(name: str) -> bool:
    """Tell whether a name is that of a bundle."""
    return name.endswith(ENDINGS)


def stem_of(name: str) -> str:
    """Return the name of a bundle without its ending."""
    return name.removesuffix(".gz").removesuffix(PLAIN)


def beside(path: pathlib.Path, ending: str) -> pathlib.Path:
    """Return the path of a file beside a bundle that has its name and another ending."""
    return path.with_name(f"{stem_of(path.name)}{ending}")


def in_folder(folder: pathlib.Path, stem: str) -> pathlib.Path:
    """Return the path of a bundle in a folder: the compressed one, unless only a plain is there."""
    plain, compressed = folder / f"{stem}{PLAIN}", folder / f"{stem}{COMPRESSED}"
    return plain if plain.exists() and not compressed.exists() else compressed


def opened(path: PathLike) -> BinaryIO:
    """Open a file. A pipe in its place isn't waited for."""
    return open(path, "rb", opener=lambda name, flags: os.open(name, flags | os.O_NONBLOCK))


def is_compressed(file: IO[bytes]) -> bool:
    """Tell whether a file begins as a compressed one."""
    return os.pread(file.fileno(), len(GZIP), 0) == GZIP


def size_of(file: IO[bytes]) -> int:
    """Return how many bytes a file has."""
    return os.fstat(file.fileno()).st_size


@contextlib.contextmanager
def plain(path: PathLike) -> Iterator[IO[bytes]]:
    """Lend a file that has the bytes of the bundle at a path, at its first byte."""
    with opened(path) as file:
        if is_compressed(file):
            with unpacked(file) as whole:
                yield whole
        else:
            yield file


@contextlib.contextmanager
def unpacked(file: BinaryIO) -> Iterator[IO[bytes]]:
    """Lend a file without a name that has the bytes of a compressed one."""
    with tempfile.TemporaryFile() as whole:
        try:
            with gzip.GzipFile(fileobj=file) as packed:
                shutil.copyfileobj(packed, whole, PIECE)
        except (EOFError, gzip.BadGzipFile, zlib.error) as error:
            raise Unreadable(f"it is broken: {error}") from error
        whole.seek(0)
        yield whole


def plain_bytes(data: bytes) -> bytes:
    """Return the bytes of a bundle, which may be given compressed."""
    if not data.startswith(GZIP):
        return data
    try:
        return gzip.decompress(data)
    except (EOFError, gzip.BadGzipFile, zlib.error) as error:
        raise Unreadable(f"it is broken: {error}") from error


def compress(path: pathlib.Path, target: pathlib.Path) -> None:
    """Write the bytes of the file at a path to another one, compressed unless they are already.

    Equal bytes become equal ones.
    """
    with opened(path) as file, open(target, "wb") as packed:
        if is_compressed(file):
            shutil.copyfileobj(file, packed, PIECE)
        else:
            with gzip.GzipFile("", "wb", LEVEL, packed, mtime=0) as whole:
                shutil.copyfileobj(file, whole, PIECE)
