"""The folder in which cargo's calls of test binaries and of rustdoc are written down."""

from __future__ import annotations

import os
import pathlib
import shutil
import sys
import tempfile
from collections.abc import Iterator
from types import TracebackType
from typing import NamedTuple, Self

RUNNER, RUSTDOC = "runner", "rustdoc"
SCRIPT = pathlib.Path(__file__).with_name("wrapper.py")
ENVIRONMENT = pathlib.Path("/proc/self/environ")


class Call(NamedTuple):
    """A call that cargo made: of a test binary by its runner, or of rustdoc."""

    kind: str
    directory: str
    words: tuple[str, ...]
    environment: dict[bytes, bytes]


def own_environment() -> dict[bytes, bytes]:
    """Return the environment with which this process was started.

    That of `os.environ` may have what Python adds.
    """
    return environment_of(ENVIRONMENT.read_bytes())


def environment_of(data: bytes) -> dict[bytes, bytes]:
    """Return the environment that the system shows as these bytes."""
    pairs = (entry.partition(b"=") for entry in data.split(b"\0") if b"=" in entry)
    return {name: value for name, _, value in pairs}


class Records:
    """A folder of its own, which goes at the end."""

    def __init__(self, rustdoc: str) -> None:
        self._folder = pathlib.Path(tempfile.mkdtemp(prefix="rezovamy-"))
        (self._folder / "records").mkdir()
        (self._folder / "real-rustdoc").write_text(rustdoc, encoding="utf-8")
        script = f"#!{sys.executable} -IS\n{SCRIPT.read_text(encoding='utf-8')}"
        for path in (self.runner, self.rustdoc):
            path.write_text(script, encoding="utf-8")
            path.chmod(0o700)

    @property
    def runner(self) -> pathlib.Path:
        """Return the program that is called in place of test binaries."""
        return self._folder / RUNNER

    @property
    def rustdoc(self) -> pathlib.Path:
        """Return the program that is called in place of rustdoc."""
        return self._folder / RUSTDOC

    def __enter__(self) -> Self:
        """Keep the folder for now."""
        return self

    def __exit__(
        self,
        _kind: type[BaseException] | None,
        _error: BaseException | None,
        _traceback: TracebackType | None,
    ) -> None:
        """Remove the folder."""
        shutil.rmtree(self._folder, ignore_errors=True)

    def calls(self) -> Iterator[Call]:
        """Return the calls in their order."""
        for path in sorted((self._folder / "records").iterdir()):
            kind, directory, count, rest = path.read_bytes().split(b"\0", 3)
            *words, environment = rest.split(b"\0", int(count))
            yield Call(
                os.fsdecode(kind),
                os.fsdecode(directory),
                tuple(map(os.fsdecode, words)),
                environment_of(environment),
            )
