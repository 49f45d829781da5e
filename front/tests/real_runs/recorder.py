"""What the program and `junit_xml` make of sessions."""

from __future__ import annotations

import dataclasses
import pathlib
import subprocess
from collections.abc import Sequence
from xml.etree import ElementTree

from tests import FRONT, junit_schema

JUNIT = str(FRONT / "junit_xml")


@dataclasses.dataclass(frozen=True)
class Written:
    """How `junit_xml` ended, and the files that are in its folder then."""

    status: int
    files: tuple[str, ...]


@dataclasses.dataclass(frozen=True)
class Recorder:
    """The program, and the folder in which it is run."""

    program: pathlib.Path
    folder: pathlib.Path

    @property
    def bundle(self) -> pathlib.Path:
        """The bundle that was recorded last."""
        return self.folder / "run.bundle"

    def run(self, words: Sequence[str], data: bytes) -> bytes:
        """Return what a command prints that ends well and says nothing."""
        done = subprocess.run(
            [self.program, *words], cwd=self.folder, input=data, capture_output=True, check=False
        )
        assert (done.returncode, done.stderr) == (0, b"")
        return done.stdout

    def record(self, session: bytes, *options: str) -> bytes:
        """Record a session, and return its trace."""
        return self.run(["record", str(self.bundle), *options], session)

    def reports(self, session: bytes, *options: str) -> bytes:
        """Return the reports of a session that is recorded with these options."""
        self.record(session, *options)
        return self.run(["report"], self.bundle.read_bytes())

    def write_xml(self, reports: bytes, *options: str) -> Written:
        """Write reports as XML, which has to be valid."""
        folder = self.folder / "junit"
        words = [JUNIT, *options, "-", str(folder)]
        done = subprocess.run(words, input=reports, capture_output=True, check=False)
        paths = sorted(folder.glob("*"))
        assert not junit_schema.faults(paths)
        return Written(done.returncode, tuple(path.name for path in paths))

    def xml(self) -> ElementTree.Element:
        """Return the XML that was written."""
        return ElementTree.parse(self.folder / "junit/junit.xml").getroot()
