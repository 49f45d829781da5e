"""The JUnit XML of whole sessions: by its schema, and as Python's own parser reads it."""

from __future__ import annotations

import subprocess
import sys
import xml.etree.ElementTree as ElementTree
from pathlib import Path

import pytest

from tests import junit_schema

TOP = Path(__file__).resolve().parents[2]

pytestmark = pytest.mark.program


def xml_of(program: Path, bundle: Path) -> list[ElementTree.Element]:
    """Return the JUnit XML of each report of a bundle, which has to be valid."""
    reports = bundle.with_suffix(".reports")
    with bundle.open("rb") as source:
        printed = subprocess.run([program, "report"], stdin=source, stdout=subprocess.PIPE)
    assert printed.returncode == 0
    reports.write_bytes(printed.stdout)
    junit = bundle.with_suffix(".junit")
    words = [sys.executable, str(TOP / "front/junit_xml"), str(reports), str(junit)]
    written = subprocess.run(words, capture_output=True, text=True)
    assert (written.returncode, written.stderr) == (0, "")
    paths = list(map(Path, written.stdout.split()))
    assert len(paths) == len(printed.stdout.splitlines())
    assert not junit_schema.faults(paths)
    return [ElementTree.parse(path).getroot() for path in paths]


def recorded(program: Path, session: bytes, folder: Path) -> Path:
    """Return the path of a session's bundle."""
    done = subprocess.run([program, "record", "run.bundle"], input=session, cwd=folder)
    assert done.returncode == 0
    return folder / "run.bundle"


def cases_with(root: ElementTree.Element, element: str) -> list[str | None]:
    """Return the names of the test cases that have an element."""
    return [case.get("name") for case in root.iter("testcase") if case.find(element) is not None]


def test_a_real_run(program: Path, tmp_path: Path) -> None:
    """Seven tests ran, two of which failed, and one was skipped."""
    session = (TOP / "examples/sums.session").read_bytes()
    (root,) = xml_of(program, recorded(program, session, tmp_path))
    names = [case.get("name") for case in root.iter("testcase")]
    assert len(names) == len(set(names)) == 8
    assert len(cases_with(root, "failure")) == 2
    assert cases_with(root, "skipped") == ["tests::adds_very_many"]


def test_each_kind_of_event(program: Path, tmp_path: Path) -> None:
    """Each report of a session with events of every kind has tests."""
    words = [sys.executable, "-m", "workshop.make_kinds"]
    session = subprocess.run(words, cwd=TOP, capture_output=True, check=True).stdout
    roots = xml_of(program, recorded(program, session, tmp_path))
    assert len(roots) == session.count(b'"kind":"run-finished"') > 0
    assert all(list(root.iter("testcase")) for root in roots)


def test_a_generated_session(program: Path, tmp_path: Path) -> None:
    """All twenty tests are reported."""
    subprocess.run([program, "sample", "20", "run.bundle"], cwd=tmp_path, check=True)
    (root,) = xml_of(program, tmp_path / "run.bundle")
    assert len(list(root.iter("testcase"))) == 20
