"""The lines of the pages that record the run of a crate, as bash runs them in a clone."""

from __future__ import annotations

import json
import pathlib
import re
import shutil
from xml.etree import ElementTree

import pytest

from tests import TOP
from tests.real_runs.cloned import Clone, block_of, blocks_of, clone_in

pytestmark = [pytest.mark.cargo, pytest.mark.program]

COUNTS = "8 tests in .*: 6 passed, 2 failed, 1 skipped"


@pytest.fixture(scope="module")
def clone(program: pathlib.Path, tmp_path_factory: pytest.TempPathFactory) -> Clone:
    """A clone in which the examples, the front end, its pages and the program are there."""
    return clone_in(tmp_path_factory.mktemp("pages"), program)


def counts_of(path: pathlib.Path) -> list[str | None]:
    """Return how many tests XML has, and how many of them failed or are errors."""
    root = ElementTree.parse(path).getroot()
    return [root.get(name) for name in ("tests", "failures", "errors")]


@pytest.fixture(scope="module")
def first_run(clone: Clone) -> str:
    """What the first lines of README.md print."""
    return clone.run(block_of("README.md", "front/install.sh"), ".", 101)


def test_the_first_lines_record_a_run(first_run: str) -> None:
    recorded = rf"^{COUNTS}\nrecorded as \w{{4}} in .*\.bundle\.gz\n\Z"
    assert re.search(recorded, first_run, re.M)


@pytest.mark.usefixtures("first_run")
def test_the_next_lines_show_the_run(clone: Clone) -> None:
    """They are for the folder of its crate."""
    shown = clone.run(block_of("README.md", "rezovamy-runs page"), "examples/sums", 0)
    for part in (
        r"\APASS .* takes_a_second\n",
        r"^/.*\.html\n",
        r"^run +started .*\n\w{4} ",
        r"^/.*/junit\.xml\n\Z",
    ):
        assert re.search(part, shown, re.M), part
    assert counts_of(clone.target / "rezovamy-junit/junit.xml") == ["9", "2", "0"]


@pytest.mark.usefixtures("first_run")
def test_the_lines_that_call_each_program(clone: Clone) -> None:
    """They leave all their files, and end as cargo does."""
    clone.run(block_of("docs/FRONT_END.md", "session_from_libtest", "rezovamy record"), ".", 101)
    for name in ("run.session", "run.bundle"):
        assert (clone.made / name).stat().st_size
    assert json.loads((clone.made / "run.trace.json").read_bytes())["traceEvents"]
    assert counts_of(clone.made / "junit/junit.xml") == ["8", "2", "0"]


@pytest.mark.usefixtures("first_run")
def test_the_lines_of_the_program_work_as_they_stand(clone: Clone) -> None:
    """They work one after the other; the last one records a session whose head is refused."""
    shutil.copytree(TOP / "crates/rezovamy/data", clone.folder / "crates/rezovamy/data")
    *blocks, refused = blocks_of("docs/CLI.md")
    printed = "".join(clone.run(block, ".", 0) for block in blocks).splitlines()
    for line in (
        "events=164 outputs=16",
        "1003.000000000 test-finished bin-0 t0 stdout=9 stderr=-",
        "run=11000000000",
        "slot=1 busy=6000000000 paused=3000000000 idle=2000000000",
        "expects_a_product",
        "accepted=10",
    ):
        assert line in printed, line
    assert printed[-1] == "events=10 outputs=2"
    clone.run(refused, ".", 5)
