"""The XML of a run of which something ran again: one file, in which the reruns are attempts."""

from __future__ import annotations

import pathlib
import xml.etree.ElementTree

import pytest

from tests import junit_schema
from tests.front_end import FrontEnd
from tests.test_real_cargo import FILES
from tests.test_real_cargo import front_end as front_end_of_cargo

__all__ = ["crate", "front_end_of_cargo"]

pytestmark = [pytest.mark.cargo, pytest.mark.program]

SOURCE = """
#[test] fn passes() {}
#[test] fn fails() { panic!("always"); }
#[test] fn mends() { assert!(std::env::var("MENDED").is_ok(), "not yet"); }
"""


@pytest.fixture(scope="module")
def crate(tmp_path_factory: pytest.TempPathFactory) -> pathlib.Path:
    """The folder of a crate with a test that passes once a variable is set."""
    folder = tmp_path_factory.mktemp("mends")
    for name, text in {**FILES, "src/lib.rs": SOURCE}.items():
        path = folder / name
        path.parent.mkdir(exist_ok=True)
        path.write_text(text)
    return folder


def tags_of(path: pathlib.Path) -> dict[str, list[str]]:
    """Return the elements of each case that say how it ended."""
    assert junit_schema.faults([path]) == []
    cases = xml.etree.ElementTree.parse(path).getroot().iter("testcase")
    return {
        case.get("name", ""): [one.tag for one in case if not one.tag.startswith("system")]
        for case in cases
    }


def test_what_ran_again_is_an_attempt(front_end_of_cargo: FrontEnd) -> None:
    front_end = front_end_of_cargo
    written = front_end.folder / "target/rezovamy-junit/junit.xml"
    assert front_end.run("test", "--junit").returncode == 101
    assert tags_of(written) == {"passes": [], "fails": ["failure"], "mends": ["failure"]}
    front_end.environment["MENDED"] = "1"
    whole = {"passes": [], "fails": ["failure", "rerunFailure"], "mends": ["flakyFailure"]}
    assert front_end.run("again", "--junit").returncode == 101
    assert tags_of(written) == whole
    written.unlink()
    assert front_end.run("junit").returncode == 0
    assert tags_of(written) == whole
    assert front_end.run("junit", "last-any").returncode == 0
    assert tags_of(written) == {"fails": ["failure"], "mends": []}
