"""Four shards of a workspace, run in four folders and brought together."""

from __future__ import annotations

import json
import pathlib
import re
import shutil
import xml.etree.ElementTree

import pytest

from tests import EXAMPLES, junit_schema
from tests.front_end import FrontEnd, front_end_in

pytestmark = [pytest.mark.cargo, pytest.mark.program]

SHARDS = range(1, 5)
# The tests of examples/sums, and how they end.
PASSED = {
    "sums tests::adds",
    "sums tests::none_above_the_range",
    "sums::slow takes_a_moment",
    "sums::slow takes_a_second",
    "sums::wrong panics",
    "sums::doc/sums sums",
}
FAILED = {"sums::wrong answers_an_error", "sums::wrong expects_a_product"}
SKIPPED = {"sums tests::adds_very_many"}


@pytest.fixture(scope="module")
def together(tmp_path_factory: pytest.TempPathFactory, program: pathlib.Path) -> FrontEnd:
    """A front end that has taken over the runs of the four shards."""
    folder = tmp_path_factory.mktemp("shards")
    own = {"REZOVAMY": str(program), "CARGO_TARGET_DIR": str(folder / "target")}
    statuses = []
    for number in SHARDS:
        copy = folder / f"copy-{number}"
        shutil.copytree(EXAMPLES / "sums", copy)
        front_end = front_end_in(copy)
        front_end.environment.update(own, CARGO_NET_OFFLINE="true")
        words = ("test", "--group", "job 7", "--shard", f"{number}/4", "--", "--workspace")
        statuses.append(front_end.run(*words).returncode)
    assert set(statuses) <= {0, 101} and 101 in statuses
    found = front_end_in(folder / "copy-1")
    found.environment.update(own, REZOVAMY_RUNS=str(folder / "together"))
    folders = [str(folder / f"copy-{number}/runs") for number in SHARDS]
    assert found.run("import", *folders).returncode == 0
    return found


def test_one_line_of_the_list(together: FrontEnd) -> None:
    _, *lines = together.output("list").splitlines()
    assert len(lines) == 1
    assert lines[0].startswith("job 7 ") and "4 of 4 shards" in lines[0]
    assert re.search(r"shards +6 +2 +0 +1 +0 +completed 101 ", lines[0])


@pytest.mark.parametrize("word", ["job 7", "last"])
def test_one_file_of_xml(together: FrontEnd, word: str) -> None:
    together.output("junit", word, "--to", "xml")
    folder = together.folder / "xml"
    assert [path.name for path in folder.iterdir()] == ["junit.xml"]
    root = xml.etree.ElementTree.parse(folder / "junit.xml").getroot()
    tags = {
        f"{case.get('classname')} {case.get('name')}": [one.tag for one in case][:1]
        for case in root.iter("testcase")
    }
    assert {name for name, found in tags.items() if found == []} == PASSED
    assert {name for name, found in tags.items() if found == ["failure"]} == FAILED
    assert {name for name, found in tags.items() if found == ["skipped"]} == SKIPPED
    assert junit_schema.faults([folder / "junit.xml"]) == []


def test_one_page_with_a_band_for_each_shard(together: FrontEnd) -> None:
    (written,) = together.output("page", "job 7").splitlines()
    path = pathlib.Path(written)
    assert path == together.runs / "group-job_7.html"
    found = re.search(r'<script[^>]*id="data"[^>]*>(.*?)</script>', path.read_text(), re.S)
    assert found
    value = json.loads(found[1])
    assert {band["name"] for band in value["bands"]} == {f"shard {one}/4" for one in SHARDS}
    names = {f"{value['binaries'][one['binary']]} {one['name']}" for one in value["tests"]}
    assert names == PASSED | FAILED | SKIPPED
    firsts = [band["slot"] for band in value["bands"]]
    assert firsts == sorted(firsts)
    assert value["run"]["id"] == "job 7"
