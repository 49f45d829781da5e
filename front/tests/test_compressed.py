"""Bundles that are compressed read as those that aren't."""

from __future__ import annotations

import gzip
import pathlib
import tempfile

import pytest

from rezovamy_runs.bundles import bundle, bundle_file
from rezovamy_runs.faults.fault import Fault
from tests import made

SHORT = made.bundle(
    made.run_started(),
    made.started(0, "t"),
    made.finished(1, "t", made.status(0, 1, output={"output": {"output": {"split": {}}}})),
    made.run_finished(1, 1),
    ended=made.completed(1, 0),
)


pytestmark = pytest.mark.program


def compressed(data: bytes) -> bytes:
    """Return bytes as they are kept."""
    with tempfile.TemporaryDirectory() as folder:
        plain, packed = pathlib.Path(folder, "plain"), pathlib.Path(folder, "packed")
        plain.write_bytes(data)
        bundle_file.compress(plain, packed)
        return packed.read_bytes()


@pytest.mark.parametrize("data", [b"", b"a", bytes(3 * bundle_file.PIECE + 1)])
def test_any_gzip_reads_it(data: bytes) -> None:
    packed = compressed(data)
    assert gzip.decompress(packed) == data
    assert compressed(data) == packed


@pytest.mark.parametrize("form", ["plain", "kept", "gzip"])
def test_a_bundle_reads_the_same_in_each_form(tmp_path: pathlib.Path, form: str) -> None:
    data = {"plain": SHORT, "kept": compressed(SHORT), "gzip": gzip.compress(SHORT)}[form]
    path = tmp_path / "one.bundle.gz"
    path.write_bytes(data)
    run = bundle.read_run(path)
    assert [(test.name, test.verdict) for test in run.tests] == [("t", "pass")]
    assert run.size == len(data)
    assert bundle.read_summary(path).counts == run.counts
    with bundle_file.plain(path) as file:
        assert file.read() == SHORT
    assert bundle_file.plain_bytes(data) == SHORT
    bundle_file.compress(path, tmp_path / "two")
    assert bundle_file.plain_bytes((tmp_path / "two").read_bytes()) == SHORT


@pytest.mark.parametrize(
    "data",
    [
        compressed(SHORT)[:-9],
        gzip.compress(SHORT)[:-9],
        gzip.compress(b"no bundle"),
        b"\x1f\x8b",
        b"\x1f\x8b\x08\x04" + bytes(40),
    ],
    ids=["cut", "cut gzip", "no bundle", "the first bytes", "no member"],
)
def test_a_broken_file_is_a_fault_that_names_it(tmp_path: pathlib.Path, data: bytes) -> None:
    path = tmp_path / "one.bundle.gz"
    path.write_bytes(data)
    with pytest.raises(Fault, match=f"^{path}( is no bundle that can be read)?: "):
        bundle.read_summary(path)


@pytest.mark.parametrize(
    ("name", "stem"),
    [("a.bundle", "a"), ("a.bundle.gz", "a"), ("a.b.bundle", "a.b"), ("a.gz", "a"), ("a", "a")],
)
def test_what_stands_beside_a_bundle_has_its_name(name: str, stem: str) -> None:
    assert bundle_file.beside(pathlib.Path("x") / name, ".html") == pathlib.Path(f"x/{stem}.html")
