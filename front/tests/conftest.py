"""What the tests of the front end have in common."""

from __future__ import annotations

import os
import pathlib
import shutil

import pytest

from tests import EXAMPLES
from tests.front_end import FrontEnd, front_end_in

# Variables that change what is run, or where it is recorded.
LEFT_OUT = ("RUSTC_BOOTSTRAP", "REZOVAMY_RUNS", "RUST_TEST_THREADS", "RUSTDOC")


@pytest.fixture
def front_end(tmp_path: pathlib.Path) -> FrontEnd:
    """A front end with a folder of its own, in which no run is yet."""
    return front_end_in(tmp_path)


@pytest.fixture(scope="session")
def workspace_of_endings(tmp_path_factory: pytest.TempPathFactory) -> pathlib.Path:
    """A copy of `examples/endings`, which all tests build in turns."""
    folder = tmp_path_factory.mktemp("endings") / "workspace"
    built = shutil.ignore_patterns("target", "Cargo.lock")
    shutil.copytree(EXAMPLES / "endings", folder, ignore=built)
    return folder


@pytest.fixture
def endings(
    workspace_of_endings: pathlib.Path, program: pathlib.Path, tmp_path: pathlib.Path
) -> FrontEnd:
    """A front end in the workspace of endings, with a folder of runs of its own."""
    own = {
        "REZOVAMY": str(program),
        "REZOVAMY_RUNS": str(tmp_path / "runs"),
        "CARGO_NET_OFFLINE": "true",
        "RUST_BACKTRACE": "0",
    }
    left = {name: value for name, value in os.environ.items() if name not in LEFT_OUT}
    return FrontEnd(workspace_of_endings, {**left, **own})
