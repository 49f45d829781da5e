"""The run of which the documentation has pictures."""

from __future__ import annotations

import pathlib

from rezovamy_runs.page import document
from tests.made import bundle_of

from workshop import make_pictures


def test_the_run_of_the_pictures_has_failures_with_one_cause(tmp_path: pathlib.Path) -> None:
    path = tmp_path / "run.bundle"
    path.write_bytes(bundle_of(make_pictures.session()))
    page = document.page_of(path)
    assert "<title>4 failed \u00b7 default" in page
    assert '"title":"no answer from port \\u2026","tests":' in page
