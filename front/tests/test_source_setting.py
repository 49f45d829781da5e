"""Where the sources of a workspace are, as its manifest says it to the pages of its runs."""

from __future__ import annotations

import json
import pathlib

import pytest

from rezovamy_runs.json_values import Members
from rezovamy_runs.store import location
from tests import EXAMPLES
from tests.front_end import FrontEnd

PATTERN = "https://code.example/{commit}/{file}#L{line}"
SETTING = {"rezovamy": {"source": PATTERN}}
FROM_LINES = ("test", "--from", str(EXAMPLES / "sums.libtest.json"))


@pytest.mark.parametrize(
    ("metadata", "packages", "source"),
    [
        (None, [], None),
        (SETTING, [None, None], PATTERN),
        (None, [SETTING], PATTERN),
        # Of several packages none speaks for all.
        (None, [SETTING, None], None),
        ({"rezovamy": {"source": 7}}, [], None),
        ({"rezovamy": "x"}, [SETTING], PATTERN),
        ({"other": {}}, [], None),
    ],
)
def test_a_manifest_says_where_sources_are(
    metadata: object, packages: list[object], source: str | None
) -> None:
    said = {"metadata": metadata, "packages": [{"metadata": one} for one in packages]}
    assert location.source_of(Members(said)) == source


@pytest.fixture
def workspace(front_end: FrontEnd, program: pathlib.Path) -> FrontEnd:
    """A front end in a package whose manifest says where its sources are."""
    front_end.environment["REZOVAMY"] = str(program)
    setting = f'[package.metadata.rezovamy]\nsource = "{PATTERN}"\n'
    manifest = f'[package]\nname = "sums"\nversion = "0.1.0"\nedition = "2021"\n{setting}'
    (front_end.folder / "Cargo.toml").write_text(manifest)
    (front_end.folder / "src").mkdir()
    (front_end.folder / "src/lib.rs").write_text("")
    return front_end


@pytest.mark.cargo
@pytest.mark.parametrize(
    ("words", "noted"),
    [
        ((), PATTERN),
        (("--note", "source=https://b.example/{file}"), "https://b.example/{file}"),
    ],
)
def test_a_run_notes_where_its_sources_are(
    workspace: FrontEnd, words: tuple[str, ...], noted: str
) -> None:
    workspace.run(*FROM_LINES, *words)
    (path,) = workspace.runs.glob("*.json")
    assert json.loads(path.read_text())["notes"]["source"] == noted
