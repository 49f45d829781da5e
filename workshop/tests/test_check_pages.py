"""The list of fault lines and the table of options are held against the pages."""

from __future__ import annotations

from pathlib import Path

import pytest

from rezovamy_runs.faults.causes import COMMANDS, TAKEN
from workshop import TOP, check_pages
from workshop.crate_sources import Crates, contracts_in

LINES = """
| Status | Line on standard error | Meaning |
|---|---|---|
| 2 | `NoCommand`, `UnknownCommand at=0` | as `Above` |
| 5 | but of `info`: `ReadError ParseEvent line_number=4` | a line |

| Status | Meaning |
|---|---|
| 1 | `NotOne` |
"""
FORMS = {"NoCommand", "UnknownCommand at={at}", "ReadError ParseEvent line_number={line_number}"}


@pytest.fixture
def page(tmp_path: Path) -> Path:
    """Write a page with lines of faults."""
    path = tmp_path / "CLI.md"
    path.write_text(LINES)
    return path


def faults_of(page: Path, text: str) -> list[str]:
    """Return what is wrong with the lines of a text."""
    page.write_text(text)
    return list(check_pages.sentence_faults(page, FORMS))


def test_lines_stand_in_the_second_column(page: Path) -> None:
    lines = ["NoCommand", "UnknownCommand at=0", "ReadError ParseEvent line_number=4"]
    assert check_pages.fault_lines(page) == lines


def test_nothing_is_wrong(page: Path) -> None:
    assert faults_of(page, LINES) == []


def test_a_line_without_a_sentence(page: Path) -> None:
    faults = faults_of(page, LINES.replace("`NoCommand`", "`NoCommand`, `NoSuchLine at=1`"))
    assert faults == ["no sentence for NoSuchLine at=1 in rezovamy_runs.faults.explain"]


def test_a_sentence_without_a_line(page: Path) -> None:
    faults = faults_of(page, LINES.replace("`UnknownCommand at=0`", ""))
    form = "UnknownCommand at={at}"
    assert faults == [f"no line {form}, of which rezovamy_runs.faults.explain has a sentence"]


def test_an_option_that_is_missing(page: Path) -> None:
    options = "| `--read-limit` | all | m |\n| `--session-limit` | `info` | m |\n"
    page.write_text(f"| Option | Of | Meaning |\n|---|---|---|\n{options}")
    faults = list(check_pages.option_faults(page, TAKEN, COMMANDS))
    assert len(faults) == len(COMMANDS) - 1
    assert (
        "report takes ['--read-limit'], and in rezovamy_runs.faults.causes "
        "['--read-limit', '--session-limit']" in faults
    )


def test_crates_are_named_and_listed(tmp_path: Path) -> None:
    (tmp_path / "docs").mkdir()
    crates = "# Crates\nrec_json: json\nrec_store: rec_json\nrezovamy: rec_store\n"
    (tmp_path / "crates.txt").write_text(crates)
    (tmp_path / "README.md").write_text("| data | `rec_json` |\n")
    (tmp_path / "docs/ARCHITECTURE.md").write_text("`rec_other` and `rezovamy`\n")
    assert list(check_pages.crate_faults(tmp_path)) == [
        "crates.txt: rec_store is named neither in README.md nor in docs/ARCHITECTURE.md",
        "docs/ARCHITECTURE.md: no crate rec_other",
    ]


PROOFS = """
## `rec_a`

| Call | Promises | By |
|---|---|---|
| `open` | It is open | `ok`, `Opens` |
| `open`, `shut` | It is shut | `whole` |
| `gone` | It is gone | |
| `open` | It is whole | `whole`, `Shuts` |
"""


def test_calls_have_their_clauses_and_definitions(tmp_path: Path) -> None:
    (tmp_path / "rec_a/src").mkdir(parents=True)
    (tmp_path / "rec_a/specs").mkdir()
    (tmp_path / "rec_a/src/lib.rt").write_text(
        "pub fn open()\n    ensures ok { Opens }\n{\n}\n"
        "pub fn shut()\n    ensures whole { Opens }\n{\n}\n"
    )
    (tmp_path / "rec_a/specs/Opening.antt").write_text("Opens : Type 0\n")
    page = tmp_path / "PROOFS.md"
    page.write_text(PROOFS)
    assert list(check_pages.proof_faults(page, Crates(tmp_path))) == [
        "no gone in rec_a",
        "no clause whole of open in rec_a, and no such definition",
        "no clause Shuts of open in rec_a, and no such definition",
    ]


def test_modules_that_are_run_are_there(page: Path) -> None:
    page.write_text("`python3 -m workshop.gone` and `python3 -m workshop.sweep --only x`\n")
    assert list(check_pages.module_faults(page, TOP)) == ["no module workshop.gone"]


def test_a_contract_ends_where_the_body_begins() -> None:
    text = "    fn a(x: u8) -> u8\n        ensures first\n    {\n        ensures none\n    }\n"
    text += "    fn b()\n        ensures other;\n"
    assert contracts_in(text) == {"a": {"first"}, "b": {"other"}}
