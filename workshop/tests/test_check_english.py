"""Plain English: which sentences are too long, and which words a reader has to decode."""

from __future__ import annotations

import pathlib

import pytest

from rezovamy_runs.manuals.programs import programs
from workshop import check_english
from workshop.check_english import (
    LONGEST_SENTENCE,
    faults,
    help_texts,
    long_sentences,
    message_faults,
    obscure_words,
)

SHORT = "word " * (LONGEST_SENTENCE - 1) + "end."
LONG = "word " * LONGEST_SENTENCE + "end."


@pytest.mark.parametrize(
    ("page", "lines"),
    [
        (SHORT, []),
        (LONG, [1]),
        (f"{SHORT} {SHORT}\n{LONG}", [2]),
        (f"Is it? {LONG} {SHORT}", [1]),
        (f"It is.\n\n- {SHORT}\n- {LONG}\n1. {LONG}", [4, 5]),
        (LONG.replace(" word", "\nword"), [1]),
        (f"{SHORT.rstrip('.')}:\n\n- {SHORT}", []),
        (f"# {SHORT.rstrip('.')}\n{SHORT}", []),
        (f"```\n{LONG}\n```\n{LONG}", [4]),
        (f"{SHORT.rstrip('.')}\n```\n{SHORT}\n```\n{SHORT}", []),
        (f"| {SHORT} | {SHORT} |\n| {SHORT} | {LONG} |", [2]),
        (f"| `{LONG}` | {SHORT.rstrip('.')} `and this` |", []),
        (SHORT.replace("end", "`a. b c`"), []),
        (LONG.replace("end", "`a. b c`"), [1]),
        (SHORT.replace("end", "[the end](docs/END.md#a-b)"), [1]),
        (f"{SHORT.rstrip('.')} - .", []),
        ("", []),
    ],
)
def test_long_sentences(page: str, lines: list[int]) -> None:
    assert [finding.line for finding in long_sentences(page)] == lines


def test_a_long_sentence_says_its_words() -> None:
    (finding,) = long_sentences(LONG)
    assert finding.what == "a sentence of 26 words"


@pytest.mark.parametrize(
    ("page", "found"),
    [
        ("It is no page.", ["is no"]),
        ("They are no pages.", ["are no"]),
        ("There is no page, and there are no files.", []),
        ("It is no longer here, there are no more.", []),
        ("It has no name where it has none.", ["has no name where"]),
        ("A name that takes a name and Takes it.", ["takes", "Takes"]),
        ("Written anew from\nthe begin, of\nwhich it is made.", ["anew", "the begin", "of which"]),
        ("From the beginning of witches.", []),
        ("The begin event of a slice, then the begin of it.", ["the begin"]),
        ("| `is no` | a proper prefix |", ["proper prefix"]),
        ("`takes` and `so\nmany`", []),
        ("```\ntakes\n```", []),
        ("Want of memory is a fault of the outside.", ["Want of memory", "fault of the outside"]),
    ],
)
def test_obscure_words(page: str, found: list[str]) -> None:
    assert [finding.what for finding in obscure_words(page)] == [f"`{word}`" for word in found]


def test_an_obscure_word_says_its_line() -> None:
    assert [finding.line for finding in obscure_words("One.\nTwo is\nno\nnumber.")] == [2]


@pytest.fixture
def top(tmp_path: pathlib.Path) -> pathlib.Path:
    """Make a folder with two pages, of which one is in docs."""
    (tmp_path / "docs").mkdir()
    (tmp_path / "README.md").write_text("It is short.\n")
    (tmp_path / "docs/A.md").write_text(f"{LONG}\n{LONG}\nIt takes none.\n")
    return tmp_path


def test_each_place_is_found(top: pathlib.Path) -> None:
    assert list(faults(top)) == [
        "docs/A.md:1: a sentence of 26 words",
        "docs/A.md:2: a sentence of 26 words",
        "docs/A.md:3: `takes`",
    ]


def test_pages_in_folders_of_docs_are_read(top: pathlib.Path) -> None:
    (top / "docs/A.md").write_text("It is short.\n")
    (top / "docs/tasks").mkdir()
    (top / "docs/tasks/B.md").write_text("It is short.\nIt takes none.\n")
    assert list(faults(top)) == ["docs/tasks/B.md:2: `takes`"]


def test_a_message_has_no_obscure_words() -> None:
    messages = {"A at={at}": "it is no word: take it", "B": LONG, "C": "`takes` what it gives"}
    assert list(message_faults(messages)) == ["A at={at}: `is no`", "C: `gives`"]


def test_the_texts_of_help_are_those_of_each_command() -> None:
    (front,) = [program for program in programs() if program.name == "rezovamy-runs"]
    texts = dict(help_texts(front))
    assert "compare" in " ".join(texts)
    assert texts["rezovamy-runs compare --json"] == "print JSON for scripts"


def test_the_status_says_whether_there_are_any(
    top: pathlib.Path, monkeypatch: pytest.MonkeyPatch, capsys: pytest.CaptureFixture[str]
) -> None:
    monkeypatch.setattr(check_english, "TOP", top)
    monkeypatch.setattr("sys.argv", ["check_english"])
    (top / "docs/A.md").write_text("It is short.\n")
    assert check_english.main() == 0
    (top / "docs/A.md").write_text("It takes none.\n")
    assert check_english.main() == 1
    assert capsys.readouterr().out == "docs/A.md:1: `takes`\n"
