"""Widths: which lines of which files are too wide."""

from __future__ import annotations

import pathlib
import subprocess

import pytest

from workshop import check_width
from workshop.check_width import CODE, KINDS, PROSE, kind_of, wide_lines

WIDE = "word " * 20 + "x"
WIDER = "word " * 40 + "x"


@pytest.mark.parametrize("name", ["a.rt", "b/c.antt", "d.py", "e.js", "f.css", "g.html", "h.sh"])
def test_code_has_a_hundred_columns(name: str) -> None:
    assert list(wide_lines(name, f"{WIDE[:CODE]}\n{WIDE}\n")) == [(2, CODE + 1)]


@pytest.mark.parametrize("name", ["front/run_again", ".ci/run", "docs/new.kind"])
def test_what_has_no_kind_of_its_own_is_code(name: str) -> None:
    assert list(wide_lines(name, WIDE)) == [(1, CODE + 1)]


def test_prose_has_two_hundred_columns() -> None:
    assert list(wide_lines("README.md", f"{WIDE}\n{WIDER}\n")) == [(2, PROSE + 1)]


@pytest.mark.parametrize(
    ("name", "text"),
    [
        ("docs/A.md", f"| {WIDER} |"),
        ("docs/A.md", f"```\n{WIDER}\n```"),
        ("docs/A.md", f"See [this]({'x' * PROSE}) and that."),
        ("a.py", f"    # https://{'x' * CODE}"),
        ("a.antt", f"    Rattle.{'x' * CODE}"),
        ("src/a.rt", f"    #[tactic(auto, using({WIDE}))]"),
        ("crates.txt", f"rec_a: {WIDE}"),
    ],
)
def test_a_line_that_can_not_be_broken_is_free(name: str, text: str) -> None:
    assert not list(wide_lines(name, text))


@pytest.mark.parametrize(
    ("name", "text"),
    [
        ("docs/A.md", f"```\nout\n```\n{WIDER}"),
        ("docs/A.md", f"See [this](to) {WIDER}"),
        ("a.py", f"    # See https://a.b {WIDE}"),
        ("src/a.rt", f"    #[error({WIDE})]"),
        ("crates.txt", f"# {WIDE}: of rec_a"),
    ],
)
def test_what_stands_beside_a_free_line_is_not(name: str, text: str) -> None:
    assert list(wide_lines(name, text))


@pytest.mark.parametrize(
    "name", ["examples/a.session", "crates/a/stdout", "LICENSE-MIT", "a.edit", "dist/a.sha256"]
)
def test_data_has_no_width(name: str) -> None:
    assert kind_of(name).columns is None
    assert not list(wide_lines(name, WIDER))


def test_each_kind_says_why() -> None:
    assert all(kind.why for kind in KINDS)


def test_each_wide_line_is_printed(
    tmp_path: pathlib.Path, monkeypatch: pytest.MonkeyPatch, capsys: pytest.CaptureFixture[str]
) -> None:
    monkeypatch.setattr(check_width, "TOP", tmp_path)
    monkeypatch.setattr("sys.argv", ["check_width"])
    subprocess.run(["git", "init", "-q", tmp_path], check=True)
    (tmp_path / ".gitignore").write_text("out/\n")
    (tmp_path / "out").mkdir()
    (tmp_path / "out/left.py").write_text(WIDE)
    (tmp_path / "data.png").write_bytes(b"\x89PNG\xff")
    assert check_width.main() == 0
    (tmp_path / "code.py").write_text(f"x\n{WIDE}\n")
    assert check_width.main() == 1
    assert capsys.readouterr().out == "code.py:2: 101 columns\n"
