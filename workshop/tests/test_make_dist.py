"""The package in dist/: of which sources it is, and when it must be made again."""

from __future__ import annotations

import gzip
import subprocess
from collections.abc import Callable
from pathlib import Path

import pytest

from workshop import TOP
from workshop.make_dist import (
    SOURCES,
    changed_parts,
    digest,
    faults,
    front_files,
    make,
    program_files,
    source_lines,
    used_crates,
)

LISTED = """# A comment: of no crate.
rec_a: std
rec_b mode: rec_a serde
rezovamy: rec_b
rec_a_tests: rec_a
"""
# It packs the program and a page, as the real one does.
PACKS = """#!/bin/sh
cd "$(dirname "$0")/.." && mkdir -p "$1/a-1/bin" && cp "$REZOVAMY" "$1/a-1/bin/rezovamy" &&
    cp docs/CLI.md "$1/a-1" && cd "$1" &&
    tar --format=ustar --sort=name --mtime=@0 --owner=0 --group=0 -cf - a-1 | gzip -n >a-1.tar.gz &&
    sha256sum a-1.tar.gz >a-1.tar.gz.sha256 && rm -r a-1 && echo "$1/a-1.tar.gz"
"""
FILES = {
    "crates.txt": LISTED,
    "crates/rec_a/src/lib.rt": "a",
    "crates/rec_a/src/deep/er.rt": "e",
    "crates/rec_a/specs/A.antt": "s",
    "crates/rec_b/src/lib.rt": "b",
    "crates/rezovamy/src/main.rt": "m",
    "crates/rezovamy/data/one.session": "d",
    "crates/rec_a_tests/src/lib.rt": "t",
    "docs/CLI.md": "words",
    "docs/PROOFS.md": "clauses",
    "front/package.sh": PACKS,
    "front/src/rezovamy_runs/cli.py": "c",
    "front/src/rezovamy_runs/page/assets/a.js": "j",
    "front/src/rezovamy_runs/__pycache__/cli.pyc": "p",
    "front/tests/test_a.py": "t",
}


@pytest.fixture
def top(tmp_path: Path) -> Path:
    """Make a small clone, with a program."""
    for name, text in {**FILES, "program": "it runs"}.items():
        (tmp_path / name).parent.mkdir(parents=True, exist_ok=True)
        (tmp_path / name).write_text(text)
    (tmp_path / "front/package.sh").chmod(0o755)
    return tmp_path


@pytest.mark.parametrize(
    ("crate", "used"),
    [
        ("rec_a", {"rec_a"}),
        ("rec_b", {"rec_a", "rec_b"}),
        ("rezovamy", {"rec_a", "rec_b", "rezovamy"}),
        ("rec_a_tests", {"rec_a", "rec_a_tests"}),
        ("serde", set()),
    ],
)
def test_which_crates_a_crate_uses(crate: str, used: set[str]) -> None:
    assert used_crates(LISTED, crate) == used


def test_the_program_is_not_made_from_tests_and_of_each_used_crate() -> None:
    used = used_crates((TOP / "crates.txt").read_text(), "rezovamy")
    assert {"rezovamy", "rec_program", "rec_json", "rec_disk"} <= used
    assert not [crate for crate in used if crate.endswith("_tests")]


def test_which_files_are_sources(top: Path) -> None:
    assert {str(path.relative_to(top)) for path in program_files(top)} == {
        "crates/rec_a/src/lib.rt",
        "crates/rec_a/src/deep/er.rt",
        "crates/rec_b/src/lib.rt",
        "crates/rezovamy/src/main.rt",
    }
    assert {str(path.relative_to(top)) for path in front_files(top)} == {
        "docs/CLI.md",
        "front/package.sh",
        "front/src/rezovamy_runs/cli.py",
        "front/src/rezovamy_runs/page/assets/a.js",
    }


def test_the_hash_is_that_of_the_lines_of_sha256sum(top: Path) -> None:
    names = ["crates/rec_a/src/lib.rt", "crates/rezovamy/src/main.rt", "docs/CLI.md"]
    line = f"sha256sum {' '.join(names)} | sha256sum"
    said = subprocess.run(["sh", "-c", line], cwd=top, capture_output=True, text=True, check=True)
    assert f"{digest(top, [top / name for name in reversed(names)])}  -\n" == said.stdout


@pytest.mark.parametrize(
    ("before", "now", "parts"),
    [
        ("1  program\n2  front end\n", "1  program\n2  front end\n", []),
        ("1  program\n2  front end\n", "1  program\n3  front end\n", ["front end"]),
        ("", "1  program\n3  front end\n", ["program", "front end"]),
    ],
)
def test_which_parts_changed(before: str, now: str, parts: list[str]) -> None:
    assert changed_parts(before, now) == parts


def said_after(top: Path, change: Callable[[Path], object]) -> list[str]:
    """Return what is wrong with a package once something has changed after it was made."""
    make(top, top / "program")
    change(top)
    return list(faults(top, top / "program"))


def written(name: str, text: str) -> Callable[[Path], object]:
    """Return a change that writes a file."""
    return lambda top: (top / name).write_text(text)


def compressed_again(top: Path) -> None:
    """Compress a package in another way, with its checksum."""
    path = top / "dist/a-1.tar.gz"
    path.write_bytes(gzip.compress(gzip.decompress(path.read_bytes()), 1, mtime=0))
    line = subprocess.run(["sha256sum", path.name], cwd=path.parent, capture_output=True).stdout
    path.with_name(f"{path.name}.sha256").write_bytes(line)


CHANGED = "isn't what is made here"
SUM = "a-1.tar.gz.sha256 isn't the checksum of a-1.tar.gz"


@pytest.mark.parametrize(
    ("change", "said"),
    [
        (lambda top: None, []),
        (written("docs/PROOFS.md", "other"), []),
        (written("crates/rec_a/specs/A.antt", "other"), []),
        (written("crates.txt", LISTED + "rec_c: rec_a\n"), []),
        (compressed_again, []),
        (
            written("crates/rec_b/src/lib.rt", "other"),
            ["it was made from other sources of the program"],
        ),
        (
            written("docs/CLI.md", "other"),
            [
                "it was made from other sources of the front end",
                f"CLI.md in a-1.tar.gz {CHANGED}",
            ],
        ),
        (written("program", "it falls"), [f"bin/rezovamy in a-1.tar.gz {CHANGED}"]),
        (written("dist/a-1.tar.gz.sha256", "0  a-1.tar.gz\n"), [SUM]),
        (lambda top: (top / "dist/a-1.tar.gz.sha256").unlink(), [SUM]),
        (lambda top: (top / "dist/a-1.tar.gz").unlink(), ["there must be one package"]),
        (written("dist/b-1.tar.gz", ""), ["there must be one package"]),
        (
            lambda top: (top / f"dist/{SOURCES}").unlink(),
            [
                "it was made from other sources of the program",
                "it was made from other sources of the front end",
            ],
        ),
    ],
)
def test_when_it_must_be_made_again(
    top: Path, change: Callable[[Path], object], said: list[str]
) -> None:
    assert said_after(top, change) == said


def test_what_is_made_again_is_right(top: Path) -> None:
    (top / "dist").mkdir()
    (top / "dist/a-0.tar.gz").write_text("of another version")
    make(top, top / "program")
    assert sorted(path.name for path in (top / "dist").iterdir()) == [
        "a-1.tar.gz",
        "a-1.tar.gz.sha256",
        SOURCES,
    ]
    assert list(faults(top, top / "program")) == []
    assert (top / f"dist/{SOURCES}").read_text() == source_lines(top)


def test_a_package_of_the_same_files_stays(top: Path) -> None:
    make(top, top / "program")
    compressed_again(top)
    before = (top / "dist/a-1.tar.gz").read_bytes()
    make(top, top / "program")
    assert (top / "dist/a-1.tar.gz").read_bytes() == before
