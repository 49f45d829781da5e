"""Checks of edits: which edits are in one check, over which libraries, and what is said of them."""

from __future__ import annotations

import os
from pathlib import Path

import pytest

from workshop import edit_checks, gate_cost
from workshop.edit_checks import Clone, Said, Unready, Verdict
from workshop.tests.conftest import Write

# What the checker prints.
NOT_PROVED = "which is not proved"
REFUSED = f"""by-macro: thiserror::Error,core::split_item blocks=2
note: src/text.rt:183:5: it is not proved that what the function ensures holds when it returns \
(`returns`)
fn rec_a::text::natural: no proof: expected answers in ./proofs/text/natural/Answers.antt; \
`search` did not prove `returns`
fn rec_a::text::quoted: proved
fn rec_a::lookup::find: not proved
fn rec_a::front::next: not proved; it calls `rec_a::lookup::find`, {NOT_PROVED}
fn rec_a::front::all: no proof: it calls `rec_a::front::next`, {NOT_PROVED}
fn rec_a::front::both: not proved; it calls `rec_a::front::next` and `rec_a::lookup::find`, \
which are not proved
fn rec_a::front::some: no proof: expected answers in ./proofs/a; `search` did not prove `b`; \
it calls `c` and `d`, which are not proved
fn rec_a::front::loops: no proof: expected a measure in ./proofs/front/loops/Invariants.antt
only=8 proved=1
"""
UNNAMED = "module `Goals` has no `returns` that can be named from here"
NAMES_GONE = f"""./proofs/a/find/Answers.antt:6:15: error: `returns`: {UNNAMED}
./proofs/a/find/Answers.antt:9:1: error: 1 declaration that depends on `returns`, \
which was not admitted, was not checked: found
./proofs/b/put/Answers.antt:6:15: error: `returns`: `goal.returns`: {UNNAMED}
./proofs/b/put/Answers.antt:18:5: error: `returns-then-eq`: as printed, \
the two types differ only where one has `2`
./proofs/c/Type/put/Answers.antt:6:15: error: `returns`: `goal.returns`: {UNNAMED}
note: src/c.rt:63:1: it is not proved that what the function ensures holds when it returns \
(`returns-in_ok-insert`)
fn rec_a::a::find: not proved
fn rec_a::b::put: not proved
only=2 proved=0
"""
UNREAD = """by-macro: thiserror::Error blocks=2
src/text.rt:187:25: error[mismatched-types]: expected `u64`, found `&str`
"""
UNFIT = (
    "rattle: error[unusable-built-library]: the rlib of `rec_b` holds statements that were proved"
    " over another build of `rec_c`\n"
)
OUT_OF_SCOPE = """src/a.rt:69:52: error: `ensures-1`: `some` is not in scope: help: write it
fn rec_a::a: not proved
only=1 proved=0
"""


# ---- rounds


def rounds(folder: Path, **edits: tuple[str, ...]) -> list[list[str]]:
    """Return the names of the edits of each round."""
    texts = {name: "\n".join(("file: src/a.rt", *lines)) for name, lines in edits.items()}
    return [list(each.functions) for each in edit_checks.rounds(texts, folder)]


def test_one_edit_of_a_function_at_a_time(write: Write, tmp_path: Path) -> None:
    write("src/a.rt", "fn a() {\n    one();\n    three();\n}\n\nfn b() {\n    two();\n}\n")
    first, second = ("old: one();", "new:"), ("old: one();", "new: x();")
    third, fourth = ("old: three();", "new:"), ("old: two();", "new: four();")
    assert rounds(tmp_path, x=first, y=second, z=third) == [["x"], ["y"], ["z"]]
    assert rounds(tmp_path, x=first, y=third, z=fourth) == [["x", "z"], ["y"]]
    # With z, the text of x would stand twice.
    assert rounds(tmp_path, z=("old: two();", "new: one();"), x=first) == [["z"], ["x"]]


def test_what_is_no_body_is_tried_alone(write: Write, tmp_path: Path) -> None:
    functions = "fn a() {\n    one();\n}\n\nfn b() {\n    two();\n}\n"
    write("src/a.rt", f"const A: u8 = 1;\n\n{functions}")
    edits = {
        "x": ("old: one();", "new:"),
        "y": ("function: a::b", "old: A: u8 = 1", "new: A: u8 = 2"),
        "z": ("old: two();", "new:"),
    }
    assert rounds(tmp_path, **edits) == [["x", "z"], ["y"]]


@pytest.mark.usefixtures("write")
def test_all_texts_of_a_round(tmp_path: Path) -> None:
    texts = {
        "x": "file: src/a.rt\nold: one();\nnew:",
        "y": "file: src/a.rt\nold: b() { two\nnew: b() { six",
    }
    (only,) = edit_checks.rounds(texts, tmp_path)
    assert only.texts == {"src/a.rt": "fn a() {  two(); }\nfn b() { six(); }\n"}
    assert only.functions == {"x": ["a::a"], "y": ["a::b"]}


# ---- what a check says


def verdicts(text: str, **functions: list[str]) -> dict[str, Verdict]:
    """Return the verdicts on edits of these functions, where the checker printed this."""
    said = edit_checks.verdicts(Said(text, 1), "rec_a", functions)
    return {name: verdict for name, (verdict, _) in said.items()}


def test_refused_and_proved() -> None:
    found = verdicts(REFUSED, x=["text::natural"], y=["text::quoted"], z=["lookup::find"])
    assert found == {"x": Verdict.REFUSED, "y": Verdict.PROVED, "z": Verdict.REFUSED}


def test_what_calls_an_edited_function_waits() -> None:
    functions = {name: [f"front::{name}"] for name in ("next", "all", "both", "some")}
    assert verdicts(REFUSED, **functions) == dict.fromkeys(functions, Verdict.WAITS)


def test_no_proof_was_tried() -> None:
    found = verdicts(REFUSED, x=["front::loops"], y=["front::unknown"])
    assert found == {"x": Verdict.NONE, "y": Verdict.NONE}


def test_one_of_several_functions_is_enough() -> None:
    found = verdicts(REFUSED, x=["text::quoted", "lookup::find"], y=["text::quoted", "front::next"])
    assert found == {"x": Verdict.REFUSED, "y": Verdict.WAITS}


def test_texts_that_are_not_read() -> None:
    assert verdicts(UNREAD, x=["a"], y=["b"]) == {"x": Verdict.NONE, "y": Verdict.NONE}
    assert Said(UNREAD, 1).fault() == UNREAD.splitlines()[1]
    assert verdicts(OUT_OF_SCOPE, x=["a"]) == {"x": Verdict.NONE}
    assert "is not in scope" in Said(OUT_OF_SCOPE, 1).fault()
    killed = Said("by-macro: thiserror::Error blocks=2\n", -9)
    assert killed.fault() == "the checker ended with status -9"


def test_a_proof_that_names_what_is_gone_refuses() -> None:
    assert verdicts(NAMES_GONE, x=["a::find", "b::put"]) == {"x": Verdict.REFUSED}
    names = {"a::find": True, "b::put": False, "c::Type::put": False, "d::get": False}
    said = Said(NAMES_GONE, 1)
    assert {name: said.is_by_names(name) for name in names} == names


def test_libraries_that_do_not_fit_each_other() -> None:
    with pytest.raises(Unready, match="weren't built over each other"):
        verdicts(UNFIT, x=["a"])


# ---- the libraries


class Library:
    """A clone of three crates, each over the one before, whose libraries were built in turn."""

    def __init__(self, folder: Path, write: Write) -> None:
        self.folder, self.write = folder, write
        uses = gate_cost.crates("rec_a: json\nrec_b: rec_a\nrec_c: rec_b serde\n")
        self.clone = Clone(folder, uses, Path("/kit"))
        for at, name in enumerate(uses):
            self.change(f"{name}/src/lib.rt", 10)
            self.change(f"{name}/out/rlib/{name}.rlib/format", 20 + at)
            self.put_there(name, 15)

    def change(self, path: str, second: int) -> None:
        """Write a file at a second."""
        self.write(path, "")
        os.utime(self.folder / path, (second, second))

    def put_there(self, name: str, second: int) -> None:
        """Put a library there at a second."""
        os.utime(self.folder / f"{name}/out/rlib/{name}.rlib", (second, second))

    def unbuilt(self, *crates: str) -> list[str]:
        """Return the lines for libraries below crates that are missing or old."""
        return list(self.clone.unbuilt(crates))


@pytest.fixture
def library(tmp_path: Path, write: Write) -> Library:
    """Make a clone whose libraries are built."""
    return Library(tmp_path, write)


def test_all_are_built(library: Library) -> None:
    assert library.unbuilt("rec_a", "rec_c") == []


def test_one_is_missing(library: Library) -> None:
    (library.folder / "rec_b/out/rlib/rec_b.rlib/format").unlink()
    assert library.unbuilt("rec_b") == []
    assert library.unbuilt("rec_c", "rec_b") == ["the library rec_b isn't built"]


def test_one_is_old(library: Library) -> None:
    library.change("rec_a/specs/A.antt", 21)
    assert library.unbuilt("rec_c") == [
        "the library rec_a is older than its sources, or those of a crate below it"
    ]
    library.change("rec_a/specs/A.antt", 22)
    assert len(library.unbuilt("rec_c")) == 2
    assert library.unbuilt("rec_a") == []


def test_one_with_older_files_is_put_there_later(library: Library) -> None:
    library.change("rec_a/src/lib.rt", 25)
    assert len(library.unbuilt("rec_c")) == 2
    for name in ("rec_a", "rec_b"):
        library.put_there(name, 25)
    assert library.unbuilt("rec_c") == []


def test_words(library: Library) -> None:
    rlib = f"{library.folder}/rec_%s/out/rlib"
    words = library.clone.words("rec_c", ["a::f", "g"])
    assert words[:5] == ["/kit/bin/rattle", "check", "--crate-name", "rec_c", "src/lib.rt"]
    assert list(zip(words[5::2], words[6::2], strict=True)) == [
        ("--extern", "std=/kit/rlibs/std.rlib"),
        ("--extern", f"rec_b={rlib % 'b'}/rec_b.rlib"),
        ("--extern", "serde=/kit/rlibs/serde.rlib"),
        ("-L", "dependency=/kit/rlibs"),
        ("-L", f"dependency={rlib % 'a'}"),
        ("-L", f"dependency={rlib % 'b'}"),
        ("--antt-project", "/kit/rattle/logic/antt-project.json"),
        ("--logic-built", "/kit/logic_built"),
        ("--links", "rec_c="),
        ("--jobs", "1"),
        ("--only", "a::f"),
        ("--only", "g"),
    ]
