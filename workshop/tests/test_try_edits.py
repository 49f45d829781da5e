"""Edits that are tried: what is said of them by what a checker says of each round."""

from __future__ import annotations

import subprocess
from pathlib import Path

import pytest

from workshop import gate_cost, try_edits
from workshop.edit_checks import Clone, Judgement, Round, Unready, Verdict
from workshop.tests.conftest import Write

REFUSES, PROVES = (Verdict.REFUSED, "not proved"), (Verdict.PROVED, "proved")
WAITS, NONE = (Verdict.WAITS, "it calls x"), (Verdict.NONE, "src/a.rt:1:1: error")
WORDS = ("one", "two", "three")


class Tries:
    """Three edits, each of a function, and a checker that answers what it is told to."""

    def __init__(self, folder: Path) -> None:
        self.folder = folder
        self.tried: list[list[str]] = []

    def faults(self, *answers: list[Judgement]) -> str:
        """Return what is said of the edits by these answers, all of which have to be taken."""
        left = list(answers)

        def check(each: Round) -> dict[str, Judgement]:
            self.tried.append(list(each.functions))
            return dict(zip(each.functions, left.pop(0), strict=True))

        edits = {word: f"file: src/a.rt\nold: {word}();\nnew:" for word in WORDS}
        found = try_edits.faults(edits, self.folder, check)
        assert left == []
        return found


@pytest.fixture
def tries(tmp_path: Path, write: Write) -> Tries:
    """Write three functions that the edits change."""
    functions = [f"fn {name}() {{\n    {word}();\n}}\n" for name, word in zip("abc", WORDS)]
    write("src/a.rt", "\n".join(functions))
    return Tries(tmp_path)


def test_all_are_refused(tries: Tries) -> None:
    assert tries.faults([REFUSES, REFUSES, REFUSES]) == ""


def test_one_is_proved(tries: Tries) -> None:
    found = tries.faults([REFUSES, PROVES, REFUSES])
    assert found == "two: NOT REFUSED: the function is still proved with it\n"


def test_those_that_wait_are_tried_again_without_those_that_are_settled(tries: Tries) -> None:
    assert tries.faults([WAITS, REFUSES, WAITS], [WAITS, REFUSES], [REFUSES]) == ""
    assert tries.tried == [["one", "two", "three"], ["one", "three"], ["one"]]


def test_what_waits_for_no_edit(tries: Tries) -> None:
    found = tries.faults([WAITS, REFUSES, WAITS], [WAITS, WAITS], [REFUSES], [WAITS])
    assert found == "three: not tried, since more than this edit is wrong: it calls x\n"


def test_a_bad_edit_keeps_the_others_from_no_verdict(tries: Tries) -> None:
    found = tries.faults([NONE, NONE, NONE], [REFUSES], [NONE], [REFUSES])
    assert tries.tried[1:] == [["one"], ["two"], ["three"]]
    why = "BAD EDIT, which doesn't come to the proof of its function"
    assert found == f"two: {why}: src/a.rt:1:1: error\n"


class Builds:
    """What stands for `rt lib`: it notes where it is run, and ends with a status."""

    def __init__(self) -> None:
        self.run_in: list[str] = []
        self.status = 0

    def __call__(
        self, words: list[str], cwd: Path, **rest: object
    ) -> subprocess.CompletedProcess[bytes]:
        assert words == ["rt", "lib"]
        self.run_in.append(cwd.name)
        return subprocess.CompletedProcess(words, self.status)


def test_what_is_built(monkeypatch: pytest.MonkeyPatch, tmp_path: Path) -> None:
    builds = Builds()
    monkeypatch.setattr(try_edits, "CRATES", tmp_path)
    monkeypatch.setattr(subprocess, "run", builds)
    uses = gate_cost.crates("rec_a: json\nrec_b: rec_a\nrec_c: rec_b serde\n")
    clone = Clone(tmp_path, uses, Path("/kit"))
    try_edits.build(clone, ["rec_c", "rec_b"])
    assert builds.run_in == ["rec_a", "rec_b"]
    builds.status = 1
    with pytest.raises(Unready, match="the library rec_a can't be built"):
        try_edits.build(clone, ["rec_b"])


def test_a_check_is_never_none() -> None:
    assert try_edits.most_at_once() >= 1
