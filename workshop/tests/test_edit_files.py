"""Edits: how they are applied, that each still fits, and which function each changes."""

from __future__ import annotations

from pathlib import Path
from typing import Protocol

import pytest

from workshop import try_edits
from workshop.edit_files import Misfit, function_at, impl_name, misfit
from workshop.tests.conftest import Write

FILE = """//! Sinks.
impl<'a, R: Files, const N: usize> Sink for FileSink<'_, R, N> {
    ghost taken = { λ s. s };

    fn write(&mut self, bytes: &[u8]) -> Result<(), SinkFailed>
        ensures { OnOk result (λ _. s
            ≡ {bytes}) }
    {
        if self.is_open {
            keep(bytes);
        }
        self.write_some(bytes)
    }
}

pub(crate) const LIMIT: u64 = 5;

impl<T: Clone> Held for Option<T>
where
    T: Drop,
{
    fn held(
        &self,
    ) -> bool {
        self.is_some()
    }
}

pub trait Sink: Sized {
    fn first(&self) -> bool
        ensures { result ≡ true };
    fn again(&self) -> bool {
        self.first()
    }
    final fn twice(&self) -> bool {
        self.again()
    }
}

const fn double(number: u64) -> u64
    requires { number < 9 }
{
    number * 2
}
"""


# ---- how edits are applied


PAIRS = ("old: one();", "new: three();", "old: three();", "new: four();")
PAIR = ("file: src/a.rt", "old: one();", "new:")


@pytest.mark.usefixtures("write")
@pytest.mark.parametrize(
    ("lines", "why"),
    [
        (PAIR, None),
        (("file: src/a.rt", *PAIRS), None),
        (
            ("file: src/a.rt", *PAIRS, "old: one();", "new: x"),
            "'one();' stands 0 times in src/a.rt",
        ),
        (("file: src/a.rt", "old: two();", "new: x"), "'two();' stands 2 times in src/a.rt"),
        (("file: src/b.rt", "old: two();", "new: x"), "no file src/b.rt is there"),
        (
            ("file: b.rt", "old: two();", "new: x"),
            "b.rt is not below src/, specs/ or proofs/",
        ),
        (("file: src/a.rt", "old: one();", "new: one();"), "it changes nothing"),
        (("file: src/a.rt",), "it changes nothing"),
        (("function: a::b", *PAIR), None),
        (("function: a::c", *PAIR), "no function a::c is there"),
        (("function: b::b", *PAIR), "no function b::b is there"),
    ],
)
def test_what_fits(lines: tuple[str, ...], why: str | None, tmp_path: Path) -> None:
    assert misfit("\n".join(lines), tmp_path) == why


def test_a_function_of_the_root_file(write: Write, tmp_path: Path) -> None:
    write("src/lib.rt", "fn main() {}\n")
    assert misfit("\n".join(("function: main", *PAIR)), tmp_path) is None


# ---- the edits of this repository


def all_edits() -> dict[str, str]:
    """Return the edits that stand anywhere in the repository, and those that are made."""
    there = {
        f"{path.parts[-3]}/{path.name}": path.read_text()
        for path in try_edits.CRATES.glob("*/must-fail/*.edit")
    }
    return there | try_edits.edits_there(with_refusals=True)


def test_each_edit_fits_the_sources_and_has_a_function() -> None:
    edits = all_edits()
    assert len(edits) > 100
    assert try_edits.misfits(edits) == ""


def test_no_two_edits_have_one_name() -> None:
    for folder in try_edits.CRATES.glob("*/must-fail"):
        proved = {path.name for path in folder.glob("*.edit")}
        tried = {path.name for path in (try_edits.EDITS / folder.parent.name).glob("*")}
        assert proved & tried == set(), folder


def test_the_gate_proves_one_crate_twice() -> None:
    folders = {path.parent for path in try_edits.CRATES.glob("*/must-fail/*.edit")}
    assert [folder.parent.name for folder in folders] == ["rec_program"]


# ---- the function that has a place


class FunctionOf(Protocol):
    """Names the function whose body has a text of a file, which is written."""

    def __call__(self, old: str, path: str = "src/adapters.rt", text: str = FILE) -> str:
        """Return the name of the function."""


@pytest.fixture
def function_of(write: Write, tmp_path: Path) -> FunctionOf:
    """Name the function that has a text, in a folder of its own."""

    def named(old: str, path: str = "src/adapters.rt", text: str = FILE) -> str:
        write(path, text)
        return function_at(path, text, text.index(old), tmp_path)

    return named


@pytest.mark.parametrize(
    ("old", "name"),
    [
        ("keep(bytes)", "adapters::FileSinkSink::write"),
        ("        if self.is_open", "adapters::FileSinkSink::write"),
        ("self.is_some()", "adapters::OptionHeld::held"),
        ("        self.first()", "adapters::Sink::again"),
        ("        self.again()", "adapters::Sink::twice"),
        ("number * 2", "adapters::double"),
    ],
)
def test_the_function_that_has_a_text(old: str, name: str, function_of: FunctionOf) -> None:
    assert function_of(old) == name


def test_a_method_of_a_type_in_another_file(function_of: FunctionOf, write: Write) -> None:
    text = "impl Tracker {\n    fn judge(&self) {\n        one();\n    }\n}\n"
    assert function_of("one();", text=text) == "adapters::Tracker::judge"
    write("src/spans/tracker.rt", "pub(crate) struct Tracker {\n    spans: Spans,\n}\n")
    assert function_of("one();", text=text) == "spans::tracker::Tracker::judge"
    of_trait = text.replace("impl", "impl Judge for")
    assert function_of("one();", text=of_trait) == "adapters::TrackerJudge::judge"


def test_a_function_and_its_modules(function_of: FunctionOf) -> None:
    assert function_of("number * 2", "src/drawing/pauses.rt") == "drawing::pauses::double"
    assert function_of("number * 2", "src/lib.rt") == "double"
    two = "fn a() { one() }\npub fn b() { two() }\n"
    assert function_of("two", text=two) == "adapters::b"


@pytest.mark.parametrize(
    ("head", "name"),
    [
        (" JsonText ", "JsonText"),
        (" TestEventSummary<LiveSpec> ", "TestEventSummary+LiveSpec"),
        (
            "<'n, S: Sink<Of = T>, N: OutputNamer + Drop> RunRecorder<'n, S, N> ",
            "RunRecorder",
        ),
        (" TryClone for ExecuteStatus<LiveSpec> ", "ExecuteStatusLiveSpecTryClone"),
        (
            "<T: Drop> From<AllocFailed<T>> for ContainerError ",
            "ContainerErrorFromAllocFailed",
        ),
        (" fmt::Display for crate::key::SpanKey ", "SpanKeyDisplay"),
        (" Form for u32 ", "U32Form"),
    ],
)
def test_impls(head: str, name: str) -> None:
    assert impl_name(head) == name


@pytest.mark.parametrize(
    "old", ["ghost taken", "bytes: &[u8]", "≡ {bytes}", "LIMIT", "result ≡ true", "number < 9"]
)
def test_places_outside_of_bodies(old: str, function_of: FunctionOf) -> None:
    why = "no function's body has line .*: say in a line `function: NAME`"
    with pytest.raises(Misfit, match=why):
        function_of(old)
