"""The edits that give one refusal always: of a small enum, and of the one that is there."""

from __future__ import annotations

from pathlib import Path

import pytest

from workshop import refusals, try_edits

ENUM = """
/// Says why.
pub enum RecordExportError {
    /// The source failed.
    #[error("reading failed")]
    SourceFault,
    /// A line is none, {
    #[error("{line_number} and {}", .file_name.as_str())]
    TwoParts {
        /// A comment: with a colon,
        line_number: u64,
        file_name: Text,
    },
    CountOutOfRange {
        event: Option<u64>,
    },
    OutOfMemory,
}
"""
JUDGED = "    let prepared = prepare(alloc, settings, namer, session)?;"
TWO_PARTS = (
    "RecordExportError::TwoParts "
    '{ line_number: 1, file_name: rec_events::Text::from_str(alloc, "x")? }'
)


def test_each_variant_without_an_edit_gets_one() -> None:
    made = refusals.edits(ENUM, {"SourceFault"})
    assert list(made) == [
        "always_two_parts.edit",
        "always_count_out_of_range.edit",
        "always_count_out_of_range_2.edit",
    ]
    assert made["always_two_parts.edit"] == (
        f"file: src/export.rt\nold: {JUDGED}\n"
        f"new: {JUDGED} if prepared.exported.events < u64::MAX {{ return Err({TWO_PARTS}); }}\n"
    )
    some_event = "Err(RecordExportError::CountOutOfRange { event: Some(1) });"
    assert some_event in made["always_count_out_of_range_2.edit"]


def test_what_is_not_known() -> None:
    unknown = "CountOutOfRange has a field of the type Option<u8>"
    with pytest.raises(refusals.Unknown, match=unknown):
        refusals.edits(ENUM.replace("Option<u64>", "Option<u8>"), set())
    with pytest.raises(refusals.Unknown, match="no enum"):
        refusals.edits("", set())


def test_variants_with_an_edit(tmp_path: Path) -> None:
    for edit, text in refusals.edits(ENUM, {"SourceFault"}).items():
        (tmp_path / edit).write_text(text)
    assert refusals.edited(tmp_path) == {"TwoParts", "CountOutOfRange"}


def test_each_refusal_has_an_edit() -> None:
    enum = (try_edits.CRATES / refusals.ENUM_FILE).read_text()
    edits = try_edits.edits_there(with_refusals=True)
    texts = [text for name, text in edits.items() if name.startswith("rec_export/always_")]
    refused = refusals.variants(enum).keys() - refusals.LEFT_OUT
    without = {
        name
        for name in refused
        if not any(f"Err({refusals.ENUM}::{name}" in text for text in texts)
    }
    assert without == set()
