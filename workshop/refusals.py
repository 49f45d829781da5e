"""Edits by which `record` gives one refusal always: a session that was judged is refused all the
same.

One is made for each variant of `RecordExportError` that has no edit `always_..` of its own. Want of
memory has none: it may always come.
"""

from __future__ import annotations

import itertools
import re
from collections.abc import Iterator, Sequence, Set
from pathlib import Path

CRATE = "rec_export"
ENUM_FILE = "rec_errors/src/export_error.rt"
ENUM = "RecordExportError"
LEFT_OUT = {"OutOfMemory"}
# A field's values, by its type.
VALUES = {
    "u64": ("1",),
    "Option<u64>": ("None", "Some(1)"),
    "Text": ('rec_events::Text::from_str(alloc, "x")?',),
    "RustBinaryId": ('rec_events::RustBinaryId::new(String::from_str(alloc, "x")?)',),
    "TestCaseName": ('rec_events::TestCaseName::new(String::from_str(alloc, "x")?)',),
    "ScriptId": ('rec_events::ScriptId::new(String::from_str(alloc, "x")?)',),
    "SpanKey": ("rec_trace::SpanKey::Run",),
}
JUDGED = "    let prepared = prepare(alloc, settings, namer, session)?;"
EDIT = (
    "file: src/export.rt\nold: {judged}\nnew: {judged} if prepared.exported.events < u64::MAX {{ "
    "return Err({refusal}); }}\n"
)


class Unknown(Exception):
    """What the sources have that isn't known here."""


def variants(text: str) -> dict[str, list[tuple[str, str]]]:
    """The variants of the enum in a text, each with its fields and their types."""
    body = re.search(rf"^pub enum {ENUM} {{\n(.*?)^}}", text, re.M | re.S)
    if body is None:
        raise Unknown(f"no enum {ENUM} is there")
    found = re.findall(r"^    (\w+)(?: \{\n(.*?)^    \})?,$", body[1], re.M | re.S)
    return {name: re.findall(r"^        (\w+): (.+),$", fields, re.M) for name, fields in found}


def literals(name: str, fields: Sequence[tuple[str, str]]) -> Iterator[str]:
    """A value of a variant, for each choice of its fields' values."""
    unknown = [kind for _, kind in fields if kind not in VALUES]
    if unknown:
        raise Unknown(f"{name} has a field of the type {unknown[0]}")
    for values in itertools.product(*(VALUES[kind] for _, kind in fields)):
        named = ", ".join(f"{field}: {value}" for (field, _), value in zip(fields, values))
        yield f"{ENUM}::{name} {{ {named} }}" if named else f"{ENUM}::{name}"


def snake(name: str) -> str:
    return re.sub(r"(?<!^)(?=[A-Z])", "_", name).lower()


def edits(text: str, edited: Set[str]) -> dict[str, str]:
    """The edits by their names, where these variants have one already."""
    found = {}
    for name, fields in variants(text).items():
        if name not in edited | LEFT_OUT:
            for number, refusal in enumerate(literals(name, fields), 1):
                end = f"_{number}" if number > 1 else ""
                found[f"always_{snake(name)}{end}.edit"] = EDIT.format(
                    judged=JUDGED, refusal=refusal
                )
    return found


def edited(folder: Path) -> set[str]:
    """The variants of which a folder, or one in it, has an edit."""
    return {
        name
        for path in folder.rglob("always_*.edit")
        for name in re.findall(rf"Err\({ENUM}::(\w+)", path.read_text())
    }
