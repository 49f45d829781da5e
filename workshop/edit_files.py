"""Edits: what they make of a crate's files, and which functions they change.

An edit has a line `file: src/x.rt` and then pairs of lines `old: TEXT` and `new: TEXT`, each
applied over those before it; more files may follow. The functions that it changes are those whose
bodies have these places, named as the checker prints them. Only an edit of something else, as of a
constant, says in lines `function: NAME` whose proof has to refuse it.
"""

from __future__ import annotations

import dataclasses
import re
from collections.abc import Collection, Mapping, Sequence
from pathlib import Path, PurePosixPath

FUNCTION = re.compile(
    r'( *)(?:pub(?:\([^)]*\))? )?(?:(?:const|unsafe|async|final) |extern "\w+" )*fn (\w+)'
)
BLOCK = re.compile(r"(?:pub(?:\([^)]*\))? )?(?:unsafe )?(impl|trait)\b(.*)", re.S)


class Misfit(Exception):
    """Why an edit can't be applied, or can't be tried."""


@dataclasses.dataclass
class Applied:
    """Files as they are with some edits, by their paths in the crate, and the functions that the
    last of these edits changes.

    `is_inside` says that it changes nothing but their bodies, on which no other function's proof
    rests.
    """

    texts: dict[str, str]
    functions: list[str]
    is_inside: bool


# ---- what an edit makes of a crate


def applied(text: str, folder: Path, before: Mapping[str, str] | None = None) -> Applied:
    """A crate's files with an edit, over those that other edits have made."""
    texts = dict(before or {})
    original: dict[str, str] = {}
    functions: list[str] = []
    named = re.findall(r"^function: (\S+)$", text, re.M)
    path = old = ""
    for line in text.split("\n"):
        word, _, rest = line.partition(" ")
        if word == "file:":
            path = rest.strip()
            if not path.startswith(("src/", "specs/", "proofs/")):
                raise Misfit(f"{path} is not below src/, specs/ or proofs/")
        elif word == "old:":
            old = rest
        elif word == "new:":
            original.setdefault(path, text_of(folder, path, texts))
            place = place_of(old, texts[path], path)
            functions += [] if named else [function_at(path, texts[path], place, folder)]
            texts[path], old = texts[path].replace(old, rest), ""
    if all(texts[path] == original[path] for path in original):
        raise Misfit("it changes nothing")
    return Applied(texts, list(dict.fromkeys(named or functions)), not named)


def text_of(folder: Path, path: str, texts: dict[str, str]) -> str:
    """A file's text, which is read where no edit has changed it so far."""
    if path not in texts:
        if not (folder / path).is_file():
            raise Misfit(f"no file {path} is there")
        texts[path] = (folder / path).read_text()
    return texts[path]


def place_of(old: str, text: str, path: str) -> int:
    """Where the text stands that an edit takes away."""
    count = text.count(old) if old else 0
    if count != 1:
        raise Misfit(f"{old!r} stands {count} times in {path}")
    return text.index(old)


def misfit(text: str, folder: Path) -> str | None:
    """Why an edit can't be applied to the crate in a folder, or its function isn't found.

    None where all is well.
    """
    try:
        for name in applied(text, folder).functions:
            if not is_there(name, folder):
                return f"no function {name} is there"
    except Misfit as why:
        return str(why)
    return None


# ---- the function that has a place


def function_at(path: str, text: str, place: int, folder: Path) -> str:
    """The name of the function whose body has a place of a file of the crate in a folder."""
    rows = text.split("\n")
    blank = len(text[place:]) - len(text[place:].lstrip())
    row = text.count("\n", 0, place + blank)
    for top in range(row, -1, -1):
        found = FUNCTION.match(rows[top])
        if found and row in body_of(rows, top, found[1]):
            owner = owner_of(rows, top, found[1])
            return "::".join(
                [*modules_of(home_of(owner, path, folder)), *([owner] if owner else []), found[2]]
            )
    raise Misfit(
        f"no function's body has line {row + 1} of {path}: say in a line `function: NAME` whose "
        f"proof refuses the edit"
    )


def body_of(rows: Sequence[str], top: int, indent: str) -> range:
    """The rows of a function's body, by the row in which the function begins.

    None where it has no body.
    """
    if rows[top].endswith("}"):
        return range(top, top + 1)
    start = None
    for row, text in enumerate(rows[top:], top):
        if (
            start is None
            and (row == top or re.match(rf"{indent}[){{]", text))
            and text.endswith("{")
        ):
            start = row
        elif start is not None and text.startswith(indent + "}"):
            return range(start + 1, row)
        elif row > top and ends_before(text, indent):
            break
    return range(0)


def ends_before(text: str, indent: str) -> bool:
    """Whether a function with this indentation has ended before a row."""
    found = FUNCTION.match(text)
    is_further_out = text != "" and not text.startswith(indent)
    return is_further_out or (found is not None and found[1] == indent)


def home_of(owner: str, path: str, folder: Path) -> str:
    """The file by which a function is named: that of its type where this stands in another one than
    its methods, else its own.
    """
    declared = re.compile(
        rf"^(?:pub(?:\([^)]*\))? )?(?:struct|enum) {owner.partition('+')[0]}\b", re.M
    )
    files = (
        [path, *(str(file.relative_to(folder)) for file in sorted(folder.glob("src/**/*.rt")))]
        if owner
        else []
    )
    return next((file for file in files if declared.search((folder / file).read_text())), path)


def modules_of(path: str) -> tuple[str, ...]:
    """The modules in which what a file declares stands, the outermost first."""
    parts = PurePosixPath(path).with_suffix("").parts[1:]
    return () if parts in (("lib",), ("main",)) else parts


def owner_of(rows: Sequence[str], top: int, indent: str) -> str:
    """The name of the impl or the trait in which a function stands.

    Empty where it stands in neither.
    """
    if not indent:
        return ""
    start = next(
        (row for row in range(top, -1, -1) if BLOCK.match(rows[row]) or rows[row].startswith("}")),
        0,
    )
    head = BLOCK.match("\n".join(rows[start:top]).partition("{")[0])
    if head is None:
        raise Misfit(
            f"the function in line {top + 1} stands in no impl and no trait: name it in a line "
            f"`function: NAME`"
        )
    kind, name = head.groups()
    return impl_name(name) if kind == "impl" else str(re.findall(r"\w+", name)[0])


def impl_name(head: str) -> str:
    """The name of an impl by what follows this word: `FileSinkSink` is the impl of `Sink` for
    `FileSink`.
    """
    given, rest = parted(head.strip())
    parameters = re.findall(r"(?:^|,)\s*(?:const )?(\w+)", re.sub(r"<.*?>|\(.*?\)", "", given))
    left, between, right = re.split(r"\swhere\s", rest)[0].partition(" for ")
    if between:
        return "".join(type_words(right, parameters) + type_words(left, parameters))
    return "+".join(type_words(left, parameters))


def parted(head: str) -> tuple[str, str]:
    """The parameters in angle brackets with which an impl's head begins, and the rest of it."""
    depth = 0
    for place, char in enumerate(head):
        depth += (char == "<") - (char == ">")
        if depth == 0:
            return (head[1:place], head[place + 1 :]) if place else ("", head)
    return "", head


def type_words(text: str, parameters: Collection[str]) -> list[str]:
    """The words of a type, each with a capital, without paths before them, lifetimes and an impl's
    own parameters.
    """
    words = re.findall(r"(?<!['\w])\w+", re.sub(r"\w+::", "", text))
    return [word[0].upper() + word[1:] for word in words if word not in parameters]


def is_there(name: str, folder: Path) -> bool:
    """Whether the file of a function's module has one of this name.

    Of a method any file may have it.
    """
    *places, function = name.split("::")
    path = folder / "src"
    while places and ((path / places[0]).is_dir() or (path / f"{places[0]}.rt").is_file()):
        path /= places.pop(0)
    if places:
        files = folder.glob("src/**/*.rt") if places[0][0].isupper() else []
    else:
        files = (
            [path.with_suffix(".rt")] if path.name != "src" else [path / "lib.rt", path / "main.rt"]
        )
    return any(
        re.search(rf"\bfn {re.escape(function)}\b", file.read_text())
        for file in files
        if file.is_file()
    )
