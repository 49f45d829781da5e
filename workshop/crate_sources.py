"""What the sources of the crates declare: names, contracts, laws, definitions and tests."""

from __future__ import annotations

import functools
import re
from pathlib import Path
from typing import NamedTuple

# Where a function's contract ends: where its body begins, or where it has none.
CONTRACT_END = re.compile(r"^ *\{|;$|^}", re.M)
BLOCK = re.compile(r"^(?=(?:pub |pub\(crate\) )?(?:fn|impl|trait)\b)", re.M)


class Block(NamedTuple):
    """A block of a file: the heading of an `impl` or a `trait`, its contracts, and its laws.

    The heading of a function alone is empty. A contract is the clauses of a function's name.
    """

    heading: str
    contracts: dict[str, set[str]]
    laws: set[str]


def contracts_in(text: str) -> dict[str, set[str]]:
    """Return the names of the clauses in the contracts of functions, by the functions' names."""
    found: dict[str, set[str]] = {}
    for match in re.finditer(r"\bfn (\w+)", text):
        end = CONTRACT_END.search(text, match.end())
        contract = text[match.end() : end.start() if end else len(text)]
        found.setdefault(match[1], set()).update(re.findall(r"ensures (\w+)", contract))
    return found


class Crates:
    """The crates of a folder, whose sources are read once."""

    def __init__(self, folder: Path) -> None:
        self.folder = folder
        self.sources = functools.cache(self._sources)
        self.names_of = functools.cache(self._names_of)
        self.contracts_of = functools.cache(self._contracts_of)
        self.blocks_of = functools.cache(self._blocks_of)
        self.definitions = functools.cache(self._definitions)

    def names(self) -> list[str]:
        """Return the names of all crates."""
        return [folder.name for folder in sorted(self.folder.iterdir())]

    def _sources(self, crate: str, part: str, ending: str) -> list[str]:
        """Return the texts of a crate's files."""
        paths = sorted((self.folder / crate / part).glob(f"**/*.{ending}"))
        return [path.read_text() for path in paths]

    def tests_of(self, crate: str) -> set[str]:
        """Return the names of a crate's tests."""
        code = "\n".join(self.sources(crate, "src", "rt"))
        return set(re.findall(r"#\[test\]\s+fn (\w+)", code))

    def _names_of(self, crate: str) -> set[str]:
        """Return what a crate declares.

        These are functions, types, traits, and what begins a line within a block, as a variant
        does.
        """
        code = "\n".join(self.sources(crate, "src", "rt"))
        declared = re.findall(r"\b(?:fn|struct|enum|trait) (\w+)", code)
        return {*declared, *re.findall(r"^ +(\w+)", code, re.M)}

    def _contracts_of(self, crate: str) -> dict[str, set[str]]:
        """Return the clauses of a crate's functions, by the functions' names."""
        found: dict[str, set[str]] = {}
        for text in self.sources(crate, "src", "rt"):
            for name, clauses in contracts_in(text).items():
                found.setdefault(name, set()).update(clauses)
        return found

    def _definitions(self) -> set[str]:
        """Return the names that all `specs/` define."""
        found: set[str] = set()
        for crate in self.names():
            for text in self.sources(crate, "specs", "antt"):
                found |= set(re.findall(r"^\s*(?:\w+ )*?([\w-]+) :", text, re.M))
                found |= set(re.findall(r"\b(?:record|data) (\w+)", text))
        return found

    def _blocks_of(self, crate: str) -> list[Block]:
        """Return the blocks of a crate's files."""
        found = []
        for text in self.sources(crate, "src", "rt"):
            for block in BLOCK.split(text)[1:]:
                heading = block.splitlines()[0]
                laws = set(re.findall(r"^ +ghost (\w+) =", block, re.M))
                is_alone = re.search(r"\bfn\b", heading)
                found.append(Block("" if is_alone else heading, contracts_in(block), laws))
        return found

    def clauses_in(self, crate: str, call: str, owner: str) -> set[str] | None:
        """Return the clauses of a function in a block of its owner, and the laws of these blocks.

        Return None where no such function is there.
        """
        found: set[str] | None = None
        owned = re.compile(rf"(?:for |impl(?:<[^>]*>)? ){owner}\b")
        for heading, contracts, laws in self.blocks_of(crate):
            is_owner = owned.search(heading) is not None if owner else heading == ""
            if is_owner and call in contracts:
                found = (found or set()) | contracts[call] | laws
        return found
