"""Holds the pages against the tree. It prints each fault, and nothing where all is well.

    python3 -m workshop.check_pages

- Each link to a file or a heading of this repository, in README.md and docs/, leads there.
- Each path in backquotes with a slash and a known ending, as `rec_store/specs/Cut.antt`, is there.
- In docs/PROOFS.md each call of a table is a function or a type of the crate whose heading stands
  above it, and each answer a variant of some crate. Each name in the last cell is a clause in the
  contract of a function of one of these names, or a definition in some `specs/`. In a table whose
  rows begin with the crate, a call `of` a type stands in a block of this type, and its clauses in
  that very function or among the laws of the block.
- Where a page or a module of `workshop/cases` names tests after a crate of tests, as
  `rec_store_tests`: `a_name`, the crate has them.
- Each crate of crates.txt is named in README.md or docs/ARCHITECTURE.md, and each crate that these
  name stands in crates.txt.
- Each module that docs name as `python3 -m workshop.NAME` is there.
- README.md has at most 110 lines, and no paragraph of docs/PROOFS.md has more than five.
- Each fault line that docs/CLI.md lists has a sentence in `rezovamy_runs.faults.explain`, and each
  sentence there is of such a line; and its table of options is that of
  `rezovamy_runs.faults.causes`.
"""

from __future__ import annotations

import itertools
import re
import sys
from collections.abc import Iterator, Mapping, Sequence, Set
from pathlib import Path

from rezovamy_runs.command_line import command_line
from rezovamy_runs.faults.causes import COMMANDS, TAKEN
from rezovamy_runs.faults.explain import TABLE, find
from workshop import TOP
from workshop.crate_sources import Crates

MOST_LINES = 110
LONGEST_PARAGRAPH = 5
# What the sentences and the options of the front end are called in a fault.
SENTENCES, OPTIONS = "rezovamy_runs.faults.explain", "rezovamy_runs.faults.causes"
PATH = re.compile(r"`([\w./]+/[\w.]+\.(?:rt|antt|md|py|edit|session))`")
TESTS = re.compile(r"`(rec_\w+_tests)`: ((?:`\w+`(?:,\s+)?)+)")
# Calls in a cell of a table, and the type that has them.
OWNED_CALLS = re.compile(r"((?:`\w+`(?:, )?)+)(?: of `(\w+)`)?")
MODULE = re.compile(r"python3 -m ((?:workshop|rezovamy_runs)(?:\.\w+)*)")


def without_code(text: str) -> str:
    """Return a page without its blocks of code."""
    return re.sub(r"^```.*?^```", "", text, flags=re.M | re.S)


def quoted(cell: str) -> list[str]:
    """Return the names that stand in backquotes."""
    return re.findall(r"`(\w+)`", cell)


def anchors(page: Path) -> set[str]:
    """Return the anchors of a page's headings, as they are made of their texts."""
    headings = re.findall(r"^#+ (.*)$", without_code(page.read_text()), re.M)
    return {re.sub(r"[^\w\- ]", "", heading.lower()).replace(" ", "-") for heading in headings}


# ---- links, paths and tests


def link_faults(page: Path) -> Iterator[str]:
    """Yield each link of a page that leads to no file, or to no heading."""
    for target in re.findall(r"\]\(([^)\s]+)\)", without_code(page.read_text())):
        if "://" in target:
            continue
        path, _, anchor = target.partition("#")
        other = (page.parent / path).resolve() if path else page
        if not other.exists():
            yield f"no file {target}"
        elif anchor and anchor not in anchors(other):
            yield f"no heading {target}"


def path_faults(page: Path, top: Path) -> Iterator[str]:
    """Yield each path in backquotes that isn't there.

    It may begin at the top, at the crates, at the front end's package, or beside the page.
    """
    places = (top, top / "crates", top / "front/src/rezovamy_runs", page.parent)
    for path in PATH.findall(page.read_text()):
        if not any((place / path).exists() for place in places):
            yield f"no file {path}"


def module_faults(page: Path, top: Path) -> Iterator[str]:
    """Yield each module that a page says to run and that isn't there."""
    for module in MODULE.findall(page.read_text()):
        path = module.replace(".", "/")
        places = (top / path, top / "front/src" / path)
        if not any(place.with_suffix(".py").exists() or place.is_dir() for place in places):
            yield f"no module {module}"


def test_faults(page: Path, crates: Crates) -> Iterator[str]:
    """Yield each test that is named after its crate and isn't there."""
    for crate, names in TESTS.findall(page.read_text()):
        for name in quoted(names):
            if name not in crates.tests_of(crate):
                yield f"no test {name} in {crate}"


# ---- what is proved


def owned_row_faults(cells: Sequence[str], crates: Crates) -> Iterator[str]:
    """Yield what is wrong with a row of a crate.

    It has calls with the types that have them, and clauses that each of these calls has.
    """
    (crate,) = quoted(cells[0])
    for calls, owner in OWNED_CALLS.findall(cells[1]):
        for call in quoted(calls):
            yield from owned_call_faults(crate, call, owner, quoted(cells[3]), crates)


def owned_call_faults(
    crate: str, call: str, owner: str, wanted: Sequence[str], crates: Crates
) -> Iterator[str]:
    """Yield that a call of a type of a crate is missing, or a clause that is wanted of it."""
    clauses = crates.clauses_in(crate, call, owner)
    if clauses is None:
        yield f"no {call} of {owner} in {crate}"
        return
    for name in wanted:
        if name not in clauses:
            yield f"no clause {name} of {call} of {owner} in {crate}"


def row_faults(
    crate: str, places: Sequence[str], cells: Sequence[str], crates: Crates
) -> Iterator[str]:
    """Yield what is wrong with a row of calls, whose last cell names clauses or definitions."""
    calls = quoted(cells[0])
    for name in calls:
        if not any(name in crates.names_of(place) for place in places):
            yield f"no {name} in {', '.join(places)}"
    contracts = crates.contracts_of(crate)
    known = set().union(crates.definitions(), *(contracts.get(name, set()) for name in calls))
    for name in quoted(cells[-1]) if len(cells) > 2 else []:
        if name not in known:
            yield f"no clause {name} of {', '.join(calls)} in {crate}, and no such definition"


def proof_faults(page: Path, crates: Crates) -> Iterator[str]:
    """Yield what is wrong with the tables of a page, each below the heading of its crate."""
    crate, places = "", crates.names()
    for line in page.read_text().splitlines():
        if line.startswith("## "):
            heading = re.match(r"## `(\w+)`", line)
            crate = heading[1] if heading else ""
        cells = [cell.strip() for cell in line.strip().strip("|").split(" | ")]
        if not crate:
            if len(cells) == 4 and re.fullmatch(r"`rec_\w+`", cells[0].strip("| ")):
                yield from owned_row_faults([cell.strip("| ") for cell in cells], crates)
        elif not line.startswith("| ") or len(cells) < 2:
            continue
        elif cells[0] in ("Call", "Law"):
            places = [crate]
        elif cells[0].startswith("Answer of "):
            places = crates.names()
        else:
            row = line.strip()[2:].removesuffix("|").split(" | ")
            yield from row_faults(crate, places, row, crates)


# ---- crates and lengths


def crate_faults(top: Path) -> Iterator[str]:
    """Yield where README.md and docs/ARCHITECTURE.md don't name the crates of crates.txt."""
    listed = set(re.findall(r"^(\w+):", (top / "crates.txt").read_text(), re.M))
    pages = ("README.md", "docs/ARCHITECTURE.md")
    named = {
        page: set(re.findall(r"`(rec_\w+|rezovamy)`", (top / page).read_text())) for page in pages
    }
    for crate in sorted(listed - set().union(*named.values())):
        yield f"crates.txt: {crate} is named neither in README.md nor in docs/ARCHITECTURE.md"
    for page in pages:
        for crate in sorted(named[page] - listed):
            yield f"{page}: no crate {crate}"


def length_faults(top: Path) -> Iterator[str]:
    """Yield where README.md or a paragraph of docs/PROOFS.md is too long."""
    if len((top / "README.md").read_text().splitlines()) > MOST_LINES:
        yield f"README.md: more than {MOST_LINES} lines"
    for paragraph in re.split(r"\n\s*\n|\n(?=[-|])", (top / "docs/PROOFS.md").read_text()):
        lines = paragraph.strip().splitlines()
        if len(lines) > LONGEST_PARAGRAPH:
            yield f"docs/PROOFS.md: a long paragraph: {lines[0]}"


# ---- the command line


def rows(page: Path, heading: str) -> Iterator[list[str]]:
    """Yield the rows of the tables whose heads begin so, as lists of cells."""
    is_listed = False
    for line in page.read_text().splitlines():
        cells = line.removeprefix("| ").split(" | ")
        if line.startswith(heading):
            is_listed = True
        elif not line.startswith("|"):
            is_listed = False
        elif is_listed and len(cells) > 1:
            yield cells


def fault_lines(page: Path) -> list[str]:
    """Return the fault lines that a page lists.

    They stand in backquotes, with a capital letter, in a table's column of lines.
    """
    return [
        line
        for cells in rows(page, "| Status | Line on standard error")
        for line in re.findall(r"`([A-Z][^`]*)`", cells[1])
    ]


def taking(of: str, commands: Sequence[str]) -> list[str]:
    """Return the commands that a cell names: each that stands in it, `all`, or `all but` some."""
    named = re.findall(r"`(\w+)`", of)
    if of.startswith("all"):
        return [command for command in commands if command not in named]
    return named


def option_faults(
    page: Path, wanted: Mapping[str, Sequence[str]] = TAKEN, commands: Sequence[str] = COMMANDS
) -> Iterator[str]:
    """Yield where the table of options isn't what the front end knows of the program's options."""
    taken: dict[str, list[str]] = {command: [] for command in commands}
    for option, of, *_ in rows(page, "| Option | Of |"):
        for command in taking(of, commands):
            taken.get(command, []).append(option.strip("`"))
    for command in commands:
        if sorted(taken[command]) != sorted(wanted[command]):
            yield f"{command} takes {taken[command]}, and in {OPTIONS} {list(wanted[command])}"


def sentence_faults(page: Path, forms: Set[str]) -> Iterator[str]:
    """Yield the fault lines of a page that have no sentence, and the sentences without a line."""
    found = {line: find(line) for line in fault_lines(page)}
    for line, sentence in found.items():
        if sentence is None:
            yield f"no sentence for {line} in {SENTENCES}"
    explained = {sentence[0] for sentence in found.values() if sentence is not None}
    for form in sorted(forms - explained):
        yield f"no line {form}, of which {SENTENCES} has a sentence"


def page_faults(page: Path, top: Path, crates: Crates) -> Iterator[str]:
    """Yield what is wrong with a page by itself."""
    yield from link_faults(page)
    yield from path_faults(page, top)
    yield from module_faults(page, top)
    yield from test_faults(page, crates)


def all_faults(top: Path) -> Iterator[str]:
    """Yield all that is wrong, each with its page."""
    crates = Crates(top / "crates")
    command_page, proof_page = top / "docs/CLI.md", top / "docs/PROOFS.md"
    pages = [top / "README.md", *sorted((top / "docs").rglob("*.md"))]
    found = [(page, page_faults(page, top, crates)) for page in pages]
    cases = sorted((top / "workshop/cases").glob("*.py"))
    found += [(module, test_faults(module, crates)) for module in cases]
    found += [
        (proof_page, proof_faults(proof_page, crates)),
        (command_page, sentence_faults(command_page, {form for form, _ in TABLE})),
        (command_page, option_faults(command_page)),
    ]
    for page, faults in found:
        yield from (f"{page.relative_to(top)}: {what}" for what in faults)
    yield from itertools.chain(crate_faults(top), length_faults(top))


def main() -> int:
    """Print what is wrong, and return the status."""
    command_line(__doc__).parse_args()
    faults = list(all_faults(TOP))
    print("".join(f"{line}\n" for line in faults), end="")
    return int(bool(faults))


if __name__ == "__main__":
    sys.exit(main())
