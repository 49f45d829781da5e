"""Makes the package in dist/ again, from the program that was built here and the front end.

    python3 -m workshop.make_dist            makes it, where anything in it has changed
    python3 -m workshop.make_dist --check    prints why it must be made again, or nothing

dist/ has the package as `front/package.sh` makes it, its checksum, and `sources.sha256`. That file
has a line for each part of the sources, as `sha256sum` would print it. Its hash is of the lines
that `sha256sum` prints for the part's files, sorted by their paths.

The check makes the package once more and compares all files in it, byte by byte. How they are
compressed isn't compared, since another `gzip` may do that in another way. Nothing else depends on
the machine: the kit brings the linker and the start files of the program.
"""

from __future__ import annotations

import gzip
import hashlib
import os
import re
import shutil
import subprocess
import sys
import tarfile
import tempfile
from collections.abc import Iterator, Sequence
from dataclasses import dataclass
from pathlib import Path

from rezovamy_runs.command_line import command_line, demand_program

from workshop import PROGRAM, TOP

MAIN_CRATE = "rezovamy"
MOST_BYTES = 1_000_000
SOURCES = "sources.sha256"
AGAIN = "make it again with python3 -m workshop.make_dist"
# What front/package.sh and front/install.sh read, beside the program.
FRONT_FILES = (
    "LICENSE-APACHE",
    "LICENSE-MIT",
    "docs/CLI.md",
    "docs/FORMATS.md",
    "docs/FRONT_END.md",
    "front/built_program.sh",
    "front/install.sh",
    "front/junit_xml",
    "front/package.sh",
    "front/rezovamy-runs",
    "front/session_from_libtest",
    "front/src/rezovamy_runs/**/*",
)


# ---- sources


def used_crates(listed: str, crate: str) -> set[str]:
    """Return the crates of a program by the text of crates.txt: a crate, and all below it."""
    uses = dict(re.findall(r"^(\w+)(?: [^:\n]*)?:(.*)$", listed, re.M))
    found: set[str] = set()
    left = [crate]
    while left:
        name = left.pop()
        if name in uses and name not in found:
            found.add(name)
            left += uses[name].split()
    return found


def program_files(top: Path) -> list[Path]:
    """Return the files from which the program is compiled."""
    crates = used_crates((top / "crates.txt").read_text(), MAIN_CRATE)
    return [path for crate in crates for path in (top / "crates" / crate / "src").rglob("*.rt")]


def front_files(top: Path) -> list[Path]:
    """Return the files that the package holds or is made by, except the program."""
    found = [path for pattern in FRONT_FILES for path in top.glob(pattern)]
    return [path for path in found if path.is_file() and "__pycache__" not in path.parts]


def digest(top: Path, files: Sequence[Path]) -> str:
    """Return the hash of files and their paths."""
    named = sorted((path.relative_to(top).as_posix(), path.read_bytes()) for path in files)
    lines = [f"{hashlib.sha256(data).hexdigest()}  {name}\n" for name, data in named]
    return hashlib.sha256("".join(lines).encode()).hexdigest()


def source_lines(top: Path) -> str:
    """Return the text of `sources.sha256`."""
    parts = {"program": program_files(top), "front end": front_files(top)}
    return "".join(f"{digest(top, files)}  {part}\n" for part, files in parts.items())


# ---- packages


@dataclass(frozen=True)
class Package:
    """A package in a folder, with its checksum beside it."""

    archive: Path

    @property
    def checksum(self) -> Path:
        """Return the path of the checksum."""
        return self.archive.with_name(f"{self.archive.name}.sha256")

    def checksum_line(self) -> str:
        """Return what the checksum must be."""
        return f"{hashlib.sha256(self.archive.read_bytes()).hexdigest()}  {self.archive.name}\n"

    def tar(self) -> bytes:
        """Return the archive before it was compressed."""
        return gzip.decompress(self.archive.read_bytes())

    def members(self) -> dict[str, tuple[bytes, bytes]]:
        """Return what is in the archive, by paths: the header of each member, and its bytes."""
        with tarfile.open(self.archive) as archive:
            return {
                member.name.partition("/")[2]: (
                    member.tobuf(tarfile.USTAR_FORMAT),
                    held.read()
                    if (held := archive.extractfile(member)) and member.isreg()
                    else b"",
                )
                for member in archive
            }


def packed(top: Path, program: Path, folder: Path) -> Package:
    """Make the package of a program in a folder, and end with a fault where that fails."""
    done = subprocess.run(
        [top / "front/package.sh", folder],
        env={**os.environ, "REZOVAMY": str(program.resolve())},
        stdout=subprocess.PIPE,
        text=True,
        check=False,
    )
    if done.returncode != 0:
        sys.exit("front/package.sh failed")
    return Package(Path(done.stdout.rstrip("\n")))


def kept(dist: Path) -> Package | None:
    """Return the one package of a folder, None where it has none or several."""
    found = sorted(dist.glob("*.tar.gz"))
    return Package(found[0]) if len(found) == 1 else None


def differences(one: Package, other: Package) -> list[str]:
    """Return the paths of the files that aren't the same in two packages."""
    if one.tar() == other.tar():
        return []
    ours, theirs = one.members(), other.members()
    names = sorted(ours.keys() | theirs.keys())
    return [name for name in names if ours.get(name) != theirs.get(name)] or ["the archive"]


# ---- what is wrong


def changed_parts(before: str, now: str) -> list[str]:
    """Return the parts of the sources that have another hash than before."""
    lines = before.splitlines()
    return [line.partition("  ")[2] for line in now.splitlines() if line not in lines]


def package_faults(package: Package) -> Iterator[str]:
    """Yield what is wrong with a package by itself."""
    name = package.archive.name
    if not package.checksum.is_file() or package.checksum.read_text() != package.checksum_line():
        yield f"{package.checksum.name} isn't the checksum of {name}"
    size = package.archive.stat().st_size
    if size >= MOST_BYTES:
        yield f"{name} has {size} bytes, and must have less than {MOST_BYTES}"


def faults(top: Path, program: Path) -> Iterator[str]:
    """Yield why dist/ must be made again."""
    dist = top / "dist"
    package = kept(dist)
    if package is None:
        yield "there must be one package"
        return
    yield from package_faults(package)
    sources = dist / SOURCES
    before = sources.read_text() if sources.is_file() else ""
    for part in changed_parts(before, source_lines(top)):
        yield f"it was made from other sources of the {part}"
    with tempfile.TemporaryDirectory() as folder:
        made = packed(top, program, Path(folder))
        if made.archive.name != package.archive.name:
            yield f"{made.archive.name} is made here, and not {package.archive.name}"
            return
        for name in differences(package, made):
            yield f"{name} in {package.archive.name} isn't what is made here"


def make(top: Path, program: Path) -> None:
    """Make dist/ again. A package that would hold the same files stays as it is."""
    dist = top / "dist"
    with tempfile.TemporaryDirectory() as folder:
        made, before = packed(top, program, Path(folder)), kept(dist)
        is_same = (
            before is not None
            and before.archive.name == made.archive.name
            and not list(package_faults(before))
            and not differences(before, made)
        )
        if not is_same:
            shutil.rmtree(dist, ignore_errors=True)
            dist.mkdir()
            for path in (made.archive, made.checksum):
                shutil.copyfile(path, dist / path.name)
    (dist / SOURCES).write_text(source_lines(top))


def main() -> int:
    """Make dist/, or print why it must be made again, and return the status."""
    parser = command_line(__doc__)
    parser.add_argument("--check", action="store_true", help="change nothing")
    parser.add_argument("--program", type=Path, default=PROGRAM, help="the built program")
    words = parser.parse_args()
    demand_program(parser, words.program)
    if not words.check:
        make(TOP, words.program)
        return 0
    found = list(faults(TOP, words.program))
    print("".join(f"dist: {what}: {AGAIN}\n" for what in found), end="")
    return int(bool(found))


if __name__ == "__main__":
    sys.exit(main())
