"""Checks of a crate's functions with edits: over which libraries, in which rounds, and what the
checker says of each edit.

A function's proof rests on the contracts of what it calls, and never on their bodies. So an edit is
tried by the proof of the function that it changes, and edits of several functions at once; only one
whose function calls another edited one waits for it.
"""

from __future__ import annotations

import dataclasses
import enum
import os
import re
import shutil
import signal
import subprocess
import tempfile
import threading
from collections.abc import Iterable, Iterator, Mapping, Sequence
from pathlib import Path
from typing import TypeAlias

from workshop.edit_files import Misfit, applied
from workshop.gate_cost import Uses, stands_on

PARTS = ("src", "specs", "proofs")
LAST_LINE = re.compile(r"only=\d+ proved=\d+")
# Said of a built library that was built over other libraries than are there now.
UNFIT = re.compile(r"unusable-built-library|Run the lower steps again")
# An error by which a text isn't read; one that only makes a statement false names the statement,
# and is read well.
ERROR = re.compile(r"(?:\./)?(\S+?):\d+:\d+: error(?:\[[\w-]+\])?: (`[^`]*`: )?(.*)")
NOT_READ = re.compile(
    r"is not in scope|has no field|is no name|operand is missing|expected the end|cannot continue"
)
# What is said in a proof of a name that an edit took away, and of what rests on that proof.
GONE = re.compile(r"has no field|is not in scope|has no `|was not admitted")


# `rt ci` puts libraries back that were there before it.
BUILD = (
    "remove crates/*/out/rlib and run `rt ci`, or run `rt lib` in the folder of each crate, the "
    "lowest first"
)


class Unready(Exception):
    """Why nothing can be checked."""


class Verdict(enum.Enum):
    """What a check says of an edit."""

    REFUSED = enum.auto()
    PROVED = enum.auto()
    WAITS = enum.auto()
    NONE = enum.auto()


# A verdict, and the words on which it rests.
Judgement: TypeAlias = tuple[Verdict, str]


# ---- the kit and the libraries


@dataclasses.dataclass(frozen=True)
class Clone:
    """The crates of a clone, what each uses, and the kit that checks them."""

    crates: Path
    uses: Uses
    kit: Path

    def rlib(self, name: str) -> Path:
        """The built library of a crate, or of the kit."""
        if name in self.uses:
            return self.crates / name / "out/rlib" / f"{name}.rlib"
        return self.kit / "rlibs" / f"{name}.rlib"

    def below(self, crate: str) -> list[str]:
        return sorted(stands_on(self.uses, crate) - {crate})

    def words(self, crate: str, functions: Iterable[str]) -> list[str]:
        """The words by which the kit's checker checks functions of a crate, from a folder with its
        files.
        """
        root = "main" if (self.crates / crate / "src/main.rt").is_file() else "lib"
        words = [str(self.kit / "bin/rattle"), "check", "--crate-name", crate, f"src/{root}.rt"]
        for name in ("std", *self.uses[crate]):
            words += ["--extern", f"{name}={self.rlib(name)}"]
        for folder in (self.kit / "rlibs", *(self.rlib(name).parent for name in self.below(crate))):
            words += ["-L", f"dependency={folder}"]
        words += ["--antt-project", str(self.kit / "rattle/logic/antt-project.json")]
        words += [
            "--logic-built",
            str(self.kit / "logic_built"),
            "--links",
            f"{crate}=",
            "--jobs",
            "1",
        ]
        return words + [word for name in functions for word in ("--only", name)]

    def unbuilt(self, crates: Iterable[str]) -> Iterator[str]:
        """A line for each library below some crates that is missing, or older than a file that it
        is made of.
        """
        for name in sorted({name for crate in crates for name in self.below(crate)}):
            built = self.rlib(name)
            if not (built / "format").is_file():
                yield f"the library {name} isn't built"
            elif self.put_there(built) < max(map(self.changed, (name, *self.below(name)))):
                yield f"the library {name} is older than its sources, or those of a crate below it"

    @staticmethod
    def put_there(built: Path) -> float:
        """When a library was built, or put there by `rt ci`, which gives the files of one that it
        has kept their older times.
        """
        return max(path.stat().st_mtime for path in (built, built / "format"))

    def changed(self, crate: str) -> float:
        """When a file of a crate was last changed."""
        files = [
            path
            for part in PARTS
            for path in (self.crates / crate / part).glob("**/*")
            if path.is_file()
        ]
        return max((path.stat().st_mtime for path in files), default=0)


def kit() -> Path:
    """The folder of the kit whose `rt` is on the path."""
    found = shutil.which("rt")
    if found is None:
        raise Unready("no rt of a Rattle kit is on the path")
    return Path(found).resolve().parent.parent


# ---- rounds


@dataclasses.dataclass
class Round:
    """Edits of a crate that are tried in one check: the functions of each, by its name, and the
    files with all of them.
    """

    functions: dict[str, list[str]] = dataclasses.field(default_factory=dict)
    texts: dict[str, str] = dataclasses.field(default_factory=dict)
    is_open: bool = True

    def takes(self, name: str, text: str, folder: Path) -> bool:
        """Takes an edit, unless it and the others get in each other's way."""
        try:
            made = applied(text, folder, self.texts)
        except Misfit:
            return False
        taken = {function for functions in self.functions.values() for function in functions}
        if self.functions and not (
            self.is_open and made.is_inside and taken.isdisjoint(made.functions)
        ):
            return False
        self.functions[name], self.texts, self.is_open = made.functions, made.texts, made.is_inside
        return True


def rounds(edits: Mapping[str, str], folder: Path) -> list[Round]:
    """The fewest checks that are easily found for a crate's edits.

    No two edits of a round change one function.
    """
    found: list[Round] = []
    for name, text in edits.items():
        if not any(each.takes(name, text, folder) for each in found):
            found.append(Round())
            if not found[-1].takes(name, text, folder):
                raise Misfit(f"{name} can't be applied")
    return found


# ---- what a check says


@dataclasses.dataclass
class Said:
    """What the checker printed in a round, its status, and the processor time and the memory that
    it took, in seconds and kB.
    """

    text: str
    status: int
    seconds: float = 0
    memory: int = 0

    def fault(self) -> str:
        """The first line that says why it came to no proof, or couldn't read a text.

        Empty where all was read.
        """
        lines = self.text.rstrip("\n").split("\n")
        bad = next(filter(is_unread, lines), "")
        if bad or LAST_LINE.fullmatch(lines[-1]):
            return bad
        return next(
            (line for line in lines if re.search(r"\berror\b", line)),
            f"the checker ended with status {self.status}",
        )

    def is_by_names(self, name: str) -> bool:
        """Whether a function's proof seems to fail only as it names what an edit took away, which
        says little of the contract.
        """
        *places, _ = name.split("::")
        told = re.findall(
            rf"^(?:\./)?proofs/{re.escape(name.replace('::', '/'))}/\S+ error: (.*)$",
            self.text,
            re.M,
        )
        is_open = any(
            f"note: src/{'/'.join(places[:number])}.rt:" in self.text
            for number in range(1, len(places) + 1)
        )
        return bool(told) and not is_open and all(map(GONE.search, told))


def is_unread(line: str) -> bool:
    """Whether a line says that a text of `src` or `specs` can't be read."""
    found = ERROR.match(line)
    if found is None or not found[1].startswith(("src/", "specs/")):
        return False
    return not found[2] or NOT_READ.search(re.sub(r"`[^`]*`", "", found[3])) is not None


def verdicts(
    said: Said, crate: str, functions: Mapping[str, Sequence[str]]
) -> dict[str, Judgement]:
    """The verdict on each edit of a round, with the words on which it rests."""
    if UNFIT.search(said.text):
        raise Unready(f"the libraries below it weren't built over each other; {BUILD}")
    fault = said.fault()
    if fault:
        return {name: (Verdict.NONE, fault) for name in functions}
    told = dict(re.findall(rf"^fn {crate}::(\S+): (.*)$", said.text, re.M))
    return {
        name: together([judged(told.get(each, "")) for each in changed])
        for name, changed in functions.items()
    }


def judged(words: str) -> Judgement:
    """The verdict of what is said of one function.

    What else it says of one that calls an unproved function may be for that alone.
    """
    if words == "proved":
        return Verdict.PROVED, words
    if re.search(r"\bit calls `.*`, which (?:is|are) not proved", words):
        return Verdict.WAITS, words
    if words == "not proved" or re.match("no proof: .*did not prove", words):
        return Verdict.REFUSED, words
    return Verdict.NONE, words or "the checker says nothing of the function that it changes"


def together(found: Sequence[Judgement]) -> Judgement:
    """The verdict on an edit, of those of its functions: it is refused where one of them is."""
    for kind in (Verdict.REFUSED, Verdict.NONE, Verdict.WAITS):
        for verdict in found:
            if verdict[0] is kind:
                return verdict
    return found[0]


# ---- a check


def all_of(process: subprocess.Popen[str]) -> str:
    """Read what a process prints to its end."""
    assert process.stdout is not None
    with process.stdout as stream:
        return stream.read()


class Checker:
    """Checks crates with edits. Once it is stopped, no check goes on and none begins."""

    def __init__(self, clone: Clone) -> None:
        self.clone = clone
        self.running: set[subprocess.Popen[str]] = set()
        self.is_stopped = False
        self.lock = threading.Lock()

    def stop(self) -> None:
        with self.lock:
            self.is_stopped = True
            for process in self.running:
                os.killpg(process.pid, signal.SIGKILL)

    def check(self, crate: str, each: Round, kept: str) -> Said:
        """What the checker says of a crate's functions with the edits of a round.

        What it proves it keeps in a folder.
        """
        with tempfile.TemporaryDirectory(prefix="edit-") as room:
            folder = self.clone.crates / crate
            for part in (part for part in PARTS if (folder / part).is_dir()):
                shutil.copytree(folder / part, Path(room, part))
            for path, text in each.texts.items():
                Path(room, path).write_text(text)
            functions = dict.fromkeys(
                name for changed in each.functions.values() for name in changed
            )
            return self.run([*self.clone.words(crate, functions), "--incremental", kept], room)

    def run(self, words: Sequence[str], folder: str) -> Said:
        """What a command prints and takes, in a group of its own, so that all that it starts can be
        ended.
        """
        with self.lock:
            if self.is_stopped:
                raise Unready("it was stopped")
            process = subprocess.Popen(
                words,
                cwd=folder,
                stdin=subprocess.DEVNULL,
                stdout=subprocess.PIPE,
                stderr=subprocess.STDOUT,
                text=True,
                errors="replace",
                start_new_session=True,
            )
            self.running.add(process)
        text = all_of(process)
        with self.lock:
            self.running.discard(process)
        _, status, used = os.wait4(process.pid, 0)
        process.returncode = os.waitstatus_to_exitcode(status)
        return Said(text, process.returncode, used.ru_utime + used.ru_stime, used.ru_maxrss)
