"""Runs the built program on the cases of `workshop/cases`, and prints only what is wrong.

    python3 -m workshop.try_cases [crates/rezovamy/out/rezovamy] [--only WORD]

Each case has words, standard input, and what must come of them: the status, standard output,
standard error and the file that is written. What is wanted was typed from docs/CLI.md and
docs/FORMATS.md, and not taken from what the program prints.
"""

from __future__ import annotations

import concurrent.futures
import contextlib
import dataclasses
import functools
import importlib
import os
import pkgutil
import subprocess
import sys
import tempfile
from collections.abc import Iterator
from pathlib import Path
from typing import IO

from rezovamy_runs.command_line import command_line, demand_program
from workshop import PROGRAM, cases
from workshop.cases.case import (
    Beside,
    Case,
    Endless,
    Given,
    Recorded,
    Sampled,
    Wanted,
    Words,
    Written,
    fits,
)

LONGEST_RUN = 120


@dataclasses.dataclass(frozen=True)
class Done:
    """What came of a run: what was printed where it is seen, and the file `b` where it is there."""

    status: int
    out: bytes
    err: bytes
    file: bytes | None


class Unusable(Exception):
    """Why a case can't be tried: what has to come before it failed."""


def all_cases() -> Iterator[tuple[str, Case]]:
    """Yield the cases of each module, with the module's name before theirs."""
    for found in pkgutil.iter_modules(cases.__path__):
        module = importlib.import_module(f"workshop.cases.{found.name}")
        for case in getattr(module, "CASES", []):
            yield f"{found.name}: {case.name}", case


@contextlib.contextmanager
def standard_error(device: str | None) -> Iterator[int | IO[bytes]]:
    """Open what a program writes its lines of faults to: a device, or a pipe that is read."""
    if device is None:
        yield subprocess.PIPE
    else:
        with open(device, "wb") as file:
            yield file


class Program:
    """The built program, run in a folder of its own for each case."""

    def __init__(self, path: Path) -> None:
        self.path = path.resolve()
        self.recorded = functools.cache(self.record)

    def run(self, words: Words, source: bytes | Endless, device: str | None = None) -> Done:
        """Run the program to its end."""
        with tempfile.TemporaryDirectory() as folder, standard_error(device) as stderr:
            done = self.completed(words, source, folder, stderr)
            file = Path(folder, "b")
            written = file.read_bytes() if file.exists() else None
            return Done(done.returncode, done.stdout, done.stderr or b"", written)

    def completed(
        self, words: Words, source: bytes | Endless, folder: str, stderr: int | IO[bytes]
    ) -> subprocess.CompletedProcess[bytes]:
        """Run the program on these bytes, or on a line that comes again and again."""
        command = [str(self.path), *words]
        if isinstance(source, bytes):
            return subprocess.run(
                command,
                cwd=folder,
                input=source,
                stdout=subprocess.PIPE,
                stderr=stderr,
                timeout=LONGEST_RUN,
            )
        with subprocess.Popen(["yes", source.line], stdout=subprocess.PIPE) as lines:
            return subprocess.run(
                command,
                cwd=folder,
                stdin=lines.stdout,
                stdout=subprocess.PIPE,
                stderr=stderr,
                timeout=LONGEST_RUN,
            )

    def record(self, wanted: Written) -> bytes:
        """Return a bundle that has to be written before a case."""
        done = self.run(*wanted.asked())
        if done.status != 0 or done.file is None:
            raise Unusable(f"the bundle of a case isn't written: {done.status} {done.err!r}")
        return done.file

    def source(self, given: Given) -> bytes | Endless:
        """Return what a case is given, for which a bundle may have to be written."""
        return self.recorded(given) if isinstance(given, (Recorded, Sampled)) else given

    def wanted_out(self, case: Case) -> Wanted:
        """Return what must be printed, for which what another input prints may be needed."""
        if not isinstance(case.out, Beside):
            return case.out
        done = self.run(case.words, case.out.input)
        if done.status != 0:
            raise Unusable(f"the other input of a case isn't taken: {done.status} {done.err!r}")
        return case.out.wanted(done.out)

    def faults(self, case: Case) -> list[str]:
        """Return what is wrong about a case."""
        try:
            return self.differences(case)
        except subprocess.TimeoutExpired as long:
            return [f"{long.cmd[1:]} takes more than {LONGEST_RUN} seconds"]

    def differences(self, case: Case) -> list[str]:
        """Return how what comes of a case differs from what must."""
        done = self.run(case.words, self.source(case.input), case.device)
        texts: list[tuple[str, Wanted | None, bytes | None]] = [
            ("standard output", self.wanted_out(case), done.out),
            ("standard error", case.err, done.err),
            ("the file", case.file, done.file),
        ]
        wrong = [(what, want, found) for what, want, found in texts if not fits(want, found)]
        faults = [f"{what} is {found!r} in place of {want!r}" for what, want, found in wrong]
        if done.status != case.status:
            faults.insert(0, f"status is {done.status!r} in place of {case.status!r}")
        return faults


def main() -> None:
    """Try the cases that are asked for."""
    parser = command_line(__doc__)
    parser.add_argument("program", nargs="?", default=PROGRAM, help="the built program")
    parser.add_argument(
        "--only", default="", metavar="WORD", help="the cases that have this word in their names"
    )
    asked = parser.parse_args()
    demand_program(parser, asked.program)
    chosen = [(name, case) for name, case in all_cases() if asked.only in name]
    if not chosen:
        parser.error(f"no case has {asked.only!r} in its name")
    program = Program(Path(asked.program))
    with concurrent.futures.ThreadPoolExecutor(os.cpu_count()) as pool:
        try:
            found = list(pool.map(lambda named: program.faults(named[1]), chosen))
        except Unusable as why:
            sys.exit(f"FAULT: {why}")
    for (name, _), faults in zip(chosen, found):
        for fault in faults:
            print(f"FAULT: {name}: {fault}")
    sys.exit(1 if any(found) else 0)


if __name__ == "__main__":
    main()
