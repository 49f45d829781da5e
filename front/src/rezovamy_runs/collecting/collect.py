"""Builds the tests, finds out which there are, and makes the jobs that run them."""

from __future__ import annotations

import dataclasses
import os
import sys
import time
from collections.abc import Iterable, Iterator, Sequence

from rezovamy_runs.collecting import cargo_call, test_words
from rezovamy_runs.collecting.binaries import RUSTDOC_VARIABLE, Binaries, Binary
from rezovamy_runs.collecting.records import Records, own_environment
from rezovamy_runs.collecting.runners import Configuration
from rezovamy_runs.faults.fault import Fault
from rezovamy_runs.processes.command import run_command
from rezovamy_runs.processes.jobs import CancelReason, Exit, Job, Program
from rezovamy_runs.processes.loop import Loop
from rezovamy_runs.streams import messages
from rezovamy_runs.streams.messages import Artifact
from rezovamy_runs.streams.targets import own_names

LOG_FILE = "--logfile"
# How a line ends that names a test or a benchmark, which runs once here.
TERSE = (": test", ": benchmark")
STATUS_OF = {CancelReason.INTERRUPT: 130}
CANCELLED = 143


@dataclasses.dataclass(frozen=True)
class Listed:
    """A binary with its tests: those to run, the ignored ones, and how many it has in all.

    `total` is None where nothing was asked for less than all.
    """

    binary: Binary
    jobs: tuple[Job, ...]
    ignored: tuple[str, ...] = ()
    all_names: tuple[str, ...] = ()


class BuildFailed(Exception):
    """Cargo ended with a status, and has said why."""

    def __init__(self, status: int) -> None:
        super().__init__(status)
        self.status = status


@dataclasses.dataclass
class Collector:
    """Asks cargo and the binaries, as jobs of a loop.

    With `asks_for_all`, each binary is also asked for the tests that the words don't choose. Cargo
    took `build_seconds` in all to build.
    """

    loop: Loop
    asks_for_all: bool = False
    build_seconds: float = 0.0
    _has_log_file: bool | None = None

    def collect(self, words: Sequence[str]) -> list[Listed]:
        """Return what `cargo test` with these words would run."""
        read = cargo_call.read(words)
        configuration = Configuration(read)
        with Records(configuration.rustdoc()) as records:
            runners = configuration.runners()
            call = cargo_call.collecting_words(read, records.runner, runners)
            artifacts = self._build(call, records)
            binaries = Binaries(artifacts, runners)
            found = [binaries.of(one, configuration.rustdoc()) for one in records.calls()]
        return [self._listed(binary) for binary in found]

    def _build(self, call: Sequence[str], records: Records) -> list[Artifact]:
        """Let cargo build, and return what it says of the files that it made."""
        environment = {**own_environment(), RUSTDOC_VARIABLE: os.fsencode(records.rustdoc)}
        begin = time.monotonic()
        ended, printed = self._answer(Program(tuple(call), os.getcwd(), environment))
        self.build_seconds += time.monotonic() - begin
        artifacts, others = [], []
        for line in printed.decode("utf-8", "surrogateescape").splitlines(keepends=True):
            message = messages.parse(line)
            if isinstance(message, Artifact):
                artifacts.append(message)
            elif not line.startswith("{"):
                others.append(line)
        sys.stderr.write("".join(others))
        sys.stderr.flush()
        if not ended.is_success:
            raise BuildFailed(128 + (ended.signal or 0) if ended.status is None else ended.status)
        return artifacts

    def _answer(self, program: Program) -> tuple[Exit, bytes]:
        """Run a program, and return how it ended and what it printed to standard output."""
        printed = bytearray()
        ended, cancelled = run_command(self.loop, program, printed.extend)
        if cancelled:
            status = STATUS_OF.get(cancelled, CANCELLED)
            raise Fault("the run was broken off before a test ran, so nothing is recorded", status)
        return ended, bytes(printed)

    def _listed(self, binary: Binary) -> Listed:
        """Return the tests of a binary."""
        if not binary.has_libtest:
            return whole(binary)
        words = test_words.read(binary.words)
        names = self._names(binary, words.listing())
        if names is None:
            # It ends before it lists anything, and says why when it runs.
            return whole(binary)
        ignored = self._ignored(binary, words, names)
        chosen = [name for name in names if not words.only_ignored or name in ignored]
        runs_ignored = words.only_ignored or words.includes_ignored
        jobs = [
            self._job(binary, words, name, name in ignored)
            for name in chosen
            if runs_ignored or name not in ignored
        ]
        skipped = [name for name in chosen if name in ignored and not runs_ignored]
        total = self._all_names(binary) if self.asks_for_all else []
        return Listed(binary, tuple(jobs), tuple(skipped), tuple(total))

    def _ignored(
        self, binary: Binary, words: test_words.BinaryWords, names: Sequence[str]
    ) -> frozenset[str]:
        """Return which tests of the binary are ignored."""
        listed = self._names(binary, words.listing("--ignored")) if names else None
        return frozenset(listed or ())

    def _all_names(self, binary: Binary) -> list[str]:
        """Return the tests of the binary, with those that nothing chose."""
        return self._names(binary, test_words.BinaryWords().listing()) or []

    def _names(self, binary: Binary, words: Sequence[str]) -> list[str] | None:
        """Return the tests that the binary lists; None where it fails."""
        try:
            ended, printed = self._answer(binary.with_words(words))
        except OSError:
            return None
        return list(names_in(printed)) if ended.is_success else None

    def _job(
        self, binary: Binary, words: test_words.BinaryWords, name: str, is_ignored: bool
    ) -> Job:
        """Return the job that runs a test."""
        program = binary.with_words(words.of_test(name, is_ignored))
        return Job(binary.target.id, name, program, self._takes_log_file(binary))

    def _takes_log_file(self, binary: Binary) -> bool:
        """Tell whether libtest has the option for the log; all binaries have the same libtest."""
        if self._has_log_file is None:
            ended, printed = self._answer(binary.with_words(["--help"]))
            self._has_log_file = ended.is_success and LOG_FILE.encode() in printed
        return self._has_log_file


def names_in(printed: bytes) -> Iterator[str]:
    """Return the names in what a binary lists."""
    for line in printed.decode("utf-8", "surrogateescape").splitlines():
        ending = next((one for one in TERSE if line.endswith(one)), None)
        if ending:
            yield line.removesuffix(ending)


def whole(binary: Binary) -> Listed:
    """Return a binary that runs as one process, by its own name."""
    name = own_names(binary.target.id)[0]
    job = Job(binary.target.id, name, binary.whole, runs_tests=False)
    return Listed(binary, (job,), all_names=(name,))


def jobs_of(listed: Iterable[Listed]) -> list[Job]:
    """Return the jobs of all binaries."""
    return [job for one in listed for job in one.jobs]
