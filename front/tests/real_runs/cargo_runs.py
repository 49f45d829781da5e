"""Runs of cargo over a copy of an example workspace."""

from __future__ import annotations

import contextlib
import dataclasses
import os
import pathlib
import shutil
import signal
import subprocess
import time
from collections.abc import Iterable, Iterator, Mapping, Sequence

from tests import EXAMPLES
from tests.front_end import hear_interrupts

EVENTS = ["-Z", "unstable-options", "--format", "json", "--report-time"]
NAMES = ["--message-format", "json-render-diagnostics"]
BUILT = shutil.ignore_patterns("target", "Cargo.lock")
LONGEST_WAIT = 120


@dataclasses.dataclass(frozen=True)
class Answer:
    """What cargo printed on both outputs, and its status."""

    lines: bytes
    status: int


@dataclasses.dataclass(frozen=True)
class Cargo:
    """Runs cargo in the folder of a workspace."""

    folder: pathlib.Path
    environment: Mapping[str, str]

    @property
    def target(self) -> pathlib.Path:
        """The folder in which cargo builds."""
        return pathlib.Path(self.environment["CARGO_TARGET_DIR"])

    def start(self, words: Sequence[str]) -> subprocess.Popen[bytes]:
        """Start a run whose outputs are one."""
        return subprocess.Popen(
            words,
            cwd=self.folder,
            env=self.environment,
            stdout=subprocess.PIPE,
            stderr=subprocess.STDOUT,
        )

    def answer(self, words: Sequence[str]) -> Answer:
        """Return what a run prints, and its status."""
        with self.start(words) as run:
            lines = run.communicate()[0]
        return Answer(lines, run.returncode)

    def live_lines(self, runs: Iterable[Sequence[str]]) -> Iterator[bytes]:
        """Return the lines of runs, one after the other, as they come."""
        for words in runs:
            with self.start(words) as run:
                assert run.stdout is not None
                yield from run.stdout

    def text(self, *words: str) -> str:
        """Return what `cargo test` prints for people."""
        return self.answer(["cargo", "test", *words]).lines.decode()

    def events(self, *words: str, tests: Sequence[str] = (), names: bool = True) -> Answer:
        """Return what `cargo test` prints as lines of events; it may name what it built."""
        return self.answer(event_words(words, tests, names))

    def forget_failure(self) -> None:
        """Let the flaky test fail at its next run."""
        (self.target / "tmp/has-failed").unlink(missing_ok=True)

    @contextlib.contextmanager
    def in_group(self, words: Sequence[str]) -> Iterator[subprocess.Popen[bytes]]:
        """Run words in a group of processes of its own, of which none is left."""
        run = subprocess.Popen(
            words,
            cwd=self.folder,
            env=self.environment,
            start_new_session=True,
            preexec_fn=hear_interrupts,
            stdout=subprocess.PIPE,
            stderr=subprocess.STDOUT,
        )
        with run:
            try:
                yield run
            finally:
                with contextlib.suppress(ProcessLookupError):
                    os.killpg(run.pid, signal.SIGKILL)


def cargo_in(folder: pathlib.Path, example: str) -> Cargo:
    """Return cargo over a copy of an example in a folder, which also takes what is built."""
    workspace = folder / example
    shutil.copytree(EXAMPLES / example, workspace, ignore=BUILT)
    own = {
        "RUSTC_BOOTSTRAP": "1",
        "RUST_TEST_THREADS": "2",
        "RUST_BACKTRACE": "0",
        "CARGO_TERM_COLOR": "never",
        "CARGO_TARGET_DIR": str(folder / "target"),
        "CARGO_NET_OFFLINE": "true",
        "CARGO_INCREMENTAL": "0",
    }
    return Cargo(workspace, {**os.environ, **own})


def event_words(words: Sequence[str], tests: Sequence[str] = (), names: bool = True) -> list[str]:
    """Return the words of a run that prints lines of events."""
    return ["cargo", "test", *(NAMES if names else []), *words, "--", *EVENTS, *tests]


def wait_for(path: pathlib.Path, words: bytes) -> None:
    """Wait until words stand in a file."""
    until = time.monotonic() + LONGEST_WAIT
    while not path.exists() or words not in path.read_bytes():
        assert time.monotonic() < until, f"{path} has no {words!r}"
        time.sleep(0.02)
