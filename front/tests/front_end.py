"""The front end as a process, with a folder of runs of its own."""

from __future__ import annotations

import dataclasses
import os
import pathlib
import signal
import subprocess
import sys
import time
from collections.abc import Callable
from typing import IO

from rezovamy_runs.store.ci_variables import SERVICES
from tests import FRONT, made

LONGEST_WAIT = 300


@dataclasses.dataclass
class FrontEnd:
    """Runs `rezovamy-runs` in a folder."""

    folder: pathlib.Path
    environment: dict[str, str]

    @property
    def runs(self) -> pathlib.Path:
        """The folder of recorded runs."""
        return pathlib.Path(self.environment["REZOVAMY_RUNS"])

    def words(self, *words: str) -> list[str]:
        """Return the words of a process."""
        return [sys.executable, str(FRONT / "rezovamy-runs"), *words]

    def run(
        self,
        *words: str,
        folder: str = ".",
        given: str | None = None,
        stdout: int | IO[bytes] = subprocess.PIPE,
        errors: str = "strict",
        before: Callable[[], object] | None = None,
    ) -> subprocess.CompletedProcess[str]:
        """Run a command to its end; it may be given an input, and something is done before it."""
        done = subprocess.run(
            self.words(*words),
            cwd=self.folder / folder,
            env=self.environment,
            input=given,
            stdout=stdout,
            stderr=subprocess.PIPE,
            text=True,
            errors=errors,
            preexec_fn=before,
            timeout=LONGEST_WAIT,
            check=False,
        )
        assert "Traceback" not in done.stderr, done.stderr
        return done

    def output(self, *words: str) -> str:
        """Return what a command prints that ends well and says nothing."""
        done = self.run(*words)
        assert (done.returncode, done.stderr) == (0, "")
        return done.stdout

    def run_without_reader(self, *words: str) -> subprocess.CompletedProcess[str]:
        """Run a command whose standard output nobody reads any more."""
        reading, writing = os.pipe()
        os.close(reading)
        with os.fdopen(writing, "wb") as stdout:
            return self.run(*words, stdout=stdout)

    def use_program(self, lines: str) -> None:
        """Let these lines of a shell stand in place of the program."""
        path = self.runs.parent / "program"
        path.write_text(f"#!/bin/sh\n{lines}\n")
        path.chmod(0o755)
        self.environment["REZOVAMY"] = str(path)

    def path_of(self, run_id: str) -> pathlib.Path:
        """Return the path of a run's bundle."""
        return self.runs / f"{run_id}.bundle"

    def interrupt(self, *words: str, once: Callable[[], bool]) -> subprocess.CompletedProcess[str]:
        """Run a command, which is broken off as by a key once something is so."""
        with subprocess.Popen(
            self.words(*words),
            cwd=self.folder,
            env=self.environment,
            text=True,
            stdout=subprocess.PIPE,
            stderr=subprocess.PIPE,
            preexec_fn=hear_interrupts,
        ) as process:
            until = time.monotonic() + LONGEST_WAIT
            while not once() and process.poll() is None and time.monotonic() < until:
                time.sleep(0.02)
            time.sleep(0.3)
            process.send_signal(signal.SIGINT)
            said, warned = process.communicate(timeout=LONGEST_WAIT)
        return subprocess.CompletedProcess(process.args, process.returncode, said, warned)

    def add(self, run_id: str, at: int, *results: object) -> None:
        """Add a run of the tests t0, t1 and so on, which ended so."""
        events, passed = [made.run_started(at)], results.count("pass")
        for place, result in enumerate(results):
            events += [
                made.started(at, f"t{place}"),
                made.finished(at + 1, f"t{place}", made.status(at, 1, result)),
            ]
        failed = len(results) - passed
        ended = made.completed(passed, failed, 101 if failed else 0)
        finished = made.run_finished(at + 1, 1)
        data = made.bundle(*events, finished, ended=ended, at=at, run_id=run_id)
        self.add_bundle(run_id, data)

    def add_bundle(self, run_id: str, data: bytes) -> None:
        """Add a bundle."""
        self.runs.mkdir(exist_ok=True)
        self.path_of(run_id).write_bytes(data)


def hear_interrupts() -> None:
    """Let a process be ended by a key, also where this one isn't."""
    signal.signal(signal.SIGINT, signal.default_int_handler)


def front_end_in(folder: pathlib.Path) -> FrontEnd:
    """Return a front end with a folder of its own, which is outside of a CI."""
    outside = {name: value for name, value in os.environ.items() if name not in SERVICES}
    return FrontEnd(folder, {**outside, "REZOVAMY_RUNS": str(folder / "runs"), "TZ": "UTC"})
