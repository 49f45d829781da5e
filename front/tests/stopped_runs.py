"""Real runs that are stopped, and what is left of them."""

from __future__ import annotations

import contextlib
import dataclasses
import json
import os
import pathlib
import signal
import subprocess
import time
import uuid
from collections.abc import Callable, Iterator

from tests.front_end import FrontEnd

LONGEST_WAIT = 120.0
MARK = "REZOVAMY_TEST_MARK"
ENDS = ("test", "--", "-p", "ways", "--test", "ends", "--")


def wait_until(holds: Callable[[], bool], longest: float = LONGEST_WAIT) -> None:
    """Wait until something holds."""
    deadline = time.monotonic() + longest
    while not holds():
        assert time.monotonic() < deadline
        time.sleep(0.02)


@dataclasses.dataclass
class Marked:
    """Processes that are known by a mark in their environment."""

    mark: str

    def processes(self) -> dict[int, str]:
        """Return the command lines of the processes that haven't ended, by their ids."""
        found = {}
        for folder in pathlib.Path("/proc").glob("[0-9]*"):
            with contextlib.suppress(OSError):
                if f"{MARK}={self.mark}".encode() in (folder / "environ").read_bytes().split(b"\0"):
                    words = (folder / "cmdline").read_bytes().decode().split("\0")
                    found[int(folder.name)] = " ".join(words).strip()
        return found

    def find(self, part: str) -> int | None:
        """Return the id of a process with this part in its command line, None without one."""
        found = [process for process, words in self.processes().items() if part in words]
        return min(found, default=None)

    def wait_for(self, part: str) -> int:
        """Wait for a process with this part in its command line, and return its id."""
        wait_until(lambda: self.find(part) is not None)
        found = self.find(part)
        assert found is not None
        return found

    def kill_all(self) -> None:
        """Kill what hasn't ended."""
        for process in self.processes():
            with contextlib.suppress(ProcessLookupError):
                os.kill(process, signal.SIGKILL)


@dataclasses.dataclass
class StartedRun(Marked):
    """A run in a process group of its own."""

    process: subprocess.Popen[str]

    def wait_for(self, part: str) -> int:
        """Wait as long as the run goes on."""
        wait_until(lambda: self.find(part) is not None or self.process.poll() is not None)
        found = self.find(part)
        assert found is not None, self.process.communicate()
        return found

    def worker(self) -> int:
        """Return the id of the second process of the front end."""
        children = pathlib.Path(f"/proc/{self.process.pid}/task/{self.process.pid}/children")
        return int(children.read_text().split()[0])

    def kill(self, victim: str) -> None:
        """Kill the first process, the worker, or the whole group."""
        if victim == "group":
            os.killpg(self.process.pid, signal.SIGKILL)
        else:
            os.kill(self.worker() if victim == "worker" else self.process.pid, signal.SIGKILL)


@contextlib.contextmanager
def started(front_end: FrontEnd, *words: str) -> Iterator[StartedRun]:
    """Start a run, and leave nothing of it behind."""
    mark = str(uuid.uuid4())
    process = subprocess.Popen(
        front_end.words(*words),
        cwd=front_end.folder,
        env={**front_end.environment, MARK: mark},
        stdout=subprocess.PIPE,
        stderr=subprocess.PIPE,
        text=True,
        process_group=0,
    )
    run = StartedRun(mark, process)
    with process:
        try:
            yield run
        finally:
            # Before its end is waited for, also after a failed test.
            run.kill_all()
    run.kill_all()


def listed(front_end: FrontEnd) -> list[dict[str, object]]:
    """Return what `list` tells of the runs, the latest first."""
    return [dict(run) for run in json.loads(front_end.output("list", "--json"))]


def told(run: dict[str, object], *names: str) -> tuple[object, ...]:
    """Return what `list` tells of a run."""
    return tuple(run[name] for name in names)


def is_at(front_end: FrontEnd, **counts: int) -> bool:
    """Tell whether the one run goes on, and is as far as these counts say."""
    return [told(run, "status", *counts) for run in listed(front_end)] == [
        ("running", *counts.values())
    ]


def is_stopped(process: int) -> bool:
    """Tell whether a process is stopped."""
    state = pathlib.Path(f"/proc/{process}/stat").read_text().rpartition(")")[2].split()[0]
    return state == "T"
