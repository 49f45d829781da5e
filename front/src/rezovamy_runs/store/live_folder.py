"""The folder of a run that goes on, and the bundle that it becomes.

`RUNID.live` holds `run`, the folder that the program's `live` makes; `lock`, which the writer and
`live` lock as long as they run; and `end`, the head that the run ended with. If nobody holds the
lock, the run was stopped, and whoever looks first packs what there is.
"""

from __future__ import annotations

import contextlib
import dataclasses
import fcntl
import os
import pathlib
import re
import shutil
import tempfile
import time
from collections.abc import Callable, Iterable
from typing import IO, TYPE_CHECKING

from rezovamy_runs import recorder
from rezovamy_runs.bundles import bundle
from rezovamy_runs.faults.fault import Fault
from rezovamy_runs.model import Status, Summary

if TYPE_CHECKING:
    from rezovamy_runs.store.run_folder import Store

ENDING = ".live"
RUN_ID = re.compile(r"[0-9a-f]{8}(?:-[0-9a-f]{4}){3}-[0-9a-f]{12}")
RECORDING, LOCK, END, BUNDLE = "run", "lock", "end", "bundle"
LOG = "run.log.zst"
# A folder without a recording has no writer any more; none takes that long to begin.
ABANDONED_AFTER = 24 * 3600


class LiveFolder:
    """The folder of one run."""

    def __init__(self, store: Store, run_id: str) -> None:
        self._store, self.run_id = store, run_id
        self.path = store.folder / f"{run_id}{ENDING}"
        self.recording = self.path / RECORDING

    def begin(self) -> IO[bytes]:
        """Make the folder, and return its lock, which is held until it is closed everywhere."""
        with self._store.writable():
            self.path.mkdir()
            lock = open(self.path / LOCK, "wb")
            fcntl.flock(lock, fcntl.LOCK_SH)
        return lock

    def has_events(self) -> bool:
        """Tell whether an event of the run is kept."""
        with contextlib.suppress(OSError):
            return (self.recording / LOG).stat().st_size > 0
        return False

    def finish(self, head: bytes) -> pathlib.Path:
        """Pack a run that has ended with this head, and return its bundle's path."""
        with contextlib.suppress(OSError):
            (self.path / END).write_bytes(head)
        self._pack(head)
        self.remove()
        return self._store.path_of(self.run_id)

    def settle(self) -> None:
        """Pack the run, whose writer is gone, or remove it if there is nothing to pack.

        The bundle is there already if only the removal was stopped.
        """
        if self._store.path_of(self.run_id).exists():
            self.remove()
        elif self.has_events():
            self._pack(self._end())
            self.remove()
        elif self.recording.exists() or self._is_abandoned():
            self.discard()

    def _end(self) -> bytes:
        """Return the head that the run ended with, nothing if it was stopped."""
        with contextlib.suppress(FileNotFoundError):
            return (self.path / END).read_bytes()
        return b""

    def _pack(self, head: bytes) -> None:
        """Make the run's bundle. What the program leaves after a fault takes no room."""
        made = self.path / BUNDLE
        try:
            with self._store.adding(self.run_id) as aside:
                recorder.run(["pack", str(self.recording), str(made)], input=head)
                recorder.refuse_missing(made)
                os.replace(made, aside)
        finally:
            for left in (made, made.with_name(f"{BUNDLE}.tmp")):
                left.unlink(missing_ok=True)

    def _is_abandoned(self) -> bool:
        """Tell whether nobody will begin to write into the folder any more."""
        return time.time() - self.path.stat().st_mtime > ABANDONED_AFTER

    def remove(self) -> None:
        """Remove the folder, its recording first."""
        for path in (self.recording, self.path):
            shutil.rmtree(path, ignore_errors=True)

    def discard(self) -> None:
        """Remove a run of which nothing is kept, with what is known of it besides."""
        self.remove()
        self._store.remove(self.run_id)

    def summary(self) -> Summary | None:
        """Return what there is of the run so far, None if it has just ended."""
        with tempfile.TemporaryDirectory() as folder:
            made = pathlib.Path(folder, BUNDLE)
            try:
                size = sum(path.stat().st_size for path in self.recording.iterdir())
                recorder.run(["pack", str(self.recording), str(made)], input=b"")
            except FileNotFoundError:
                return None
            except Fault:
                if self.recording.exists():
                    raise
                return None
            found = bundle.read_summary(made)
        elapsed = max(found.elapsed, time.time() - found.started)
        return dataclasses.replace(
            found, status=Status.RUNNING, bundle=self.recording, size=size, elapsed=elapsed
        )


def settle_all(store: Store, say: Callable[[str], object]) -> list[LiveFolder]:
    """Pack the runs that were stopped, and return those that go on.

    What can't be packed stays, and is a line for `say`.
    """
    paths = sorted(store.folder.glob(f"*{ENDING}"))
    found = [LiveFolder(store, path.stem) for path in paths if RUN_ID.fullmatch(path.stem)]
    return [folder for folder in found if goes_on(folder, say)]


def with_running(ended: list[Summary], going_on: Iterable[LiveFolder]) -> list[Summary]:
    """Return the runs that ended and those that go on, the latest first."""
    running = [folder.summary() for folder in going_on]
    # A run may end while they are looked at.
    found = {run.id: run for run in [*filter(None, running), *ended]}
    return sorted(found.values(), key=lambda run: (run.started, run.id), reverse=True)


def goes_on(folder: LiveFolder, say: Callable[[str], object]) -> bool:
    """Tell whether a run goes on; if it was stopped, it is packed."""
    try:
        with open(folder.path / LOCK, "rb+") as lock:
            if not locked_alone(lock):
                return folder.has_events()
            folder.settle()
    except FileNotFoundError:
        # Another command has packed it, or its writer is about to begin.
        pass
    except (Fault, OSError) as error:
        said = error if isinstance(error, Fault) else f"{error.strerror}; give access to it"
        say(f"run {folder.run_id} was stopped, and can't be packed: {said}")
    return False


def locked_alone(lock: IO[bytes]) -> bool:
    """Lock the folder against all others, and tell whether that succeeded: no writer is there.

    Another command that packs it just then is waited for.
    """
    while not is_locked(lock, fcntl.LOCK_EX):
        if is_locked(lock, fcntl.LOCK_SH):
            return False
        fcntl.flock(lock, fcntl.LOCK_SH)
        fcntl.flock(lock, fcntl.LOCK_UN)
    return True


def is_locked(lock: IO[bytes], how: int) -> bool:
    """Try to lock a file, and tell whether that succeeded."""
    try:
        fcntl.flock(lock, how | fcntl.LOCK_NB)
    except BlockingIOError:
        return False
    return True
