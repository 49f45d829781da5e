"""Records a run while it goes on, by the program's `live`."""

from __future__ import annotations

import pathlib
import re
from collections.abc import Iterable
from typing import IO, Self

from rezovamy_runs import formatting
from rezovamy_runs import recorder
from rezovamy_runs.faults.fault import Fault
from rezovamy_runs.json_values import JsonObject
from rezovamy_runs.processes.feed import Feed
from rezovamy_runs.processes.loop import Loop
from rezovamy_runs.store.live_folder import LiveFolder
from rezovamy_runs.streams.session_json import text

# What a run prints goes to the disk at once, so no run is too long.
WITHOUT_LIMIT = ("--session-limit", str(2**63 - 1))
ACCEPTED = re.compile(rb"accepted=(\d+)\n\Z")


class LiveRecorder:
    """The recording of a run that goes on.

    The loop watches it between enter and exit, in which events come. If the recording fails, that
    is kept until `finish`, so that the tests can go on.
    """

    def __init__(self, loop: Loop, folder: LiveFolder, head: JsonObject) -> None:
        self._folder = folder
        self._feed: Feed | None = None
        self._lock: IO[bytes] | None = None
        self._fault: Fault | OSError | None = None
        self._events = 0
        try:
            self._lock = folder.begin()
            words = ["live", str(folder.recording), *WITHOUT_LIMIT]
            self._feed = Feed(loop, recorder.start(words, self._lock))
            self._feed.send(line_of(head))
        except (Fault, OSError) as error:
            self._fault = error

    def __enter__(self) -> Self:
        """Take events from now on."""
        return self

    def __exit__(self, *_: object) -> None:
        """Take no more events."""
        if self._feed:
            self._feed.leave()

    def write(self, events: Iterable[JsonObject]) -> None:
        """Record events."""
        for event in events:
            self._events += 1
            if self._feed:
                self._feed.send(line_of(event))

    def finish(self, head: JsonObject) -> pathlib.Path:
        """Pack the run, which has ended with this head, and return the path of its bundle.

        What failed meanwhile is raised. The folder then stays if it has events.
        """
        try:
            self._end_live()
            return self._folder.finish(line_of(head))
        except (Fault, OSError) as error:
            if not self._folder.has_events():
                self._folder.discard()
            raise Fault(f"{self._said(error)}{self._kept()}") from error
        finally:
            if self._lock:
                self._lock.close()

    def _end_live(self) -> None:
        """Wait for `live` to end, or raise why it failed."""
        if self._fault or not self._feed:
            raise self._fault or OSError("nothing records the run")
        status, said = self._feed.finish()
        if status:
            raise Fault(recorder.sentence(["live"], status, said.decode("utf-8", "replace")))

    def _said(self, error: Fault | OSError) -> str:
        """Say what failed, and what to do."""
        if isinstance(error, Fault):
            return str(error)
        do = "make room or give access, and run the tests again"
        return f"{self._folder.path} can't be written: {error.strerror or error}; {do}"

    def _kept(self) -> str:
        """Say how much of a run is kept that couldn't be recorded or packed."""
        found = ACCEPTED.search(self._feed.end_of_output) if self._feed else None
        kept = int(found[1]) if found else 0
        if not kept:
            return ""
        events = "all" if kept == self._events else str(kept)
        of = formatting.count(self._events, "event")
        return f"; {events} of {of} are kept, and `rezovamy-runs list` records these"


def line_of(value: JsonObject) -> bytes:
    """Return the line of a value."""
    return f"{text(value)}\n".encode()
