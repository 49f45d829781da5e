"""Records a session that is there as a whole, once its run has ended."""

from __future__ import annotations

import pathlib
import subprocess
from typing import Protocol

from rezovamy_runs import recorder
from rezovamy_runs.store.run_folder import Store


class Session(Protocol):
    """What a run is recorded from: lines of JSON, a line for each event."""

    @property
    def run_id(self) -> str:
        """Return the id of the run."""

    @property
    def data(self) -> bytes:
        """Return the lines."""


def record(store: Store, session: Session) -> pathlib.Path:
    """Record a session, and return its bundle's path. After a fault the folder is as it was."""
    with store.adding(session.run_id) as aside:
        words = ["record", str(aside), *recorder.limits(3 * len(session.data))]
        recorder.run(words, input=session.data, stdout=subprocess.DEVNULL)
        recorder.refuse_missing(aside)
    return store.path_of(session.run_id)
