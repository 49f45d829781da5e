"""Runs that are broken off while a test hangs."""

from __future__ import annotations

import os
import signal

from tests.real_runs.cargo_runs import LONGEST_WAIT, Answer, Cargo, event_words, wait_for
from tests.real_runs.sessions import TOOL, Session

HANGS = event_words(["-p", "ends", "--test", "hangs"], ["--ignored"])
STARTED = b'"event": "started", "name": "hangs"'


def interrupted_run(cargo: Cargo, number: signal.Signals) -> Session:
    """Return the session of a run that a signal ends, as of the keyboard or of a CI.

    The signal comes to all that runs.
    """
    lines, session, said = (
        cargo.folder / f"{number.name}.{what}" for what in ("lines", "session", "said")
    )
    script = f'"$@" 2>&1 | tee {lines} | {TOOL} > {session} 2> {said}'
    with cargo.in_group(["bash", "-c", script, "bash", *HANGS]) as shell:
        wait_for(lines, STARTED)
        wait_for(said, b"Finished")
        os.killpg(shell.pid, number)
        wait_for(said, b"broken off")
        wait_for(session, b"run-finished")
        shell.wait(LONGEST_WAIT)
    return Session.of(session.read_bytes())


def killed_run(cargo: Cargo) -> Answer:
    """Return the lines of a run in which cargo and the test are killed."""
    lines = []
    with cargo.in_group(HANGS) as run:
        assert run.stdout is not None
        for line in run.stdout:
            lines.append(line)
            if STARTED in line:
                break
        assert STARTED in lines[-1], "no test hangs"
        os.killpg(run.pid, signal.SIGKILL)
        lines += run.stdout.readlines()
        status = run.wait(LONGEST_WAIT)
    return Answer(b"".join(lines), 128 - status)
