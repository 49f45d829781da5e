"""Runs a program that isn't a test, as cargo while it builds."""

from __future__ import annotations

from typing import NamedTuple

from rezovamy_runs.processes.child import STANDARD_OUTPUT, Consumer
from rezovamy_runs.processes.jobs import CancelReason, Exit, Program, Settings
from rezovamy_runs.processes.loop import Loop
from rezovamy_runs.processes.supervisor import Over, Supervisor


class CommandEnd(NamedTuple):
    """How a program ended, and whether a signal asked the front end to end meanwhile."""

    exit: Exit
    cancelled: CancelReason | None


def run_command(loop: Loop, program: Program, consumer: Consumer) -> CommandEnd:
    """Run a program until it ends, and call `consumer` with what it prints to standard output.

    It inherits standard error. Signals and pauses reach it as they reach tests. A process that it
    leaves running, as a server of a compiler, goes on. Raises OSError if it can't be started.
    """
    supervisor = Supervisor(loop, Settings(slots=1))
    supervisor.start(program, {STANDARD_OUTPUT: consumer})
    while True:
        for notice in supervisor.turn():
            if isinstance(notice, Over):
                return CommandEnd(notice.outcome, supervisor.cancelled)
