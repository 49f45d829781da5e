"""What becomes of a fault: one line, and the exit status."""

from __future__ import annotations

import sys
from collections.abc import Callable

from rezovamy_runs.command_line import discard, say
from rezovamy_runs.faults.fault import Fault

PROGRAM = "rezovamy-runs"
WRONG_WORDS, INTERRUPTED, BROKEN_PIPE = 2, 130, 141


def give_up_output() -> None:
    """Let nothing more be written to standard output, where it can't be."""
    if sys.stdout is not None:
        discard(sys.stdout)


def complain(line: str) -> None:
    """Say a fault, where somebody listens."""
    try:
        say(f"{PROGRAM}: {line}")
    except (OSError, ValueError):
        pass


def told(status: int) -> int:
    """Return the status as a process can tell it, by one byte; none but 0 becomes 0."""
    return status & 255 or int(status != 0)


def answer(work: Callable[[], int]) -> int:
    """Do the work, and return its status as a process tells it; a fault is one line."""
    try:
        status = work()
        if sys.stdout is not None:
            sys.stdout.flush()
        return told(status)
    except Fault as fault:
        complain(str(fault))
        return told(fault.status)
    except BrokenPipeError:
        give_up_output()
        return BROKEN_PIPE
    except KeyboardInterrupt:
        complain("broken off")
        return INTERRUPTED
    except OSError as error:
        give_up_output()
        where = error.filename or "standard output or a file"
        complain(
            f"{where} can't be read or written: {error.strerror or error}; "
            "make room or give access, and try again"
        )
        return 1
