"""Runs the front end as two processes, so that nothing is left whichever of them dies.

The first one, whose id the user knows, waits and passes signals on. The second one, the worker,
does everything else, in a group of its own. Both adopt orphans. If the first one dies, the system
tells the worker, which kills its descendants and ends. If the worker dies, its descendants become
those of the first one, which kills them.
"""

from __future__ import annotations

import contextlib
import os
import signal
import sys
import traceback
from collections.abc import Callable
from types import FrameType

from rezovamy_runs.processes.descendants import (
    adopt_orphans,
    ask_for_signal_at_death_of_parent,
    children,
    kill_descendants,
)

PASSED_ON = {signal.SIGINT, signal.SIGTERM, signal.SIGHUP, signal.SIGTSTP}
# What tells the worker that the first process has died.
FIRST_DIED = signal.SIGRTMIN


def caught_signals() -> set[signal.Signals]:
    """Return the signals to handle. Those that were ignored at the start, as by `nohup`, aren't."""
    caught = {number for number in PASSED_ON if signal.getsignal(number) is not signal.SIG_IGN}
    # Ignored or not, this one continues a process.
    return caught | {signal.SIGCONT}


def guarded(work: Callable[[], int]) -> int:
    """Do the work in a second process, and return its exit status.

    The status is -N if signal N killed the worker. No process of the work is left then.
    """
    _open_standard_streams()
    sys.stdout.flush()
    sys.stderr.flush()
    # If it were ignored, nobody could be waited for.
    signal.signal(signal.SIGCHLD, signal.SIG_DFL)
    caught, first = caught_signals(), os.getpid()
    adopt_orphans()
    others = children()
    mask = signal.pthread_sigmask(signal.SIG_BLOCK, {*caught, signal.SIGCHLD})
    worker = os.fork()
    if worker == 0:
        _work(work, first, mask)
    # The worker does the same: its group is there before either goes on.
    with contextlib.suppress(OSError):
        os.setpgid(worker, worker)
    status = _wait_for(worker, caught)
    if status < 0:
        kill_descendants(others)
    signal.pthread_sigmask(signal.SIG_SETMASK, mask)
    return status


def _open_standard_streams() -> None:
    """Open `/dev/null` in place of standard streams that are closed.

    A pipe could have their descriptors otherwise.
    """
    descriptor = os.open(os.devnull, os.O_RDWR)
    while descriptor <= 2:
        os.set_inheritable(descriptor, True)
        descriptor = os.open(os.devnull, os.O_RDWR)
    os.close(descriptor)


def _work(work: Callable[[], int], first: int, mask: set[int | signal.Signals]) -> None:
    """Be the worker, and end with the status of the work."""
    status = 1
    try:
        os.setpgid(0, 0)
        adopt_orphans()
        signal.signal(FIRST_DIED, _end_all)
        ask_for_signal_at_death_of_parent(FIRST_DIED)
        if os.getppid() != first:
            _end_all()
        # A background group may write to a terminal, whatever `stty tostop` says.
        signal.signal(signal.SIGTTOU, signal.SIG_IGN)
        signal.pthread_sigmask(signal.SIG_SETMASK, mask)
        status = work()
    except SystemExit as ended:
        status = ended.code if isinstance(ended.code, int) else int(ended.code is not None)
    except BaseException:
        traceback.print_exc()
        kill_descendants()
    finally:
        with contextlib.suppress(OSError, ValueError):
            sys.stdout.flush()
        with contextlib.suppress(OSError, ValueError):
            sys.stderr.flush()
        os._exit(status & 0xFF)


def _end_all(_number: int = 0, _frame: FrameType | None = None) -> None:
    """Kill all descendants, and end this process."""
    kill_descendants()
    os._exit(1)


def _wait_for(worker: int, caught: set[signal.Signals]) -> int:
    """Pass signals on, and stop and go on with the worker, until it has ended."""
    while True:
        number = signal.sigwait({*caught, signal.SIGCHLD})
        if number != signal.SIGCHLD:
            os.kill(worker, number)
            continue
        ended, state = os.waitpid(worker, os.WNOHANG | os.WUNTRACED)
        if ended and os.WIFSTOPPED(state):
            # SIGCONT is passed on like any other signal. To stop would drop one that is pending.
            if signal.SIGCONT not in signal.sigpending():
                os.kill(os.getpid(), signal.SIGSTOP)
        elif ended:
            return os.waitstatus_to_exitcode(state)
