"""Finds the descendants of this process, and kills them.

A process that adopts orphans becomes the parent of each descendant whose parent has died, whatever
its session is. So killing all children until there are none kills all descendants.
"""

from __future__ import annotations

import contextlib
import ctypes
import os
import pathlib
import signal
import time
from collections.abc import Collection

PR_SET_PDEATHSIG = 1
PR_SET_CHILD_SUBREAPER = 36
# How many seconds a process has to die after SIGKILL. One that waits for a broken disk may never.
LONGEST_DEATH = 5.0
PAUSE = 0.001

_libc = ctypes.CDLL(None, use_errno=True)


def _prctl(option: int, value: int) -> None:
    """Change a property of this process."""
    if _libc.prctl(option, value, 0, 0, 0):
        code = ctypes.get_errno()
        raise OSError(code, os.strerror(code))


def adopt_orphans() -> None:
    """Become the parent of descendants whose parents die."""
    _prctl(PR_SET_CHILD_SUBREAPER, 1)


def ask_for_signal_at_death_of_parent(number: int) -> None:
    """Let the system send this process a signal when its parent dies."""
    _prctl(PR_SET_PDEATHSIG, number)


def children() -> set[int]:
    """Return the ids of this process's children, of which some may have ended."""
    found: set[int] = set()
    for task in pathlib.Path("/proc/self/task").iterdir():
        with contextlib.suppress(OSError):
            found.update(map(int, (task / "children").read_text().split()))
    return found


def _has_ended(child: int) -> bool:
    """Tell whether a child has ended, and reap it then."""
    try:
        return os.waitpid(child, os.WNOHANG)[0] == child
    except ChildProcessError:
        return True


def _kill(child: int) -> None:
    """Kill a child, with its group if it leads one."""
    for kill in (os.killpg, os.kill):
        with contextlib.suppress(OSError):
            kill(child, signal.SIGKILL)


def kill_descendants(spared: Collection[int] = ()) -> int:
    """Kill all descendants except some children, and return how many processes that were.

    A process of another user, or one that doesn't die within some seconds, is left.
    """
    killed: set[int] = set()
    deadline = time.monotonic() + LONGEST_DEATH
    while time.monotonic() < deadline:
        left = {child for child in children().difference(spared) if not _has_ended(child)}
        if not left:
            # The children of those that have just ended are children now.
            if not children().difference(spared):
                break
            continue
        killed |= left
        for child in left:
            _kill(child)
        time.sleep(PAUSE)
    return len(killed)
