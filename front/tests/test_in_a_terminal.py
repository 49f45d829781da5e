"""Real runs in a terminal: its keys, and what fits into its columns."""

from __future__ import annotations

import shlex
import uuid

import pytest

from tests.front_end import FrontEnd
from tests.opened_terminal import INTERRUPT, STOP, opened
from tests.stopped_runs import (
    ENDS,
    MARK,
    Marked,
    is_at,
    is_stopped,
    listed,
    told,
    wait_until,
)

pytestmark = [pytest.mark.cargo, pytest.mark.program]


def test_a_run_that_is_stopped_by_a_key_and_continued(endings: FrontEnd) -> None:
    """The shell has the terminal meanwhile, and the run goes on with `fg`."""
    mark = str(uuid.uuid4())
    with opened(endings.folder, {**endings.environment, MARK: mark}) as terminal:
        terminal.type(shlex.join(endings.words(*ENDS, "--exact", "hangs")) + "\n")
        run = Marked(mark)
        first = run.wait_for("rezovamy-runs test")
        test = run.wait_for("hangs --logfile")
        wait_until(lambda: is_at(endings, unended=1))
        terminal.type(STOP)
        wait_until(lambda: is_stopped(first) and is_stopped(test))
        terminal.type("echo the shell is $((6 * 7))\n")
        terminal.wait_for("the shell is 42")
        assert is_stopped(first)
        terminal.type("fg\n")
        wait_until(lambda: not is_stopped(first) and not is_stopped(test))
        terminal.type(INTERRUPT)
        terminal.wait_for("recorded as ")
    [run_of_list] = listed(endings)
    assert told(run_of_list, "status", "exit-code") == ("cancelled", 130)
