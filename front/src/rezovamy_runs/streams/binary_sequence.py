"""The binaries of a run one after the other, and announcements that a test may have printed.

Cargo announces a binary once the one before it has ended. Where tests of that one run, they have
ended with their process, or one of them prints the announcement, as a test does that runs cargo
itself. A line that only such a test can have tells: then a test has printed all that came since.
"""

from __future__ import annotations

import dataclasses

from rezovamy_runs.streams import verdicts
from rezovamy_runs.streams.messages import TestEvent
from rezovamy_runs.streams.run_state import RunState
from rezovamy_runs.streams.targets import Target, matches_hint
from rezovamy_runs.streams.test_runs import BinaryRun, Mark, Suite, TestRun


@dataclasses.dataclass(frozen=True)
class Checkpoint:
    """What targets were left when a line was read, to which a test's own announcement goes back."""

    waiting: dict[str, Target]
    documented: set[tuple[str | None, str]]


@dataclasses.dataclass(frozen=True)
class UnconfirmedAnnouncement:
    """A binary whose tests ran when another one was announced, and what there was at that place.

    `lines` and the fields after it count what there was of each then.
    """

    binary: BinaryRun
    mark: Mark
    checkpoint: Checkpoint
    lines: int
    build_errors: int
    other_text: int


@dataclasses.dataclass(frozen=True)
class KeptLine:
    """A line that came while an announcement was unconfirmed, and whether it was printed."""

    text: str
    is_printed: bool


class BinarySequence:
    """Begins the binaries of a run, and judges each once it is known to have ended.

    `unconfirmed` are announcements of which nothing shows yet who made them, the latest last, and
    `lines` what came since the first of them.
    """

    def __init__(self, run: RunState) -> None:
        self.run = run
        self.unconfirmed: list[UnconfirmedAnnouncement] = []
        self.lines: list[KeptLine] = []

    def start(self, target: Target | None = None) -> BinaryRun:
        """Begin a binary, and judge the one before unless that may go on."""
        run, last = self.run, self.run.last_binary
        if last and not self.is_unconfirmed(last):
            verdicts.judge(run, last, run.silent_ending())
        if target and any(binary.id == target.id for binary in run.binaries):
            retried = "what failed is tried again, and other tests are started anew"
            run.warn(f"{target.id} runs again; {retried}")
        return run.add_binary(target)

    def checkpoint(self) -> Checkpoint:
        """Return what targets are left."""
        return Checkpoint(dict(self.run.targets.waiting), set(self.run.targets.documented))

    def announce(self, target: Target, before: Checkpoint) -> None:
        """Begin a binary that cargo announces, or a test that runs."""
        run, last = self.run, self.run.last_binary
        run.has_announcements = True
        is_open = last and last.suite and last.running() and not last.failed_at
        if last and is_open and not self.is_unconfirmed(last):
            counts = len(self.lines), len(run.build.errors), len(run.build.other_text)
            now = run.timeline.now()
            self.unconfirmed.append(UnconfirmedAnnouncement(last, now, before, *counts))
        self.start(target)

    def keep_line(self, line: str) -> None:
        """Keep a line that comes while an announcement is unconfirmed."""
        if self.unconfirmed:
            self.lines.append(KeptLine(line, self.run.is_printed))

    def is_unconfirmed(self, binary: BinaryRun) -> bool:
        """Return whether a binary may go on, although another one was announced."""
        return any(one.binary is binary for one in self.unconfirmed)

    def unconfirmed_tests(self) -> list[TestRun]:
        """Return the tests that ran in the binaries that may go on."""
        return [test for one in self.unconfirmed for test in one.binary.running()]

    def check_test(self, event: TestEvent) -> None:
        """Go back to the binary of which a test's event shows that it goes on, if there is one."""
        last = self.run.binaries[-1]
        # What a test that runs prints is no sign.
        if not self.unconfirmed or last.running():
            return
        if last.suite and (event.kind == "started" or event.name in last.suite.by_name):
            return
        fitting = (one for one in reversed(self.unconfirmed) if fits(one.binary.suite, event))
        found = next(fitting, None)
        if found:
            self.roll_back(found)

    def check_failure(self, hint: str) -> None:
        """Go back to the binary of which cargo says that it failed, if there is one."""
        last = self.run.last_binary if self.unconfirmed else None
        if last is None or last.running() or last.target is None or matches_hint(last.target, hint):
            return
        newest_first = reversed(self.unconfirmed)
        fitting = (one for one in newest_first if matches_hint(one.binary.target, hint))
        found = next(fitting, None)
        if found:
            self.roll_back(found)

    def roll_back(self, announcement: UnconfirmedAnnouncement) -> None:
        """Take back all that came since an announcement: a test of its binary has printed it."""
        run, binary = self.run, announcement.binary
        place = run.binaries.index(binary) + 1
        printed_from = f"printed what stands from line {announcement.mark.line} on"
        run.warn(f"{binary.id} goes on: one of its tests {printed_from} as if cargo said it")
        tests = [test for other in run.binaries[place:] for test in other.tests()]
        for test in reversed(tests):
            run.timeline.remove_attempt(test)
        del run.binaries[place:]
        del run.build.errors[announcement.build_errors :]
        del run.build.other_text[announcement.other_text :]
        run.build.is_failing = False
        before = announcement.checkpoint
        run.targets.restore(before.waiting, before.documented)
        del self.unconfirmed[self.unconfirmed.index(announcement) :]
        lines = self.lines[announcement.lines :]
        self._forget_lines()
        for line in lines:
            binary.text.append(line.text)
            if not line.is_printed:
                run.print_text(line.text)

    def confirm(self, since: BinaryRun | None = None) -> None:
        """Judge the binaries of which nothing has shown that they went on.

        It is all of them, or those since one.
        """
        places = (place for place, one in enumerate(self.unconfirmed) if one.binary is since)
        place = next(places, 0)
        for one in self.unconfirmed[place:]:
            one.binary.replaced_at = one.mark
            verdicts.judge(self.run, one.binary, self.run.silent_ending())
        del self.unconfirmed[place:]
        self._forget_lines()

    def confirm_for(self, test: TestRun) -> bool:
        """Judge the binary in which a test runs, where it is an unconfirmed one; whether it was."""
        binaries = (one.binary for one in self.unconfirmed)
        found = next((binary for binary in binaries if test in binary.tests()), None)
        if found:
            self.confirm(found)
        return found is not None

    def _forget_lines(self) -> None:
        """Forget the lines that were kept, once nothing is unconfirmed."""
        if not self.unconfirmed:
            self.lines = []


def fits(suite: Suite | None, event: TestEvent) -> bool:
    """Return whether a suite has this event: a test that runs ends, or one to come starts."""
    if suite is None:
        return False
    test = suite.by_name.get(event.name)
    if event.kind == "started":
        return test is None and suite.unseen() > 0
    return test is not None and test.is_running()
