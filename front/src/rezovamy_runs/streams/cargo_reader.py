"""Reads what cargo says for people: which binary runs, and which target or build failed."""

from __future__ import annotations

from rezovamy_runs.escapes import without_escapes
from rezovamy_runs.streams import cargo_output
from rezovamy_runs.streams.binary_sequence import BinarySequence
from rezovamy_runs.streams.run_state import RunState
from rezovamy_runs.streams.targets import matches_hint
from rezovamy_runs.streams.test_runs import BinaryRun
from rezovamy_runs.streams.texts import printable, without_surrogates


class CargoReader:
    """Reads the lines of cargo's that are no JSON."""

    def __init__(self, run: RunState, sequence: BinarySequence) -> None:
        self.run, self.sequence = run, sequence

    def read(self, line: str) -> bool:
        """Take a line, if it says something of the run; return whether it did."""
        # A long line that has none of cargo's words takes no time then.
        has_words = any(word in line for word in cargo_output.WORDS)
        if not self.run.build.is_failing and not has_words:
            return False
        plain = without_escapes(line)
        if not self.run.is_nextest and self._read_announcement(plain):
            return True
        if self._read_failure(plain):
            return True
        self._read_build(plain)
        return False

    def _read_announcement(self, line: str) -> bool:
        """Take the announcement of a binary.

        Once cargo has named what it built, only such a target is believed. Before that, cargo's
        words have to stand alone in their line where tests run.
        """
        run, targets = self.run, self.run.targets
        announcement = cargo_output.announcement_of(line)
        if announcement is None:
            return False
        before = self.sequence.checkpoint()
        target = targets.announced(announcement)
        is_beside_text = announcement.text.strip() and not targets.are_named
        if target is None or is_beside_text and run.running():
            return False
        run.keep_before_event(announcement.text)
        self.sequence.announce(target, before)
        return True

    def _read_failure(self, line: str) -> bool:
        """Take what cargo says of a target that failed, and of how its process ended."""
        run, failure = self.run, cargo_output.FAILURE.fullmatch(line)
        if failure:
            hint = without_surrogates(failure[2])
            binary = self._failed_binary(hint) if run.targets.can_fail(hint) else None
            if binary is None:
                return False
            run.keep_text(failure[1])
            binary.failed_at = binary.failed_at or run.timeline.now()
        elif not self._read_cause(line):
            return False
        run.is_printed = True
        run.console.write(printable(line.rstrip()))
        return True

    def _failed_binary(self, hint: str) -> BinaryRun | None:
        """Return the binary that cargo says failed; None where a test that runs says so."""
        self.sequence.check_failure(hint)
        binary = self.run.last_binary
        if binary and not binary.has_ended_well() and matches_hint(binary.target, hint):
            return binary
        if self.run.running():
            return None
        return self.sequence.start(self.run.targets.failed(hint))

    def _read_cause(self, line: str) -> bool:
        """Take how the process of a binary ended that cargo says failed."""
        binary = self.run.last_binary
        if binary is None or not binary.failed_at or binary.ending:
            return False
        cause = cargo_output.CAUSE.fullmatch(line)
        if cause:
            binary.ending = cargo_output.ending_of(printable(cause[1]))
        return cause is not None

    def _read_build(self, line: str) -> None:
        """Take what cargo says of a build that failed, from the first error on; it stays text."""
        run, words = self.run, line.rstrip()
        before_tests = not run.binaries and cargo_output.ERROR.fullmatch(words)
        if before_tests or cargo_output.NOT_COMPILED.fullmatch(words) and run.is_idle():
            run.build.is_failing = True
            run.build.errors.append((run.timeline.now(), printable(line.strip())))
        if run.build.is_failing:
            run.build.text.append(line)
