"""A run as its runner would have printed it.

That is its tests and their attempts with what they printed, and how it ended.
"""

from __future__ import annotations

import dataclasses
from collections.abc import Iterable, Iterator

from rezovamy_runs import formatting
from rezovamy_runs.model import (
    CANCELLED,
    WITHOUT_END,
    Attempt,
    Result,
    Run,
    Script,
    Stream,
    Test,
    TestName,
    Verdict,
)
from rezovamy_runs.quarantine import NOTHING, WORD, Quarantine
from rezovamy_runs.terminal import Colour, Paint

RESULTS: dict[Result, tuple[str, Colour]] = {
    Result.PASS: ("PASS", "green"),
    Result.LEAK: ("LEAK", "yellow"),
    Result.LEAK_FAIL: ("LEAK-FAIL", "red"),
    Result.FAIL: ("FAIL", "red"),
    Result.ABORT: ("ABORT", "red"),
    Result.TIMEOUT: ("TIMEOUT", "red"),
    Result.TIMEOUT_PASS: ("TIMEOUT-PASS", "yellow"),
    Result.EXEC_FAIL: ("EXEC-FAIL", "red"),
    Result.UNFINISHED: ("UNFINISHED", "yellow"),
}
STREAMS = {
    Stream.STDOUT: "standard output",
    Stream.STDERR: "standard error",
    Stream.COMBINED: "output",
}
NOTEWORTHY = (Verdict.FAIL, Verdict.FLAKY, Verdict.UNFINISHED)
SLOWEST = 5
# How many tests are named at the end of a run of those that never started.
MOST_NAMES = 20
INDENT = "    "
LONGEST_LINE = 2000


@dataclasses.dataclass(frozen=True)
class Printer:
    """Makes lines of a run.

    Outputs longer than `most_lines` lose their middle, if that is given, and so do very long
    lines. Without `with_outputs` no output is in the lines. Failures of tests in `quarantine` are
    told as such.
    """

    paint: Paint
    most_lines: int | None = None
    with_outputs: bool = True
    quarantine: Quarantine = NOTHING

    def head(self, run: Run, prefix: str) -> str:
        """Return a line that says which run it is."""
        command = formatting.name(" ".join(run.cli_args))
        ran = f": {command}" if command else ""
        profile = formatting.name(run.profile)
        started = formatting.moment(run.started)
        return f"{self.paint('bold', f'run {prefix}')} of {started}, profile {profile}{ran}"

    def rerun(self, run: Run, prefix: str) -> str:
        """Return a line that says which run ran something again of the one that is shown."""
        return f"again in {self.paint('bold', f'run {prefix}')} of {formatting.moment(run.started)}"

    def tests(self, tests: Iterable[Test]) -> Iterator[str]:
        """Return all tests in the order in which they ended."""
        for test in sorted(tests, key=ended):
            yield from self.test(test, True)

    def failures(self, tests: Iterable[Test]) -> Iterator[str]:
        """Return the tests that didn't simply pass, in the order of their names."""
        for test in sorted(tests, key=title_of):
            if test.verdict in NOTEWORTHY:
                yield from self.test(test, False)

    def test(self, test: Test, with_passed: bool) -> Iterator[str]:
        """Return the lines of a test, an attempt after the other.

        Outputs of an attempt that passed come if they are wanted.
        """
        title, entry = title_of(test), self.quarantine.entry_of(test.key)
        if test.verdict is Verdict.SKIP:
            yield f"{self.paint('yellow', 'SKIP')} {title} ({test.reason})"
        for attempt in test.attempts:
            was_retried = len(test.attempts) > 1 or attempt.total > 1
            tried = f"attempt {attempt.number} of {attempt.total}" if was_retried else ""
            excused = entry if not attempt.passed else None
            reason = formatting.name(excused.reason) if excused else ""
            told = [tried, attempt.detail, "slow" if attempt.is_slow else "", reason]
            said = ", ".join(filter(None, told))
            taken = "" if attempt.ended is None else f"{took(attempt)} "
            mark = f"{self.paint('yellow', WORD)} " if excused else ""
            yield f"{mark}{self.result(attempt)} {taken}{title}{f' ({said})' if said else ''}"
            if with_passed or not attempt.passed:
                yield from self.outputs(attempt)
        if test.flaky_fails and test.verdict is Verdict.FAIL and test.attempts[-1].passed:
            yield f"{INDENT}it passed at last, and flaky tests fail in this run"

    def never_started(self, run: Run) -> Iterator[str]:
        """Return the tests of a run that never started, as far as it names them."""
        names = run.never_started
        shown = names[:MOST_NAMES] if self.most_lines else names
        for key in shown:
            yield f"{self.paint('yellow', 'NEVER STARTED')} {name_of(key)}"
        if len(shown) < len(names):
            yield f".. {len(names) - len(shown)} more never started, {SHOWN_BY} .."

    def scripts(self, scripts: Iterable[Script], with_passed: bool) -> Iterator[str]:
        """Return the setup scripts that failed, or all."""
        for script in scripts:
            attempt = script.attempt
            if with_passed or not attempt.passed:
                detail = f" ({attempt.detail})" if attempt.detail else ""
                title = f"setup script {formatting.name(script.id)}"
                yield f"{self.result(attempt)} {took(attempt)} {title}{detail}"
                yield from self.outputs(attempt)

    def result(self, attempt: Attempt) -> str:
        """Return the word for how an attempt ended."""
        word, colour = RESULTS[attempt.result]
        return self.paint(colour, word)

    def outputs(self, attempt: Attempt) -> Iterator[str]:
        """Return what an attempt printed, and its errors where they don't stand there."""
        if not self.with_outputs:
            return
        printed = ""
        for stream, data in attempt.outputs.items():
            if data:
                text = formatting.output(data)
                printed += text
                yield f"  {self.paint('dim', STREAMS[stream] + cut_note(attempt, stream))}"
                yield from self.indented(text)
        lines = formatting.harmless(attempt.errors or "").split("\n")
        errors = [line for line in lines if line.strip() and line.strip() not in printed]
        if errors and not all_told(errors, printed):
            yield f"  {self.paint('dim', 'error')}"
            yield from self.indented("\n".join(errors))

    def indented(self, text: str) -> list[str]:
        """Return the lines of a text, each a bit to the right."""
        lines = text.rstrip("\n").split("\n")
        if self.most_lines and len(lines) > self.most_lines:
            half = self.most_lines // 2
            left_out = f"{len(lines) - 2 * half} lines are left out here"
            lines = [*lines[:half], f".. {left_out}, {SHOWN_BY} ..", *lines[-half:]]
        if self.most_lines:
            lines = [cut_middle(line) for line in lines]
        return [(INDENT + line).rstrip() for line in lines]

    def slowest(self, run: Run) -> list[str]:
        """Return the tests that took longest, where there is more than one."""
        finished = [test for test in run.tests if test.has_finished]
        tests = sorted(finished, key=lambda test: -test.seconds)[:SLOWEST]
        lines = [f"  {formatting.duration(test.seconds):>8}  {title_of(test)}" for test in tests]
        return ["slowest tests:", *lines] if len(tests) > 1 else []

    def end(self, run: Run) -> str:
        """Return a line that says how the run ended."""
        counts = run.counts
        flaky = f" ({counts.flaky} flaky)" if counts.flaky else ""
        parts = [self.paint("green", f"{counts.passed} passed{flaky}")]
        excused = self.quarantine.failed(run)
        failed = f"{counts.failed} failed{f' ({excused} in quarantine)' if excused else ''}"
        parts += [self.paint("red", failed)] if counts.failed else []
        parts += [self.paint("yellow", f"{counts.unseen} never ended")] if counts.unseen else []
        parts += [f"{counts.skipped} skipped"] if counts.skipped else []
        tests = formatting.count(counts.total, "test")
        taken = formatting.duration(run.elapsed)
        return f"{tests} in {taken}: {', '.join(parts)}{ending_of(run)}"


SHOWN_BY = "`rezovamy-runs show` has them"


def took(attempt: Attempt) -> str:
    """Return how long an attempt took, in brackets."""
    return f"[{formatting.duration(attempt.seconds)}]"


def cut_note(attempt: Attempt, stream: Stream) -> str:
    """Return what is said of an output that was cut when it was recorded."""
    whole = attempt.truncated.get(stream)
    return f", cut when it was recorded; it had {formatting.size(whole)}" if whole else ""


def cut_middle(line: str) -> str:
    """Return the line, without its middle where it is longer than anybody reads."""
    half = LONGEST_LINE // 2
    left_out = len(line) - 2 * half
    if left_out <= 0:
        return line
    note = f".. {left_out} characters are left out here, {SHOWN_BY} .."
    return f"{line[:half]} {note} {line[-half:]}"


def ending_of(run: Run) -> str:
    """Return what else there is to say of how a run ended."""
    if run.status in CANCELLED:
        return "; the run was broken off"
    return "; the recording stopped before the run ended" if run.status in WITHOUT_END else ""


def all_told(errors: Iterable[str], printed: str) -> bool:
    """Tell whether each word of the errors was printed, where a line of theirs is made of two."""
    return all(word in printed for line in errors for word in line.split())


def name_of(key: TestName) -> str:
    """Return what a test is called in a line."""
    return f"{formatting.name(key.binary)} {formatting.name(key.test)}"


def title_of(test: Test) -> str:
    """Return what a test is called in a line, with its sub-run."""
    sub_run = f" (sub-run {test.stress + 1})" if test.stress is not None else ""
    return f"{name_of(test.key)}{sub_run}"


def ended(test: Test) -> float:
    """Return where a test stands among the others: by its end, and without one after them."""
    end = test.attempts[-1].ended if test.attempts else 0.0
    return float("inf") if end is None else end
