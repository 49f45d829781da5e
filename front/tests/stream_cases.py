"""Streams that are told in brief, and the events that come of them."""

from __future__ import annotations

import dataclasses

from tests.stream_notation import (
    CAUSE,
    CRASHED,
    DOC,
    FAILED,
    INNER,
    INTEGRATION,
    NOT_BUILT,
    OTHER,
    UNIT,
    counted,
)


@dataclasses.dataclass(frozen=True)
class Case:
    """A stream, the events that it gives without a clock, and how many lines are said of them.

    The status is what cargo answered, None where that isn't known.
    """

    words: str
    events: str
    said: int = 0
    status: int | None = None

    @property
    def options(self) -> list[str]:
        """The words of the script."""
        return [] if self.status is None else ["--status", str(self.status)]


CASES = {
    "a short test ends last": Case(
        "suite 3 > started x > started y > ok x 1 > started z > ok z 1 > failed y 0.5 > end",
        (
            "started x 0 > started y 1 > finished y failed > finished x passed > started z 0 > "
            "finished z passed > 3 of 3"
        ),
    ),
    "a long test ends last": Case(
        "suite 3 > started x > started y > ok x 1 > started z > ok z 1 > failed y 5 > end",
        (
            "started x 0 > started y 1 > finished x passed > started z 0 > finished z passed > "
            "finished y failed > 3 of 3"
        ),
    ),
    "ignored tests of two suites": Case(
        "suite 1 > started x > ignored x > end > suite 1 > started x > ignored x > end",
        "skipped x > skipped x > 0 of 0",
    ),
    "a second start is text": Case(
        "suite 1 > started x > started x > ok x > end",
        "started x 0 > finished x passed > 1 of 1",
        said=2,
    ),
    "a suite without tests": Case(
        "suite 0 > end",
        "0 of 0",
    ),
    "a test takes too long": Case(
        (
            "suite 1 > started x > "
            '={"type":"test","event":"failed","name":"x","reason":"time limit exceeded"} > end'
        ),
        "started x 0 > finished x failed-timed-out > 1 of 1",
    ),
    "a slow test passes": Case(
        "suite 1 > started x > timeout x > ok x 70 > end",
        "started x 0 > slow x > finished x passed > 1 of 1",
    ),
    "JSON that is no event": Case(
        (
            'suite 1 > started x > =ok > =[] > ={} > = > ={"type":[]} > '
            '={"type":"test","event":"ok","name":1} > ok x -1 > end'
        ),
        "started x 0 > finished x passed > 1 of 1",
        said=7,
    ),
    "deep JSON and a name that is no text": Case(
        "="
        + '{"a":' * 9999
        + r' > suite 1 > ={"type":"bench","name":"\ud800"} > started y > =text > ok y > end',
        "started y 0 > finished y passed > 1 of 1",
        said=4,
    ),
    "nextest runs a binary twice": Case(
        " > ".join(["suite 1 plus > started a::t$x > ok a::t$x 9 > end - plus"] * 2),
        "started x 0 > finished x passed > started x 0 > finished x passed > 2 of 2",
        said=1,
    ),
    "nextest tries a test again": Case(
        "suite 1 plus > started a::t$x > ok a::t$x#2 1 > end",
        (
            "started x 0 > attempt-failed-will-retry x > retry-started x 0 > "
            "finished x failed passed > 1 of 1, flaky"
        ),
    ),
    "nextest tries a test three times": Case(
        "suite 1 > started a::t$x > failed a::t$x > started a::t$x#2 > ok a::t$x#3 > end",
        (
            "started x 0 > attempt-failed-will-retry x > retry-started x 0 > "
            "attempt-failed-will-retry x > retry-started x 0 > "
            "finished x failed failed passed > 1 of 1, flaky"
        ),
    ),
    "nextest tells only the end": Case(
        "suite 1 plus > ok a::t$x 1 > end - plus",
        "started x 0 > finished x passed > 1 of 1",
        said=1,
    ),
    "nextest ends a slow test with its suite": Case(
        "suite 1 plus > started a::t$x > timeout a::t$x > end - plus",
        "started x 0 > slow x > finished x failed-timed-out > 1 of 1",
    ),
    "nextest is cut": Case(
        "suite 2 plus > started a::t$x",
        "started x 0 > 0 of 2",
        said=1,
    ),
    "a crash while two tests run": Case(
        (
            f"{INTEGRATION} > suite 3 > started x > started y > {CRASHED} > {OTHER} > suite 1 > "
            "started z > ok z > end"
        ),
        (
            "started x 0 > started y 1 > finished x abort-11 > finished y abort-11 > started z 0 > "
            "finished z passed > 3 of 4"
        ),
        said=5,
    ),
    "another binary while a test runs": Case(
        f"{INTEGRATION} > suite 1 > started x > {OTHER} > suite 1 > started y > ok y > end",
        "started x 0 > finished x exit-0 > started y 0 > finished y passed > 2 of 2",
    ),
    "another suite while a test runs": Case(
        "suite 1 > started x > suite 1 > started y > ok y > end",
        "started x 0 > finished x failed > started y 0 > finished y passed > 2 of 2",
    ),
    "a binary ends before its suite": Case(
        f"{OTHER} > suite 2 > started x > ok x > {INTEGRATION} > suite 0 > end",
        "started t 0 > started x 1 > finished x passed > finished t exit-0 > 2 of 3",
        said=1,
    ),
    "a process ends with 7 after its tests": Case(
        f"{INTEGRATION} > suite 1 > started x > ok x > end > {FAILED} > {CAUSE % 'exit status: 7'}",
        "started s 0 > started x 1 > finished x passed > finished s exit-7 > 2 of 2",
        said=2,
    ),
    "a suite counts more failures than its lines": Case(
        f"{INTEGRATION} > suite 2 > started x > ok x > end 1 > {FAILED}",
        "started s 0 > started x 1 > finished x passed > finished s failed > 2 of 3",
        said=2,
    ),
    "a test has the name of its binary": Case(
        f"{INTEGRATION} > suite 1 > started s > ok s > end 1",
        "started (s) 0 > started s 1 > finished s passed > finished (s) failed > 2 of 2",
    ),
    "the begin of an event at the end": Case(
        'suite 2 > started x > ={"type":"te',
        "started x 0 > finished x failed > 1 of 2",
        said=3,
    ),
    "a test runs at the end of status 0": Case(
        "suite 1 > started x",
        "started x 0 > finished x exit-0 > 1 of 1",
        said=0,
        status=0,
    ),
    "a test runs at the end of a signal": Case(
        "suite 1 > started x",
        "started x 0 > run-begin-cancel signal > 0 of 1",
        said=1,
        status=137,
    ),
    "a test runs at the end of status 255": Case(
        "suite 1 > started x",
        "started x 0 > finished x failed > 1 of 1",
        said=0,
        status=255,
    ),
    "targets without libtest": Case(
        (
            f"{INTEGRATION} > =no end of a line| > {FAILED} > {CAUSE % 'exit status: 3'} > "
            f"{OTHER} > "
            "=well"
        ),
        "started s 0 > finished s exit-3 > started t 0 > finished t passed > 2 of 2",
        said=4,
    ),
    "a target without a name fails": Case(
        f"suite 0 > end > {FAILED} > {CAUSE % 'exit status: 3'}",
        "started s 0 > finished s exit-3 > 1 of 1",
        said=2,
    ),
    "a target without libtest prints JSON": Case(
        f'{INTEGRATION} > ={{"reason":"mine"}} > ={{"type":"report"}}',
        "started s 0 > finished s passed > 1 of 1",
        said=3,
    ),
    "a target says for people what runs": Case(
        f"{INTEGRATION} > =running 1 test",
        "started s 0 > finished s passed > 1 of 1",
        said=3,
    ),
    "doctests that cannot be built": Case(
        (
            f"{DOC} > =error: no > =error: doctest failed, to rerun pass `--doc` > "
            f"{CAUSE % 'exit status: 1'}"
        ),
        "started s 0 > finished s exit-1 > 1 of 1",
        said=4,
    ),
    "doctests in two suites": Case(
        (
            f"{DOC} > suite 1 > started x > ok x > end > suite 1 > started w > failed w > end 1 > "
            f'={{"type":"report"}}'
        ),
        "started x 0 > finished x passed > started w 0 > finished w failed > 2 of 2",
    ),
    "a build fails": Case(
        f"=error[E0425]: no > {NOT_BUILT} > =more",
        "started (build) 0 > finished (build) failed > 1 of 1",
        said=4,
    ),
    "cargo refuses a package": Case(
        "=error: no such package",
        "started (build) 0 > finished (build) failed > 1 of 1",
        said=2,
    ),
    "a shell finds no cargo": Case(
        "=cargo: not found",
        "started (run) 0 > finished (run) exit-127 > 1 of 1",
        said=2,
        status=127,
    ),
    "a line is left open before an announcement": Case(
        f"{OTHER} > =no end| > {INTEGRATION} > suite 0 > end",
        "started t 0 > finished t passed > 1 of 1",
        said=1,
    ),
    "an end without a start": Case(
        "suite 1 > ok x 1 > end",
        "0 of 1",
        said=3,
    ),
    "a test prints a suite": Case(
        f"{INTEGRATION} > suite 2 > started a > {INNER} > ok a > started d > failed d > end 1",
        "started a 0 > finished a passed > started d 0 > finished d failed > 2 of 2",
        said=6,
    ),
    "a test prints another test": Case(
        f"{INTEGRATION} > suite 2 > started a > started z > ok z > ok a > started b > ok b > end",
        "started a 0 > finished a passed > started b 0 > finished b passed > 2 of 2",
        said=1,
    ),
    "a made-up test never ends": Case(
        "suite 1 > started a > started b > ok a > end",
        "started a 0 > finished a passed > 1 of 1",
        said=1,
    ),
    "a made-up test runs last": Case(
        "suite 1 > started a > ok a > started b > ok b > end",
        "started a 0 > finished a passed > started b 0 > finished b passed > 2 of 2",
        said=1,
    ),
    "of two ends the later counts": Case(
        "suite 1 > started x > ok x > failed x > end",
        "started x 0 > finished x failed > 1 of 1",
        said=1,
    ),
    "of two ends a pass by the numbers": Case(
        "suite 1 > started x > ok x > failed x > end 0",
        "started x 0 > finished x passed > 1 of 1",
        said=2,
    ),
    "of two ends a failure by the numbers": Case(
        "suite 1 > started x > failed x > ok x > end 1",
        "started x 0 > finished x failed > 1 of 1",
        said=2,
    ),
    "of two tests one passed by the numbers": Case(
        "suite 2 > started x > started y > ok y > failed y > failed x > end 1",
        "started x 0 > started y 1 > finished y passed > finished x failed > 2 of 2",
        said=2,
    ),
    "of two tests both failed by the numbers": Case(
        "suite 2 > started x > started y > ok y > failed y > ok x > failed x > end 1",
        "started x 0 > started y 1 > finished y failed > finished x failed > 2 of 2",
        said=2,
    ),
    "hidden ends of tests that passed": Case(
        f"{INTEGRATION} > suite 3 > started a > started b > ok a > {counted(3, 0, 0)}",
        "started a 0 > started b 1 > finished a passed > finished b passed > 2 of 2",
        said=3,
    ),
    "hidden ends of which one failed": Case(
        f"{INTEGRATION} > suite 3 > started a > started b > ok a > {counted(2, 1, 0)}",
        "started a 0 > started b 1 > finished a passed > finished b failed > 2 of 3",
        said=3,
    ),
    "a test prints the numbers of its suite": Case(
        (
            f"{INTEGRATION} > suite 2 > started a > started b > {counted(2, 0, 0)} > ok a > "
            "failed b > "
            "end 1"
        ),
        "started a 0 > started b 1 > finished a passed > finished b failed > 2 of 2",
        said=2,
    ),
    "numbers before a failure of cargo": Case(
        f"{INTEGRATION} > suite 2 > started a > ok a > started b > {counted(2, 0, 0)} > {FAILED}",
        "started a 0 > finished a passed > started b 0 > finished b failed > 2 of 2",
        said=3,
    ),
    "a test runs a target without libtest": Case(
        (
            f"{INTEGRATION} > suite 2 > started a > {OTHER} > =running 1 test > ok a > started b > "
            "ok b > end"
        ),
        "started a 0 > finished a passed > started b 0 > finished b passed > 2 of 2",
        said=4,
    ),
    "a test runs cargo that fails": Case(
        (
            f"{INTEGRATION} > suite 1 > started a > {OTHER} > suite 1 > started x > failed x > "
            "end 1 > "
            f"{FAILED} > ok a > end"
        ),
        "started a 0 > finished a passed > 1 of 1",
        said=8,
    ),
    "another test starts while one runs cargo": Case(
        (
            f"{INTEGRATION} > suite 2 > started a > {OTHER} > =running 1 test > started b > ok b > "
            "ok a > end"
        ),
        "started a 0 > started b 1 > finished b passed > finished a passed > 2 of 2",
        said=4,
    ),
    "a test runs its own binary": Case(
        (
            f"{INTEGRATION} > suite 2 > started a > {OTHER} > =text > {INTEGRATION} > =text > "
            "failed a > started b > ok b > end 1"
        ),
        "started a 0 > finished a failed > started b 0 > finished b passed > 2 of 2",
        said=7,
    ),
    "two binaries with a test of one name": Case(
        f"{OTHER} > suite 1 > started a > {INTEGRATION} > suite 1 > started a > ok a > end",
        "started a 0 > finished a exit-0 > started a 0 > finished a passed > 2 of 2",
    ),
    "an end of a test in two binaries": Case(
        f"{OTHER} > suite 1 > started a > {INTEGRATION} > suite 1 > started b > ok a > ok b > end",
        "started a 0 > finished a exit-0 > started b 0 > finished b passed > 2 of 2",
        said=2,
    ),
    "a test prints a failure of cargo": Case(
        f"{INTEGRATION} > suite 2 > started x > {FAILED} > ok x > started y > ok y > end",
        "started x 0 > finished x passed > started y 0 > finished y passed > 2 of 2",
        said=2,
    ),
    "a doctest prints a failure of cargo": Case(
        f"{DOC} > suite 1 > started x > {FAILED} > ok x > end",
        "started x 0 > finished x passed > 1 of 1",
        said=2,
    ),
    "a target without libtest prints a failed build": Case(
        f"{INTEGRATION} > {NOT_BUILT}",
        "started s 0 > finished s passed > 1 of 1",
        said=2,
        status=0,
    ),
    "a test prints lines of nextest": Case(
        (
            f"{INTEGRATION} > suite 1 > ok a::t$x > started x > ok a::t$x > suite 1 plus > "
            "failed a::t$y > end - plus > ok x > end"
        ),
        "started x 0 > finished x passed > 1 of 1",
        said=6,
    ),
    "a test prints an end of nextest": Case(
        "suite 1 > started x > ok a::t$x > ok x > end",
        "started x 0 > finished x passed > 1 of 1",
        said=2,
    ),
    "nextest and an announcement": Case(
        f"suite 1 plus > started a::t$x > {OTHER} > ok a::t$x > end - plus",
        "started x 0 > finished x passed > 1 of 1",
        said=2,
    ),
    "a word of cargo after much space": Case(
        f"suite 1 > started x > ={' ' * 100000}Running > ok x > end",
        "started x 0 > finished x passed > 1 of 1",
        said=2,
    ),
    "the begin of an event in a text": Case(
        'suite 1 > started x > =a text {{"type":"test","event":"ok","name":"x"} > end',
        "started x 0 > finished x passed > 1 of 1",
        said=1,
    ),
    "binaries run again": Case(
        f"{UNIT} > suite 1 > started x > ok x > end > {INTEGRATION} > suite 1 > started x > "
        "failed x > end > "
        f"{DOC} > suite 0 > end > "
        f"{INTEGRATION} > suite 1 > started x > ok x > end",
        "started x 0 > finished x passed > started x 0 > attempt-failed-will-retry x > "
        "retry-started x 0 > "
        "finished x failed passed > 2 of 2, flaky",
        said=1,
    ),
}
