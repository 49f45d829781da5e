"""Prints a session of a number of tests, for trying things out and for measuring.

    python3 -m workshop.make_session 10000 > large.session
    python3 -m workshop.make_session 20000 --distinct 200 > distinct.session
    python3 -m workshop.make_session 100 --distinct 1048576 > outputs.session
    python3 -m workshop.make_session 10000 --binaries 10000 > binaries.session
    python3 -m workshop.make_session 100000 --slots 100000 --ends > at_once.session

Test i is `t{i}` of the binary `bin-{i mod 4}`, or `bin-{i mod N}` with `--binaries N`, on slot i
mod 8. Eight tests run at a time, or N with `--slots N`, in batches four seconds apart, and every
hundredth one fails. Each test writes one of sixteen lines on standard output; with `--distinct N`
it writes N bytes of its own, on standard output and again on standard error. The session stops
before the end of the run, but for `--ends`.
"""

from __future__ import annotations

from collections.abc import Iterator
from typing import TypeAlias

from rezovamy_runs.command_line import command_line, whole
from rezovamy_runs.streams.session_json import HEAD, event, instant, span, stats, text

# An object of JSON.
Json: TypeAlias = dict[str, object]

RUN_ID = "550e8400-e29b-41d4-a716-446655440000"
SLOTS = 8
MOST = 10**9


def head(count: int, binaries: int = 4) -> Json:
    """Return the head of a session of so many tests, which stand in so many binaries by turns."""
    suites: dict[str, list[str]] = {}
    for i in range(count):
        suites.setdefault(f"bin-{i % binaries}", []).append(f"t{i}")
    return {
        **HEAD,
        "run-id": RUN_ID,
        "nextest-version": "0.9.111",
        "started-at": instant(1000),
        "last-written-at": instant(1011),
        "status": {"status": "incomplete"},
        "test-list": {"suites": suites},
    }


def test_id(i: int, binaries: int) -> Json:
    return {"binary-id": f"bin-{i % binaries}", "test-name": f"t{i}"}


def started(i: int, batch: int, count: int, running: int, binaries: int, slots: int) -> Json:
    return event(
        "test-started",
        instant(1000 + 4 * batch, 1000 * (i % slots)),
        test_instance=test_id(i, binaries),
        slot_assignment={"global-slot": i % slots, "test-group": "@global"},
        current_stats=stats(count),
        running=running,
        command_line=[],
    )


def outputs(i: int, distinct: int | None) -> Json:
    """The outputs of a test, as they were captured."""
    if distinct is None:
        return {"stdout": f"output {i % 16}\n".encode().hex()}
    return {
        stream: f"{stream} of test {i}\n".encode().ljust(distinct, b".")[:distinct].hex()
        for stream in ("stdout", "stderr")
    }


def finished(
    i: int, batch: int, count: int, running: int, binaries: int, distinct: int | None, slots: int
) -> Json:
    failed = i % 100 == 99
    result = {"fail": {"failure": {"exit-code": 1}, "leaked": False}} if failed else "pass"
    status = {
        "retry-data": {"attempt": 1, "total-attempts": 1},
        "output": {"output": {"output": {"split": outputs(i, distinct)}}},
        "result": result,
        "start-time": instant(1000 + 4 * batch, 1000 * (i % slots)),
        "time-taken": span(3),
        "is-slow": False,
        "delay-before-start": span(0),
    }
    return event(
        "test-finished",
        instant(1003 + 4 * batch, 1000 * (i % slots)),
        test_instance=test_id(i, binaries),
        success_output="never",
        failure_output="never",
        junit_store_success_output=False,
        junit_store_failure_output=False,
        junit_flaky_fail_status="failure",
        run_statuses={"statuses": [status], "flaky-result": "pass"},
        current_stats=stats(count),
        running=running,
    )


def session(count: int, binaries: int, distinct: int | None, slots: int = SLOTS) -> Iterator[Json]:
    yield head(count, binaries)
    yield event("run-started", instant(1000), run_id=RUN_ID, profile_name="default", cli_args=[])
    for batch in range((count + slots - 1) // slots):
        tests = range(batch * slots, min(count, (batch + 1) * slots))
        for place, i in enumerate(tests):
            yield started(i, batch, count, place + 1, binaries, slots)
        for place, i in enumerate(tests):
            yield finished(i, batch, count, len(tests) - place - 1, binaries, distinct, slots)


def run_end(count: int, slots: int) -> Json:
    """The end of the run, a second after that of its last test."""
    seconds = 4 * ((count + slots - 1) // slots) + 1
    return event(
        "run-finished",
        instant(1000 + seconds),
        run_id=RUN_ID,
        start_time=instant(1000),
        run_elapsed=span(seconds),
        run_stats={"single": stats(count)},
        outstanding_not_seen=None,
    )


def main() -> None:
    parser = command_line(__doc__)
    parser.add_argument("count", type=whole(0, MOST), help="how many tests")
    parser.add_argument(
        "--distinct",
        type=whole(0, MOST),
        metavar="N",
        help="the bytes of each of a test's two own outputs",
    )
    parser.add_argument(
        "--binaries", type=whole(1, MOST), metavar="N", default=4, help="how many test binaries (4)"
    )
    parser.add_argument(
        "--slots",
        type=whole(1, MOST),
        metavar="N",
        default=SLOTS,
        help=f"how many tests run at once ({SLOTS})",
    )
    parser.add_argument("--ends", action="store_true", help="the end of the run, too")
    words = parser.parse_args()
    for line in session(words.count, words.binaries, words.distinct, words.slots):
        print(text(line))
    if words.ends:
        print(text(run_end(words.count, words.slots)))


if __name__ == "__main__":
    main()
