"""Made runs of which pages are drawn."""

from __future__ import annotations

from typing import TypeAlias

from tests.made import (
    continued,
    event,
    exit_code,
    failed,
    finished,
    paused,
    retried,
    run_finished,
    run_started,
    script_events,
    session_of,
    skipped,
    started,
    status,
    test_of,
)

Json: TypeAlias = dict[str, object]

NASTY = (
    "</script><script>alert(1)</script><!-- \u2028\u2029 &lt; {{data}} é \U0001f980".encode()
    + b"\xff\x00\x1b[31m"
)
MANY = 10_000


def nasty_session() -> str:
    """Return a run with a pause, a retry, a test without an end, a script and harmful outputs."""
    first = status(1, 1, exit_code(), 1, 3, stdout=NASTY)
    second = status(6, 1, "pass", 2, 3, stdout=b"ready\n", stderr=b"")
    script_status = status(0, 1, combined=b"ready\n")
    unseen: Json = {"not-seen": [test_of("hangs")], "total-not-seen": 3}
    return session_of(
        [
            run_started(profile="ci", cli_args=[]),
            *script_events(0, 1, script_status),
            started(1, "a</script>", 0),
            started(1, "flaky", 1),
            started(1.5, "hangs", 2),
            failed(2, "flaky", first),
            paused(3),
            continued(5),
            retried(6, "flaky", 2, 3, 3),
            finished(7, "flaky", first, second),
            finished(8, "a</script>", status(1, 5, exit_code(), stdout=NASTY)),
            skipped(8, "later"),
            event("run-begin-cancel", 9, setup_scripts_running=0, running=1, reason="interrupt"),
            run_finished(9, 9, outstanding_not_seen=unseen),
        ]
    )


def many_tests() -> str:
    """Return a run of many tests on eight slots, of which every thousandth fails."""
    events: list[tuple[float, Json]] = []
    for number in range(MANY):
        at, fails = number // 8, number % 1000 == 999
        printed = b"the last words of test 1999\n" if number == 1999 else b"nothing special\n"
        ended = status(at, 0.5, exit_code() if fails else "pass", stdout=printed)
        events.append((at, started(at, f"test_{number}", number % 8)))
        events.append((at + 0.5, finished(at + 0.5, f"test_{number}", ended)))
    return session_of([made for _, made in sorted(events, key=lambda one: one[0])])


def with_binary(binary: str, made: Json) -> Json:
    """Return an event of a test as that of a test of another binary."""
    test = made["test-instance"]
    assert isinstance(test, dict)
    return {**made, "test-instance": {**test, "binary-id": binary}}
