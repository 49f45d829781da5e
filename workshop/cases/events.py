"""Events by their members, and parts of events.

The members of an event are those that docs/FORMATS.md names, in any order.
"""

from __future__ import annotations

import json
from collections.abc import Mapping, Sequence

from workshop.cases.made import Members, duration, instant, text
from workshop.cases.texts import RUN_ID

# Parts of events.

COUNTS = (
    "initial-run-count",
    "finished-count",
    "setup-scripts-initial-count",
    "setup-scripts-finished-count",
    "setup-scripts-passed",
    "setup-scripts-failed",
    "setup-scripts-exec-failed",
    "setup-scripts-timed-out",
    "passed",
    "passed-slow",
    "passed-timed-out",
    "flaky",
    "failed",
    "failed-slow",
    "failed-timed-out",
    "leaky",
    "leaky-failed",
    "exec-failed",
    "skipped",
)


def counted(names: Sequence[str], counts: Mapping[str, int]) -> Members:
    """The counts of a run: those that are given, and 0, in the order of these names."""
    return {
        **dict.fromkeys(names, 0),
        **{name.replace("_", "-"): count for name, count in counts.items()},
    }


def stats(**counts: int) -> Members:
    """The counts of a run of one test."""
    return counted(COUNTS, {"initial_run_count": 1, **counts})


def sorted_stats(**counts: int) -> Members:
    """The counts of a run, as a log has them."""
    return counted(sorted(COUNTS), counts)


NO_COUNTS = text(sorted_stats(initial_run_count=1))
STRESS_STATS = {
    "stress": {
        "completed": {"current": 0},
        "success-count": 1,
        "failed-count": 0,
        "last-final-stats": "success",
    }
}
START_ERROR = {"start-error": "no such file"}
NOT_STARTED = {"start-error": "none"}
EXIT_CODE = {"fail": {"failure": {"exit-code": 101}, "leaked": False}}


def test(name: str = "t0", binary: str = "bin-0") -> Members:
    return {"binary-id": binary, "test-name": name}


T0 = test()


def slot(number: int = 0) -> Members:
    return {"global-slot": number, "test-group": "@global"}


def attempt_of(number: int, total: int) -> Members:
    """The attempt of this number, of so many."""
    return {"attempt": number, "total-attempts": total}


def progress(completed: int, elapsed: int) -> Members:
    """A stress run that counts its runs, after so many seconds."""
    return {"count": {"elapsed": duration(elapsed), "completed": completed}}


def captured(output: object) -> Members:
    """What came of a process of which this was captured."""
    return {"output": {"output": output}}


def standard_output(name: str) -> Members:
    """What came of a process that wrote its standard output into the file of this name."""
    return captured({"split": {"stdout": {"full": name}}})


def course(
    output: object, result: object, start: Members, taken: Members, is_slow: bool = False
) -> Members:
    """How an attempt or a setup script went."""
    return {
        "output": output,
        "result": result,
        "start-time": start,
        "time-taken": taken,
        "is-slow": is_slow,
    }


def status(number: int, total: int, went: Members, delay: Members = duration(0)) -> Members:
    """The attempt of this number, of so many, which went so."""
    return {"retry-data": attempt_of(number, total), **went, "delay-before-start": delay}


def attempt(
    output: object,
    result: object,
    number: int = 1,
    total: int = 2,
    start: int = 1000,
    taken: int = 1,
) -> Members:
    """An attempt with what came of its process, and how it ended."""
    return {
        "output": output,
        **status(number, total, course(output, result, instant(start), duration(taken))),
    }


def script_members(
    index: int = 0,
    total: int = 1,
    script_id: str = "db",
    program: str = "sh",
    args: Sequence[str] = (),
) -> Members:
    return {
        "index": index,
        "total": total,
        "script-id": script_id,
        "program": program,
        "args": list(args),
        "no-capture": False,
    }


# The members of events.


def run_started(
    profile: str = "default", cli_args: Sequence[str] = (), more: Members | None = None
) -> Members:
    return {
        "kind": "run-started",
        "run-id": RUN_ID,
        "profile-name": profile,
        "cli-args": list(cli_args),
        **(more or {}),
    }


def run_finished(
    run_stats: object, start: int = 1000, elapsed: Members = duration(1), **rest: object
) -> Members:
    return {
        "kind": "run-finished",
        "run-id": RUN_ID,
        "start-time": instant(start),
        "run-elapsed": elapsed,
        "run-stats": run_stats,
        **rest,
    }


def stopped(kind: str, scripts: int = 0, running: object = 1, **rest: object) -> Members:
    """A pause, a continuation or a cancel while so many setup scripts and tests run."""
    return {"kind": kind, "setup-scripts-running": scripts, "running": running, **rest}


NO_RUNS = run_started(more={"stress-condition": {"count": 0}})
# The end of a run that began at second 7 and took 9 seconds.
RUN_FINISHED = run_finished(STRESS_STATS, 7, duration(9))
PAUSE = stopped("run-paused")
CONTINUATION = stopped("run-continued")
CANCEL = stopped("run-begin-cancel", reason="test-failure")


def sub_run_started(completed: int = 0, elapsed: int = 0) -> Members:
    return {"kind": "stress-sub-run-started", "progress": progress(completed, elapsed)}


def sub_run_finished(progressed: object, elapsed: Members, sub_stats: object) -> Members:
    return {
        "kind": "stress-sub-run-finished",
        "progress": progressed,
        "sub-elapsed": elapsed,
        "sub-stats": sub_stats,
    }


SCRIPT = script_members()


def script_started(members: Members = SCRIPT) -> Members:
    """The setup script with these members starts."""
    return {"kind": "setup-script-started", **members}


def script_ended(run_status: Members, members: Members = SCRIPT) -> Members:
    """The setup script with these members ends."""
    return {"kind": "setup-script-finished", **members, "run-status": run_status}


def slow_script(
    script_id: str, program: str, elapsed: Members, will_terminate: bool = False
) -> Members:
    return {
        "kind": "setup-script-slow",
        "script-id": script_id,
        "program": program,
        "args": [],
        "slow-elapsed": elapsed,
        "will-terminate": will_terminate,
    }


DB_SCRIPT = script_members(program="./db.sh")
SCRIPT_STARTED = script_started(DB_SCRIPT)
SCRIPT_SLOW = slow_script("db", "./db.sh", duration(60))


def script_finished(output: str, **rest: object) -> Members:
    """The end of a script that passed, and wrote both streams as one into the file of this name."""
    ran = course(captured({"combined": {"full": output}}), "pass", instant(1000), duration(1))
    return script_ended({**ran, **rest}, DB_SCRIPT)


def attempt_started(
    kind: str,
    of: Members,
    assigned: Members,
    said: Members,
    running: object,
    words: Sequence[str],
) -> Members:
    """An attempt of a test starts by these words, and the event says this besides."""
    return {
        "kind": kind,
        "test-instance": of,
        "slot-assignment": assigned,
        **said,
        "running": running,
        "command-line": list(words),
    }


def test_started(
    of: Members = T0,
    assigned: Members = slot(),
    counts: Members = stats(),
    running: object = 1,
    words: Sequence[str] = (),
) -> Members:
    said = {"current-stats": counts}
    return attempt_started("test-started", of, assigned, said, running, words)


def retry_started(
    of: Members,
    assigned: Members,
    retry_data: Members,
    running: object = 1,
    words: Sequence[str] = (),
) -> Members:
    said = {"retry-data": retry_data}
    return attempt_started("test-retry-started", of, assigned, said, running, words)


def slow_test(
    of: Members, retry_data: Members, elapsed: Members, will_terminate: bool = False
) -> Members:
    return {
        "kind": "test-slow",
        "test-instance": of,
        "retry-data": retry_data,
        "slow-elapsed": elapsed,
        "will-terminate": will_terminate,
    }


TEST_SLOW = slow_test(T0, attempt_of(1, 2), duration(60))
RETRY_STARTED = retry_started(T0, slot(), attempt_of(2, 2))


def test_skipped(name: str, reason: str, policy: str, binary: str = "bin-0") -> Members:
    return {
        "kind": "test-skipped",
        "test-instance": test(name, binary),
        "reason": reason,
        "junit-report-skipped": policy,
    }


def attempt_failed(
    attempted: Members, of: Members = T0, delay: Members = duration(0), running: object = 0
) -> Members:
    return {
        "kind": "test-attempt-failed-will-retry",
        "test-instance": of,
        "run-status": attempted,
        "delay-before-next-attempt": delay,
        "failure-output": "never",
        "running": running,
    }


def test_finished(
    *attempts: Members,
    of: Members = T0,
    counts: Members = stats(),
    stores: tuple[bool, bool] = (True, True),
    flaky: tuple[str, str] = ("failure", "pass"),
    index: Members | None = None,
    shown: str = "never",
    running: object = 0,
) -> Members:
    """The end of a test after these attempts.

    Reports hold the outputs of successes and of failures as `stores` says.
    """
    return {
        "kind": "test-finished",
        **({"stress-index": index} if index else {}),
        "test-instance": of,
        "success-output": "never",
        "failure-output": shown,
        "junit-store-success-output": stores[0],
        "junit-store-failure-output": stores[1],
        "junit-flaky-fail-status": flaky[0],
        "run-statuses": {"statuses": list(attempts), "flaky-result": flaky[1]},
        "current-stats": counts,
        "running": running,
    }


# What has to start before an event.

TIMES = {"timestamp": instant(0), "elapsed": duration(0)}
OF_A_STARTED_TEST = ("test-slow", "test-attempt-failed-will-retry", "test-finished")
OF_A_STARTED_SCRIPT = ("setup-script-slow", "setup-script-finished")


def starts_of(given: str | bytes) -> list[str]:
    """What has to start before the event of a line, in lines as they are logged."""
    event = json.loads(given)
    if event["kind"] in OF_A_STARTED_TEST:
        start = test_started(event["test-instance"])
    elif event["kind"] in OF_A_STARTED_SCRIPT:
        members = script_members(event.get("index", 0), script_id=event["script-id"])
        start = script_started(members)
    elif event["kind"] == "stress-sub-run-finished":
        start = sub_run_started()
    else:
        return []
    return [json.dumps(TIMES | start, ensure_ascii=False, separators=(",", ":"), sort_keys=True)]
