"""Prints a session with events of every kind, for trying things out.

    python3 -m workshop.make_kinds > kinds.session
    python3 -m workshop.make_kinds --least > least.session

It is a stress run of two runs, a hundred seconds apart. In each a setup script is slow, a test is
skipped, one fails and is tried again, one can't be started, and one is slow; the run is paused for
ten seconds. The second run is cancelled. With `--least` each member that may be left out is left
out.
"""

from __future__ import annotations

from collections.abc import Iterator, Sequence
from typing import TypeAlias

from rezovamy_runs.command_line import command_line
from rezovamy_runs.streams.session_json import event, instant, span, stats, text
from workshop.make_session import RUN_ID, head

# An object of JSON.
Json: TypeAlias = dict[str, object]

START = 1000
BINARY = "alpha::a"
TESTS = ["cannot_start", "flaky", "ignored", "slow"]


class Option:
    """A value that may be left out."""

    def __init__(self, value: object) -> None:
        self.value = value


def settled(value: object, least: bool) -> object:
    """The value with what may be left out, or without it."""
    if isinstance(value, Option):
        return settled(value.value, least)
    if isinstance(value, dict):
        kept = {k: v for k, v in value.items() if not (least and isinstance(v, Option))}
        return {k: settled(v, least) for k, v in kept.items()}
    if isinstance(value, list):
        return [settled(item, least) for item in value]
    return value


def at(kind: str, second: int, **fields: object) -> Json:
    """An event so many seconds after the start of the run."""
    return event(kind, instant(START + second), elapsed=span(second), **fields)


def test_id(name: str) -> Json:
    return {"binary-id": BINARY, "test-name": name}


def counts(reason: str | None = None, **changed: int) -> Json:
    """The counts of a run of three tests after its script, with what has changed since."""
    changed = {name.replace("_", "-"): count for name, count in changed.items()}
    cancel = {"cancel-reason": Option(reason)} if reason else {}
    scripts = ["initial-count", "finished-count", "passed"]
    ended = {f"setup-scripts-{name}": 1 for name in scripts}
    return {**stats(3), **ended, **changed, **cancel}


def stress_index(run: int) -> Option:
    return Option({"current": run, "total": Option(2)})


def progress(run: int, second: int, completed: int) -> Json:
    return {"count": {"total": Option(2), "elapsed": span(second), "completed": completed}}


def slot(number: int) -> Json:
    return {"global-slot": number, "group-slot": Option(number), "test-group": "serial"}


def retry(attempt: int, total: int) -> Json:
    return {"attempt": attempt, "total-attempts": total}


def summary(short: str) -> Option:
    return Option({"short-message": short, "description": f"{short}, and why"})


def output(outputs: Json) -> Json:
    """Outputs of a process, with what was read of them too late."""
    return {"output": {"result": Option("pass"), "output": outputs, "errors": Option(["late"])}}


def split(stdout: str, stderr: str) -> Json:
    texts = {"stdout": stdout, "stderr": stderr}
    return {"split": {name: Option(written.encode().hex()) for name, written in texts.items()}}


def combined(both: str) -> Json:
    return {"combined": both.encode().hex()}


def attempt(
    second: int,
    taken: int,
    tried: tuple[int, int],
    outputs: Json,
    result: object,
    **further: object,
) -> Json:
    """An attempt that began at a second, and `tried` says which one of how many it is."""
    further = {name.replace("_", "-"): value for name, value in further.items()}
    return {
        "retry-data": retry(*tried),
        "output": outputs,
        "result": result,
        "start-time": instant(START + second),
        "time-taken": span(taken),
        "is-slow": False,
        "delay-before-start": span(0),
        **further,
    }


def setup_script(run: int, base: int) -> Iterator[Json]:
    """The setup script, which takes twenty-five seconds."""
    script = {"script_id": "database", "program": "sh", "args": ["-c", "start"]}
    place = {"stress_index": stress_index(run), "index": 0, "total": 1}
    status = {
        "output": output(combined("ready\n")),
        "result": "pass",
        "start-time": instant(START + base),
        "time-taken": span(25),
        "is-slow": True,
        "env-map": Option({"PORT": "5432", "HOST": "::1"}),
        "error-summary": summary("slow"),
    }
    yield at("setup-script-started", base, **place, **script, no_capture=False)
    yield at(
        "setup-script-slow",
        base + 20,
        stress_index=stress_index(run),
        **script,
        slow_elapsed=span(20),
        will_terminate=False,
    )
    yield at(
        "setup-script-finished", base + 25, **place, **script, no_capture=False, run_status=status
    )


def started(run: int, second: int, name: str, number: int, stats_now: Json, running: int) -> Json:
    return at(
        "test-started",
        second,
        stress_index=stress_index(run),
        test_instance=test_id(name),
        slot_assignment=slot(number),
        current_stats=stats_now,
        running=running,
        command_line=["target/a", "--exact", name],
    )


def finished(
    run: int, second: int, name: str, statuses: Sequence[Json], stats_now: Json, running: int
) -> Json:
    return at(
        "test-finished",
        second,
        stress_index=stress_index(run),
        test_instance=test_id(name),
        success_output="never",
        failure_output="immediate-final",
        junit_store_success_output=False,
        junit_store_failure_output=True,
        junit_flaky_fail_status="failure",
        run_statuses={"statuses": statuses, "flaky-result": "pass"},
        current_stats=stats_now,
        running=running,
    )


def failed_attempt(base: int) -> Json:
    """The first attempt of the flaky test: fourteen seconds long, ten of them paused."""
    failure = {"abort": {"signal": 6, "name": Option("SIGABRT")}}
    return attempt(
        base + 26,
        4,
        (1, 2),
        output(split("", "assertion failed\n")),
        {"fail": {"failure": failure, "leaked": False}},
        error_summary=summary("aborted"),
        output_error_slice=Option({"slice": "assertion failed", "start": 0}),
        cpu_time=Option(span(2)),
    )


def flaky_test(run: int, base: int) -> Iterator[Json]:
    """The failure of the flaky test, and how it passes."""
    first = failed_attempt(base)
    second = attempt(
        base + 41, 4, (2, 2), output(split("passed\n", "")), "pass", delay_before_start=span(1)
    )
    yield at(
        "test-attempt-failed-will-retry",
        base + 40,
        stress_index=stress_index(run),
        test_instance=test_id("flaky"),
        run_status=first,
        delay_before_next_attempt=span(1),
        failure_output="immediate",
        running=2,
    )
    yield at(
        "test-retry-started",
        base + 41,
        stress_index=stress_index(run),
        test_instance=test_id("flaky"),
        slot_assignment=slot(1),
        retry_data=retry(2, 2),
        running=2,
        command_line=["target/a", "--exact", "flaky"],
    )
    now = counts(finished_count=1, passed=1, flaky=1, skipped=1)
    yield finished(run, base + 45, "flaky", [first, second], now, 1)


def pause(base: int) -> Iterator[Json]:
    """Ten seconds in which nothing runs."""
    yield at("run-paused", base + 28, setup_scripts_running=0, running=2)
    yield at("run-continued", base + 38, setup_scripts_running=0, running=2)


def start_fault(run: int, base: int) -> Iterator[Json]:
    """The test that can't be started, on the slot of the flaky one."""
    before = counts(finished_count=1, passed=1, flaky=1, skipped=1)
    after = counts(finished_count=2, passed=1, flaky=1, exec_failed=1, skipped=1)
    tried = attempt(base + 46, 0, (1, 1), {"start-error": "no such file"}, "exec-fail")
    yield started(run, base + 46, "cannot_start", 1, before, 2)
    yield finished(run, base + 47, "cannot_start", [tried], after, 1)


def slow_test(run: int, base: int, cancelled: bool) -> Iterator[Json]:
    """The slow test, which still runs when the second run is cancelled."""
    yield at(
        "test-slow",
        base + 50,
        stress_index=stress_index(run),
        test_instance=test_id("slow"),
        retry_data=retry(1, 1),
        slow_elapsed=span(14),
        will_terminate=True,
    )
    if cancelled:
        yield at(
            "run-begin-cancel", base + 51, setup_scripts_running=0, running=1, reason="interrupt"
        )
    tried = attempt(
        base + 26, 16, (1, 1), output(split("slow\n", "")), {"timeout": "pass"}, is_slow=True
    )
    yield finished(run, base + 52, "slow", [tried], at_end(cancelled), 0)


def at_end(cancelled: bool) -> Json:
    """The counts of a run of the stress run at its end."""
    return counts(
        "interrupt" if cancelled else None,
        finished_count=3,
        passed=2,
        passed_slow=1,
        passed_timed_out=1,
        flaky=1,
        exec_failed=1,
        skipped=1,
    )


def sub_run(run: int) -> Iterator[Json]:
    """One of the stress run's runs."""
    base = 1 + 100 * run
    cancelled = run == 1
    yield at("stress-sub-run-started", base, progress=progress(run, base, run))
    yield from setup_script(run, base)
    yield started(run, base + 26, "slow", 0, counts(), 1)
    yield started(run, base + 26, "flaky", 1, counts(), 2)
    yield at(
        "test-skipped",
        base + 27,
        stress_index=stress_index(run),
        test_instance=test_id("ignored"),
        reason="ignored",
        junit_report_skipped="all",
    )
    yield from pause(base)
    yield from flaky_test(run, base)
    yield from start_fault(run, base)
    yield from slow_test(run, base, cancelled)
    yield at(
        "stress-sub-run-finished",
        base + 53,
        progress=progress(run, base + 53, run + 1),
        sub_elapsed=span(53),
        sub_stats=at_end(cancelled),
    )


def session() -> Iterator[Json]:
    suites = {"suites": {BINARY: TESTS}}
    yield {**head(0), "last-written-at": instant(START + 155), "test-list": suites}
    yield at(
        "run-started",
        0,
        run_id=RUN_ID,
        profile_name="default",
        cli_args=["--stress-count", "2"],
        stress_condition=Option({"count": 2}),
    )
    for run in range(2):
        yield from sub_run(run)
    stress = {
        "completed": {"current": 1, "total": Option(2)},
        "success-count": 0,
        "failed-count": 2,
        "last-final-stats": "cancelled",
    }
    yield at(
        "run-finished",
        155,
        run_id=RUN_ID,
        start_time=instant(START),
        run_elapsed=span(155),
        run_stats={"stress": stress},
        outstanding_not_seen=Option({"not-seen": [test_id("gone")], "total-not-seen": 1}),
    )


def main() -> None:
    parser = command_line(__doc__)
    parser.add_argument("--least", action="store_true", help="leave out what may be left out")
    words = parser.parse_args()
    for line in session():
        print(text(settled(line, words.least)))


if __name__ == "__main__":
    main()
