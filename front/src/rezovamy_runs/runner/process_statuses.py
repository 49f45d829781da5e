"""How an attempt of a test and a setup script ended, as a session has it."""

from __future__ import annotations

import signal

from rezovamy_runs import cut_outputs
from rezovamy_runs.bundles import view_json
from rezovamy_runs.json_values import JsonObject
from rezovamy_runs.processes.jobs import Captured, Ending, Exit, Job, Verdict
from rezovamy_runs.streams.failure_messages import errors_of
from rezovamy_runs.streams.session_writer import length, moment

# How much of an output is searched for what went wrong.
MOST_SEARCHED = 100_000


def shown(captured: Captured) -> bytes:
    """Return what was kept of an output, with a note where the middle is missing."""
    if not captured.left_out:
        return captured.first + captured.last
    return captured.first + cut_outputs.note(captured.left_out) + captured.last


def abort_of(number: int) -> view_json.Signal:
    """Return the signal that ended a process."""
    try:
        return {"signal": number, "name": signal.Signals(number).name}
    except ValueError:
        return {"signal": number}


def result_of(ending: Ending) -> view_json.Result:
    """Return the result of an attempt or of a setup script."""
    match ending.verdict:
        case Verdict.PASSED:
            return {"leak": "pass"} if ending.leaked else "pass"
        case Verdict.TIMED_OUT:
            return {"timeout": "fail"}
        case Verdict.EXEC_FAILED:
            return "exec-fail"
    ended = ending.exit or Exit()
    failure: view_json.Failure = {"exit-code": ended.status or 0}
    if ended.signal is not None:
        failure = {"abort": abort_of(ended.signal)}
    return {"fail": {"failure": failure, "leaked": ending.leaked}}


def errors_in(ending: Ending) -> list[str]:
    """Return what is said of an attempt that didn't pass."""
    if ending.verdict is Verdict.PASSED:
        return [ending.error] if ending.error else []
    outputs = (text_of(ending.stderr), text_of(ending.stdout))
    found = errors_of(outputs, ending.error or None)
    return [*said_of(ending), *found]


def said_of(ending: Ending) -> list[str]:
    """Return what an ending means that the exit status alone doesn't say."""
    ended = ending.exit or Exit()
    if ending.verdict is Verdict.NO_RESULT and not ending.error:
        return [f"the process exited with status {ended.status} before the test ended"]
    if ending.verdict is Verdict.CANCELLED:
        return ["the run was cancelled while this test ran"]
    return []


def text_of(captured: Captured) -> str:
    """Return the end of an output as text."""
    return captured.end(MOST_SEARCHED).decode("utf-8", "replace")


def output_of(ending: Ending) -> JsonObject:
    """Return what a process printed, or why it couldn't be started."""
    if ending.exit is None:
        return {"start-error": ending.error}
    outputs: JsonObject = {"combined": shown(ending.stdout).hex()}
    if not ending.is_combined:
        split = {"stdout": shown(ending.stdout).hex(), "stderr": shown(ending.stderr).hex()}
        outputs = {"split": split}
    output: JsonObject = {"output": outputs}
    errors = errors_in(ending)
    if errors:
        output["errors"] = errors
    return {"output": output}


def status_of(ending: Ending) -> JsonObject:
    """Return what a setup script and an attempt have in common."""
    status: JsonObject = {
        "output": output_of(ending),
        "result": result_of(ending),
        "start-time": moment(ending.started),
        "time-taken": length(ending.elapsed),
        "is-slow": ending.is_slow,
    }
    errors = errors_in(ending) if ending.exit else []
    if errors:
        status["error-summary"] = {
            "short-message": errors[0],
            "description": "\n".join(errors),
        }
    return status


def attempt_of(
    ending: Ending, attempt: int, total_attempts: int, before: Ending | None
) -> JsonObject:
    """Return an attempt of a test that ended."""
    delay = ending.started - (before.started + before.elapsed) if before else 0
    return {
        **status_of(ending),
        "retry-data": {"attempt": attempt, "total-attempts": total_attempts},
        "delay-before-start": length(max(0, delay)),
    }


def instance_of(job: Job) -> dict[str, str]:
    """Return what names a test."""
    return {"binary-id": job.binary_id, "test-name": job.test_name}
