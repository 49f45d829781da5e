"""Makes runs of their views, as `rezovamy view` prints them; docs/FORMATS.md says how, under View.

What a view says is proved of it, so nothing is counted, cut or judged here once more.
"""

from __future__ import annotations

import pathlib
from collections.abc import Iterable, Mapping

from rezovamy_runs.bundles import view_json
from rezovamy_runs.bundles.statuses import Load, attempt_of, slice_of
from rezovamy_runs.bundles.view_json import View, microseconds, seconds
from rezovamy_runs.model import (
    Attempt,
    Cancellation,
    Counts,
    Run,
    Script,
    Slice,
    Status,
    Summary,
    Test,
    TestName,
    Verdict,
)

VERDICTS: Mapping[str, Verdict] = {
    "passed": Verdict.PASS,
    "flaky": Verdict.FLAKY,
    "failed": Verdict.FAIL,
    "skipped": Verdict.SKIP,
    "unfinished": Verdict.UNFINISHED,
}
NOT_STARTED = "not-started"

# What was called slow: a test by its name, or a setup script by its index.
SlowName = TestName | int


def run_of(view: View, path: pathlib.Path, size: int, load: Load) -> Run:
    """Return the run of a view, of a bundle whose file has so many bytes."""
    slow = slow_of(view["slow"])
    ran = [one for one in view["tests"] if one["verdict"] != NOT_STARTED]
    left = [one for one in view["tests"] if one["verdict"] == NOT_STARTED]
    return Run(
        **vars(summary_of(view, path, size)),
        extent=extent_of(view),
        tests=tuple(test_of(one, slow, load) for one in ran),
        scripts=tuple(
            script_of(one, start, slow, load)
            for one, start in zip(view["scripts"], view["setup-script-started"])
        ),
        pauses=tuple(map(slice_of, view["pauses"])),
        cancellations=tuple(
            Cancellation(microseconds(one["timestamp"]), one["reason"]) for one in view["cancelled"]
        ),
        never_started=tuple(map(name_of, left)),
        unnamed=view["counts"]["unnamed"],
    )


def summary_of(view: View, path: pathlib.Path, size: int) -> Summary:
    """Return what a view says of a run without a look at its tests."""
    info = view["run"]
    start = next(iter(view["run-started"]), None)
    return Summary(
        id=info["run-id"],
        bundle=path,
        size=size,
        profile=start["profile-name"] if start else "",
        started=seconds(info["started-at"]),
        elapsed=elapsed_of(view),
        status=Status(info["status"]["status"]),
        exit_code=info["status"].get("exit-code"),
        counts=counts_of(view["counts"]),
        nextest_version=info["nextest-version"],
        cli_args=tuple(info.get("cli-args") or (start["cli-args"] if start else ())),
        parent=info.get("parent-run-id"),
    )


def elapsed_of(view: View) -> float:
    """Return how long a run took: as its end says, or up to its last event."""
    if view["run-finished"]:
        return seconds(view["run-finished"][-1]["run-elapsed"])
    if "begin" not in view or "end" not in view:
        return 0.0
    return max(0.0, seconds(view["end"]) - seconds(view["begin"]))


def extent_of(view: View) -> Slice:
    """Return the instants of the first and the last event, equal ones if there is none."""
    if "begin" not in view or "end" not in view:
        return (0, 0)
    return slice_of((view["begin"], view["end"]))


def counts_of(told: view_json.Counts) -> Counts:
    """Return the counts of a view; a flaky test counts as passed too."""
    return Counts(
        passed=told["passed"] + told["flaky"],
        failed=told["failed"],
        flaky=told["flaky"],
        skipped=told["skipped"],
        unseen=told["unfinished"] + told["not-started"] + told["unnamed"],
    )


def slow_of(told: Iterable[view_json.Slow]) -> Mapping[SlowName, list[int]]:
    """Return the instants at which each test and each setup script was called slow."""
    found: dict[SlowName, list[int]] = {}
    for one in told:
        is_test = "test-instance" in one
        name: SlowName = name_of(one["test-instance"]) if is_test else one["index"]
        found.setdefault(name, []).append(microseconds(one["timestamp"]))
    return found


def within(instants: Iterable[int], told: view_json.Timed) -> tuple[int, ...]:
    """Return the instants that are not before an attempt, nor after it."""
    begin = microseconds(told["started"])
    end = microseconds(told["ended"]) if "ended" in told else None
    return tuple(at for at in instants if begin <= at and (end is None or at <= end))


def name_of(told: view_json.TestInstance | view_json.Test) -> TestName:
    """Return the name of a test."""
    return TestName(told["binary-id"], told["test-name"])


def stress_of(index: view_json.StressIndex | None) -> int | None:
    """Return the number of a sub-run, from 0, None outside a stress run."""
    return index["current"] if index else None


def test_of(told: view_json.Test, slow: Mapping[SlowName, list[int]], load: Load) -> Test:
    """Return a test."""
    name = name_of(told)
    instants = slow.get(name, ())
    return Test(
        *name,
        VERDICTS[told["verdict"]],
        tuple(test_attempt(one, instants, load) for one in told["attempts"]),
        told.get("reason"),
        stress_of(told.get("stress-index")),
    )


def test_attempt(told: view_json.TimedAttempt, slow: Iterable[int], load: Load) -> Attempt:
    """Return an attempt of a test."""
    status = told.get("status")
    retry = (status.get("retry-data") if status else None) or told.get("retry-data")
    number, total = (retry["attempt"], retry["total-attempts"]) if retry else (1, 1)
    started = Attempt(number, total, seconds(told["started"]), told.get("slot"))
    return attempt_of(told, started, within(slow, told), load)


def script_of(
    told: view_json.Script,
    start: view_json.ScriptStarted,
    slow: Mapping[SlowName, list[int]],
    load: Load,
) -> Script:
    """Return a setup script, with the event that started it."""
    started = Attempt(1, 1, seconds(told["started"]))
    slow_at = within(slow.get(told["index"], ()), told)
    return Script(
        told["script-id"],
        told["index"],
        start["program"],
        tuple(start["args"]),
        attempt_of(told, started, slow_at, load),
        stress_of(told.get("stress-index")),
    )
