"""Makes attempts of their statuses, as views have them."""

from __future__ import annotations

import dataclasses
from collections.abc import Callable, Iterator, Mapping

from rezovamy_runs import cut_outputs
from rezovamy_runs.bundles import view_json
from rezovamy_runs.bundles.view_json import microseconds, seconds
from rezovamy_runs.model import Attempt, Result, Slice, Stream

# Returns the bytes of an output by the name of its file, or None where outputs are left out.
Load = Callable[[str], bytes | None]

# What a result is whose value says whether it counts as passed, by its kind.
LEAKS: Mapping[str, Result] = {"pass": Result.LEAK, "fail": Result.LEAK_FAIL}
TIMEOUTS: Mapping[str, Result] = {"pass": Result.TIMEOUT_PASS, "fail": Result.TIMEOUT}


def attempt_of(
    told: view_json.Timed, started: Attempt, slow_at: tuple[int, ...], load: Load
) -> Attempt:
    """Return an attempt of a test, or the run of a setup script, of what is known of its start."""
    active = told.get("active")
    timed = dataclasses.replace(
        started,
        is_slow=bool(slow_at),
        slices=tuple(map(slice_of, told["slices"])),
        slow_at=slow_at,
        active=None if active is None else active / 1e6,
    )
    status = told.get("status")
    return timed if status is None else ended(status, timed, load)


def slice_of(stretch: view_json.Stretch) -> Slice:
    """Return a stretch of time in whole microseconds."""
    begin, end = stretch
    return microseconds(begin), microseconds(end)


def ended(status: view_json.Status, attempt: Attempt, load: Load) -> Attempt:
    """Return an attempt with the status that it ended with."""
    result, detail = result_of(status["result"])
    outputs, sizes = dict[Stream, bytes | None](), dict[str, int]()
    for stream, output in outputs_of(status["output"]):
        name, size = file_of(output)
        data = b"" if name is None else load(name)
        size = size or cut_outputs.original_size(data or b"")
        outputs[stream] = data
        if size:
            sizes[stream] = size
    return dataclasses.replace(
        attempt,
        started=seconds(status["start-time"]),
        result=result,
        detail=detail,
        seconds=seconds(status["time-taken"]),
        is_slow=status["is-slow"] or attempt.is_slow,
        stdout=outputs.get(Stream.STDOUT),
        stderr=outputs.get(Stream.STDERR),
        combined=outputs.get(Stream.COMBINED),
        errors=errors_of(status),
        truncated=sizes,
    )


def result_of(result: view_json.Result) -> tuple[Result, str]:
    """Return a result, and its exit code or signal in words."""
    if isinstance(result, str):
        return Result(result), ""
    if "leak" in result:
        return LEAKS[result["leak"]], ""
    if "timeout" in result:
        return TIMEOUTS[result["timeout"]], ""
    failure = result["fail"]["failure"]
    if "abort" not in failure:
        return Result.FAIL, f"exit code {failure['exit-code']}"
    signal = failure["abort"]
    name = signal.get("name")
    return Result.ABORT, f"signal {signal['signal']}{f', {name}' if name else ''}"


def outputs_of(execution: view_json.Execution) -> Iterator[tuple[Stream, view_json.Output]]:
    """Yield the outputs that were captured, with their streams."""
    if "output" not in execution:
        return
    streams = execution["output"]["output"]
    if "combined" in streams:
        yield Stream.COMBINED, streams["combined"]
        return
    split = streams["split"]
    for stream, output in (
        (Stream.STDOUT, split.get("stdout")),
        (Stream.STDERR, split.get("stderr")),
    ):
        if output is not None:
            yield stream, output


def file_of(output: view_json.Output) -> tuple[str | None, int | None]:
    """Return the name of an output's file, and how many bytes it had before it was cut.

    The name is None if it is empty, and the number is None if it is whole.
    """
    if isinstance(output, str):
        return None, None
    if "full" in output:
        return output["full"], None
    cut = output["truncated"]
    return cut["file-name"], cut["original-size"]


def errors_of(status: view_json.Status) -> str | None:
    """Return what went wrong in an attempt, by its own words or by its summary."""
    execution = status["output"]
    if "start-error" in execution:
        return execution["start-error"]
    errors = "\n".join(execution["output"].get("errors") or ())
    summary = status.get("error-summary")
    return errors or (summary["description"] if summary else None)
