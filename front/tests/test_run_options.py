"""Which options of a run can't be beside each other."""

from __future__ import annotations

import argparse

import pytest

from rezovamy_runs.commands import run_options
from rezovamy_runs.faults.fault import Fault

ALONE = ["--slow-after 2", "--test-threads 2", "--fail-fast", "--setup a=true"]


def words_of(line: str) -> argparse.Namespace:
    """Return the options of a line."""
    parser = argparse.ArgumentParser()
    run_options.add_options(parser)
    return parser.parse_args(line.split())


@pytest.mark.parametrize("option", ALONE)
def test_options_that_need_a_process_for_each_test(option: str) -> None:
    with pytest.raises(Fault) as fault:
        run_options.refuse_with_shared(words_of(f"--shared {option}"))
    name = option.split()[0]
    said = f"{name} is for tests in processes of their own: leave out --shared"
    assert (str(fault.value), fault.value.status) == (said, 2)


def test_options_beside_shared() -> None:
    words = words_of("--shared --retries 2 --timeout 1.5")
    run_options.refuse_with_shared(words)
    options = run_options.options_of_run(words)
    assert (options.retries, options.timeout) == (2, 1_500_000_000)


@pytest.mark.parametrize("option", [*ALONE, "--retries 2", "--timeout 2", "--shared"])
def test_options_beside_lines_that_are_there(option: str) -> None:
    with pytest.raises(Fault) as fault:
        run_options.refuse_with_lines(words_of(option))
    name = option.split()[0]
    said = f"{name} is for a run, and --from reads one that is there: leave it out"
    assert (str(fault.value), fault.value.status) == (said, 2)
