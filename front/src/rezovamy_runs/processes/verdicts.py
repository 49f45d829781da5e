"""Judges how an attempt ended, by what the process and libtest say."""

from __future__ import annotations

import os
import re

from rezovamy_runs.processes.jobs import Captured, Exit, Job, Verdict

# What libtest prints at the very end if one test ran.
PASSED = re.compile(
    rb"\ntest result: ok\. 1 passed; 0 failed; 0 ignored; 0 measured; \d+ filtered out; "
    rb"finished in [\d.]+s\n\n\Z"
)
FAILED = re.compile(
    rb"\ntest result: FAILED\. 0 passed; 1 failed; 0 ignored; 0 measured; \d+ filtered out; "
    rb"finished in [\d.]+s\n\n\Z"
)
LONGEST_SUMMARY = 200
# It exits with this if a test failed.
LIBTEST_FAILED = 101


def said_by_log(log: bytes, test_name: str) -> Verdict:
    """Return what the log file of libtest says of a test.

    The reason why it failed, if any, comes between the word and the name.
    """
    name = os.fsencode(test_name)
    if log == b"ok %b\n" % name:
        return Verdict.PASSED
    failed = log.startswith((b"failed ", b"failed: ")) and log.endswith(b" %b\n" % name)
    return Verdict.FAILED if failed else Verdict.NO_RESULT


def said_by_output(stdout: Captured) -> Verdict:
    """Return what the end of standard output says of the test that ran. A test could forge it."""
    end = stdout.end(LONGEST_SUMMARY)
    if PASSED.search(end):
        return Verdict.PASSED
    return Verdict.FAILED if FAILED.search(end) else Verdict.NO_RESULT


def by_status(ended: Exit) -> Verdict:
    """Return how a program ended whose exit status says all."""
    if ended.signal is not None:
        return Verdict.KILLED
    return Verdict.PASSED if ended.is_success else Verdict.FAILED


def by_test(job: Job, ended: Exit, stdout: Captured, log: bytes) -> Verdict:
    """Return how an attempt of a test ended."""
    if ended.signal is not None or not job.runs_tests:
        return by_status(ended)
    said = said_by_log(log, job.test_name) if job.log_file else said_by_output(stdout)
    expected = {Verdict.PASSED: 0, Verdict.FAILED: LIBTEST_FAILED}
    return said if expected.get(said) == ended.status else Verdict.NO_RESULT


def if_cancelled(said: Verdict, ended: Exit) -> Verdict:
    """Return how an attempt ended that was asked to end because the run was cancelled."""
    if said is Verdict.PASSED or (said is Verdict.FAILED and ended.status == LIBTEST_FAILED):
        return said
    return Verdict.CANCELLED
