"""Outputs that a report shows, found in the store by the names that the log has for them."""

from __future__ import annotations

from workshop.cases.case import Case
from workshop.cases.events import RUN_FINISHED, attempt, captured, test, test_finished
from workshop.cases.made import OPTIONS, compact, log, run_bundle, store
from workshop.cases.reports import says

# How the output of a test stands in the log, the name of its file, and where a report shows it.
NAMED = [
    (
        {"split": {"stdout": {"full": "0123456789abcdef-stdout"}}},
        "0123456789abcdef-stdout",
        "system-out",
    ),
    (
        {"split": {"stderr": {"full": "ffffffffffffffff-stderr"}}},
        "ffffffffffffffff-stderr",
        "system-err",
    ),
    (
        {"split": {"stderr": {"full": "0000000000000001-stderr"}}},
        "0000000000000001-stderr",
        "system-err",
    ),
    (
        {"combined": {"full": "0000000000000000-combined"}},
        "0000000000000000-combined",
        "system-out",
    ),
]


def shown(output: object, name: str, place: str) -> Case:
    """A test with this output passed, and the store has a file of that name and another one."""
    events = [
        test_finished(attempt(captured(output), "pass", total=1), of=test("t", "bin")),
        RUN_FINISHED,
    ]
    files = (b"out/" + name.encode(), b"its output"), (
        b"out/0123456789abcdee-stdout",
        b"another output",
    )
    bundle = run_bundle(log(events), store(OPTIONS, compact({"suites": {"bin": ["t"]}}), files))
    return Case(
        f"the output {name}",
        ("report",),
        bundle,
        out=says(f"/suites/0/cases/0/{place}", '"its output"'),
    )


CASES = [shown(*row) for row in NAMED]
