"""Histories, and the begins and ends of each under both groupings.

What is drawn is a category and a name with its process and its thread; that of a test has the name
and the process that it has by slot beside those that it has by binary.
"""

from __future__ import annotations

from collections.abc import Sequence
from typing import TypeAlias

from workshop.cases.case import Holds
from workshop.cases.histories import (
    cancel,
    end,
    fail,
    go_on,
    pause,
    retry,
    run,
    run_end,
    script,
    script_end,
    script_slow,
    skip,
    slow,
    start,
    sub_run,
    sub_run_end,
)
from workshop.cases.outlines import (
    FIRST_TEST_NAMED,
    GROUPINGS,
    RUN_BEGUN,
    outline,
    outlined,
    printed,
)

# What a row of begins and ends is called under each grouping; and phases, the rows of which each
# has them one after the other, and the second.
Row: TypeAlias = dict[str, str]
Marks: TypeAlias = tuple[str, list[Row], int]

RUN = {"binary": "run:test run 0/1", "slot": "run:test run 0/1"}
SUB_RUN = {"binary": "stress:sub-run 0/2", "slot": "stress:sub-run 0/2"}


def of_script(index: int, number: int) -> Row:
    """The setup script of this index, with the id of this number."""
    return dict.fromkeys(GROUPINGS, f"setup-script:db{number} 1/{index + 10000}")


def of_test(number: int, pid: int, tid: int) -> Row:
    """Name the row of a test, in this process where each binary has its own, on this thread."""
    binary = "alpha::a" if number < 3 else "beta::b"
    return {"binary": f"test:t{number} {pid}/{tid}", "slot": f"test:{binary} t{number} 2/{tid}"}


T1 = of_test(1, 2, 10000)
T1_ON_1 = of_test(1, 2, 10001)
T1_ON_3 = of_test(1, 2, 10003)
T1_ON_LAST = of_test(1, 2, 18446744073709551615)
T2 = of_test(2, 2, 10000)
T3 = of_test(3, 3, 10000)
FIRST = of_script(0, 1)
SECOND = of_script(1, 2)

# One test, and pauses.
PAUSED_TESTS = [
    (
        "a test over a pause",
        [start(1001, 1, 0), pause(1002, 0), go_on(1005, 0), end(1007, 1, 0)],
        [("B", [T1], 1001), ("E", [T1], 1002), ("B", [T1], 1005), ("E", [T1], 1007)],
    ),
    (
        "an end in a pause",
        [start(1001, 1, 0), pause(1002, 0), end(1003, 1, 0)],
        [("B", [T1], 1001), ("E", [T1], 1002), ("BE", [T1], 1003)],
    ),
    ("a start in a pause", [pause(1000, 0), start(1001, 1, 0)], [("BE", [T1], 1001)]),
    (
        "repeated pauses",
        [
            start(1000, 1, 0),
            pause(1001, 0),
            pause(1002, 0),
            go_on(1003, 0),
            go_on(1004, 0),
            end(1005, 1, 0),
        ],
        [("B", [T1], 1000), ("E", [T1], 1001), ("B", [T1], 1003), ("E", [T1], 1005)],
    ),
    (
        "the end of the run in a pause",
        [run(1000), pause(1001, 0), run_end(1002), run_end(1003), start(1004, 1, 0)],
        [("B", [RUN], 1000), ("E", [RUN], 1001), ("BE", [RUN], 1002), ("BE", [T1], 1004)],
    ),
    (
        "instants that fall",
        [start(1001, 1, 0), pause(1005, 0), go_on(1003, 0), end(1004, 1, 0)],
        [("B", [T1], 1001), ("E", [T1], 1005), ("B", [T1], 1003), ("E", [T1], 1004)],
    ),
    (
        "what is not drawn",
        [
            start(1001, 1, 0),
            slow(1002, 1),
            skip(1003, 1),
            cancel(1004, 0),
            go_on(1005, 0),
            run_end(1006),
        ],
        [("B", [T1], 1001)],
    ),
]

# Attempts, their rows and their binaries.
ATTEMPTS = [
    (
        "attempts of two tests",
        [
            start(1000, 1, 0),
            fail(1001, 1),
            retry(1002, 1, 3),
            start(1003, 2, 0),
            fail(1004, 2),
            start(1005, 2, 0),
            fail(1006, 2),
        ],
        [
            ("B", [T1], 1000),
            ("E", [T1], 1001),
            ("B", [T1_ON_3], 1002),
            ("B", [T2], 1003),
            ("E", [T2], 1004),
            ("B", [T2], 1005),
            ("E", [T2], 1006),
        ],
    ),
    (
        "attempts in a pause",
        [
            start(1000, 1, 0),
            pause(1001, 0),
            fail(1002, 1),
            retry(1003, 1, 1),
            end(1004, 1, 0),
            go_on(1005, 0),
        ],
        [
            ("B", [T1], 1000),
            ("E", [T1], 1001),
            ("BE", [T1], 1002),
            ("BE", [T1_ON_1], 1003),
            ("BE", [T1_ON_1], 1004),
        ],
    ),
    (
        "the last slot with a row",
        [start(1000, 1, 18446744073709541615)],
        [("B", [T1_ON_LAST], 1000)],
    ),
    (
        "a binary has its number by its first attempt, whatever started it",
        [retry(1000, 3, 0), start(1001, 1, 1), end(1002, 3, 0), start(1003, 4, 0)],
        [
            ("B", [of_test(3, 2, 10000)], 1000),
            ("B", [of_test(1, 3, 10001)], 1001),
            ("E", [of_test(3, 2, 10000)], 1002),
            ("B", [of_test(4, 2, 10000)], 1003),
        ],
    ),
]

# The run, sub-runs and setup scripts beside tests.
OTHER_SPANS = [
    (
        "ends at a pause stand by kind, slot and index, and so do begins after it",
        [
            script(1000, 1, 2),
            script(1001, 0, 1),
            start(1002, 1, 1),
            start(1003, 3, 0),
            sub_run(1004),
            run(1005),
            pause(1006, 2),
            go_on(1007, 2),
            script_end(1008, 1, 2),
            script_slow(1009, 1),
            end(1010, 1, 0),
            end(1011, 3, 0),
            sub_run_end(1012),
            run_end(1013),
        ],
        [
            ("B", [SECOND], 1000),
            ("B", [FIRST], 1001),
            ("B", [T1_ON_1], 1002),
            ("B", [T3], 1003),
            ("B", [SUB_RUN], 1004),
            ("B", [RUN], 1005),
            ("E", [RUN, SUB_RUN, T3, T1_ON_1, FIRST, SECOND], 1006),
            ("B", [RUN, SUB_RUN, T3, T1_ON_1, FIRST, SECOND], 1007),
            ("E", [SECOND], 1008),
            ("E", [T1_ON_1], 1010),
            ("E", [T3], 1011),
            ("E", [SUB_RUN], 1012),
            ("E", [RUN], 1013),
        ],
    ),
    (
        "all in a pause",
        [
            pause(1000, 0),
            run(1001),
            sub_run(1002),
            script(1003, 0, 1),
            start(1004, 1, 0),
            script_end(1005, 0, 1),
            end(1006, 1, 0),
            sub_run_end(1007),
            run_end(1008),
            go_on(1009, 0),
        ],
        [
            ("BE", [RUN], 1001),
            ("BE", [SUB_RUN], 1002),
            ("BE", [FIRST], 1003),
            ("BE", [T1], 1004),
            ("BE", [FIRST], 1005),
            ("BE", [T1], 1006),
            ("BE", [SUB_RUN], 1007),
            ("BE", [RUN], 1008),
        ],
    ),
    (
        "the same index under another id, and the last index with a row",
        [
            script(1000, 0, 1),
            script_end(1001, 0, 1),
            script(1002, 0, 2),
            script(1003, 18446744073709541615, 1),
        ],
        [
            ("B", [FIRST], 1000),
            ("E", [FIRST], 1001),
            ("B", [of_script(0, 2)], 1002),
            ("B", [of_script(18446744073709541615, 1)], 1003),
        ],
    ),
    (
        "the most setup scripts that are counted",
        [cancel(1000, 18446744073709551614), script(1001, 0, 1)],
        [("B", [FIRST], 1001)],
    ),
]


# The run, a setup script, and attempts of three tests on two slots, with all that is drawn of them
# by binary.
ALL_SPANS = [
    run(1000),
    start(1001, 1, 0),
    script(1002, 0, 1),
    script_end(1003, 0, 1),
    fail(1004, 1),
    start(1005, 2, 0),
    retry(1007, 1, 1),
    fail(1009, 2),
    start(1010, 3, 0),
    run_end(1011),
]
ALL_DRAWN = (
    RUN_BEGUN
    + FIRST_TEST_NAMED
    + """\
B test:t1 2/10000 1001000000
C run:concurrency 0/0 1001000000 {"running_scripts":0,"running_tests":1}
M :process_name 1/0 0 {"name":"setup-scripts"}
M :process_sort_index 1/0 0 {"sort_index":1}
M :thread_name 1/10000 0 {"name":"script-0"}
M :thread_sort_index 1/10000 0 {"sort_index":10000}
B setup-script:db1 1/10000 1002000000
C run:concurrency 0/0 1002000000 {"running_scripts":1,"running_tests":1}
E setup-script:db1 1/10000 1003000000
C run:concurrency 0/0 1003000000 {"running_scripts":0,"running_tests":1}
E test:t1 2/10000 1004000000
s test:retry 2/10000 1004000000 0
C run:concurrency 0/0 1004000000 {"running_scripts":0,"running_tests":0}
B test:t2 2/10000 1005000000
C run:concurrency 0/0 1005000000 {"running_scripts":0,"running_tests":1}
M :thread_name 2/10001 0 {"name":"slot-1"}
M :thread_sort_index 2/10001 0 {"sort_index":10001}
B test:t1 2/10001 1007000000
f test:retry 2/10001 1007000000 0
C run:concurrency 0/0 1007000000 {"running_scripts":0,"running_tests":2}
E test:t2 2/10000 1009000000
s test:retry 2/10000 1009000000 1
C run:concurrency 0/0 1009000000 {"running_scripts":0,"running_tests":1}
M :process_name 3/0 0 {"name":"beta::b"}
M :process_sort_index 3/0 0 {"sort_index":3}
M :thread_name 3/10000 0 {"name":"slot-0"}
M :thread_sort_index 3/10000 0 {"sort_index":10000}
B test:t3 3/10000 1010000000
C run:concurrency 0/0 1010000000 {"running_scripts":0,"running_tests":2}
E run:test run 0/1 1011000000
"""
)


def marks(group_by: str, drawn: Sequence[Marks]) -> Holds:
    """The outline of these begins and ends."""
    lines = [
        f"{phase} {row[group_by]} {secs}000000\n"
        for phases, rows, secs in drawn
        for row in rows
        for phase in phases
    ]
    return outline("BE", "".join(lines))


CASES = [
    case
    for name, lines, drawn in PAUSED_TESTS + ATTEMPTS + OTHER_SPANS
    for group_by in GROUPINGS
    for case in printed(name, lines, marks(group_by, drawn), group_by)
]
CASES += outlined("all that is drawn of a run", "MBECisf", ALL_SPANS, ALL_DRAWN)
