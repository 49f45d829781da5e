"""Hostile input, and what comes of it: cut, overlong and endless bytes, entries that clash or are
missing, failing devices.

Beside these, proved tests show what no input of the built program brings about. `python3 -m
workshop.check_pages` looks whether they are there.

- A source and sinks that take single bytes: `rec_program_tests`: `single_bytes_change_nothing`.
- A source in pieces, of which a read fails: `rec_program_tests`: `faults_of_sources`;
  `rec_portable_tests`: `refusals_are_printed`.
- Sinks in pieces, of which a write fails: `rec_program_tests`:
  `faults_of_the_bundle_leave_no_trace`, `faults_of_the_trace_leave_the_bundle_whole`,
  `faults_of_standard_output`, `faults_of_other_sinks`.
- Names that don't tell the outputs of two tests apart: `rec_faults_tests`: `outputs_clash`.
"""

from __future__ import annotations

from workshop.cases.case import SOME, Case
from workshop.cases.histories import end, go_on, pause, run, run_end, start
from workshop.cases.made import ONE_TEST, bundle, log_of, store
from workshop.cases.outlines import GROUPINGS, printed
from workshop.cases.recorded_bundles import outputs_are
from workshop.cases.texts import (
    LOGGED_PAUSE,
    LOG_LINES,
    MANIFEST,
    METADATA,
    NO_SIZES,
    PAUSE_ALONE,
    RUN_PAUSED,
    SMALL_TRACE,
    TEST_STARTED,
    finished,
    replaced,
    session_of,
)
from workshop.cases.trace_slices import RUN, marks, of_test
from workshop.oracle.container import container

RECORD, INFO = ("record", "b"), ("info",)

# The session of a pause alone, 479 bytes, and its bundle, 1194 bytes.
SESSION = session_of(RUN_PAUSED)
PAUSE_SIZES = (
    b'"sizes":{"log":{"compressed":138,"entries":1,"uncompressed":138},"store":{"compressed":515,'
    b'"entries":4,"uncompressed":377}}'
)
BUNDLE = container(
    [
        (b"manifest.json", replaced(MANIFEST, NO_SIZES, PAUSE_SIZES)),
        (b"run.log.zst", LOGGED_PAUSE),
        (b"store.zip", container(METADATA)),
    ]
)
# Where its parts begin after the magic: tag, length of the name, name, length of the content and
# content of each entry, and the end mark.
PARTS = (8, 9, 11, 24, 32, 498, 499, 501, 512, 520, 658, 659, 661, 670, 678, 1193)

# A bundle whose log names an output that its store lacks.
WITHOUT_OUTPUT = bundle(log_of(*LOG_LINES), store(tests=ONE_TEST))
REPLAYED = b"""\
header 550e8400-e29b-41d4-a716-446655440000 incomplete
1000.000000000 run-started
1001.000000000 test-started alpha::a t1
1002.000000000 test-finished alpha::a t1 not-loaded
"""

# Two tests with one output, which is stored once.
ONE_OUTPUT = session_of(
    *(line.replace(b"t1", name) for name in (b"t1", b"t2") for line in (TEST_STARTED, finished()))
)
STORED_ONCE = outputs_are([(b"out/ba7816bf8f01cfea-stdout", b"abc")])

# A run, and tests on three slots: one goes on after a pause, one ends in it, and one starts in a
# pause that is the last. The run ends in a pause, twice; and pauses and continuations come twice.
PAUSES = [
    run(1000),
    start(1000, 1, 0),
    start(1000, 2, 1),
    pause(1001, 0),
    pause(1002, 0),
    end(1002, 2, 0),
    run_end(1002),
    run_end(1003),
    go_on(1003, 0),
    go_on(1004, 0),
    end(1005, 1, 0),
    pause(1006, 0),
    start(1007, 3, 2),
]
FIRST, SECOND, THIRD = of_test(1, 2, 10000), of_test(2, 2, 10001), of_test(3, 3, 10002)
SLICES = [
    ("B", [RUN, FIRST, SECOND], 1000),
    ("E", [RUN, FIRST, SECOND], 1001),
    ("BE", [SECOND], 1002),
    ("BE", [RUN], 1002),
    ("B", [FIRST], 1003),
    ("E", [FIRST], 1005),
    ("BE", [THIRD], 1007),
]


def cut(length: int) -> Case:
    """The case of the first bytes of the bundle."""
    fault = (
        b"BadMagic"
        if length < 8
        else b"Truncated at=%d" % max(part for part in PARTS if part <= length)
    )
    return Case(
        f"the first {length} bytes of a bundle",
        INFO,
        BUNDLE[:length],
        12,
        err=b"ReadArchive fault=%s\n" % fault,
    )


# Hostile input, and what is next to it.
HOSTILE = [
    Case("nothing hostile", RECORD, SESSION, out=PAUSE_ALONE, file=BUNDLE),
    Case(
        "the greatest limit",
        (*RECORD, "--session-limit", "18446744073709551615"),
        SESSION,
        out=PAUSE_ALONE,
        file=BUNDLE,
    ),
    Case("one output of two tests", RECORD, ONE_OUTPUT, out=SOME, file=STORED_ONCE),
    Case("a full device", ("record", "/dev/full"), SESSION, 10, err=b"BundleFault\n"),
    Case(
        "a line of 128 nested arrays",
        RECORD,
        session_of(b"[" * 128 + b"]" * 128),
        5,
        err=b"ParseEvent line_number=2\n",
    ),
    Case(
        "a line of 100000 nested arrays",
        RECORD,
        session_of(b"[" * 100000),
        5,
        err=b"ParseEvent line_number=2\n",
    ),
    Case(
        "a byte more than a bundle",
        INFO,
        BUNDLE + b"\0",
        12,
        err=b"ReadArchive fault=TrailingBytes at=1194\n",
    ),
    Case(
        "a content of the greatest length",
        INFO,
        b"nxtcont1\1\0\1a" + b"\xff" * 8,
        12,
        err=b"ReadArchive fault=Truncated at=20\n",
    ),
    Case(
        "a name without bytes", INFO, b"nxtcont1\1\0\0", 12, err=b"ReadArchive fault=BadName at=9\n"
    ),
    Case(
        "two manifests",
        INFO,
        container([(b"manifest.json", MANIFEST)] * 2),
        12,
        err=b"ReadArchive fault=DuplicateName at=497\n",
    ),
    Case(
        "no byte for a limit of none",
        (*INFO, "--session-limit", "0"),
        b"",
        12,
        err=b"ReadArchive fault=BadMagic\n",
    ),
    Case(
        "a byte for a limit of none",
        (*INFO, "--session-limit", "0"),
        b"n",
        4,
        err=b"SpoolTooLarge limit=0\n",
    ),
    Case("the trace without an output", ("trace",), WITHOUT_OUTPUT, out=SMALL_TRACE),
    Case(
        "replay that loads a missing output",
        ("replay", "--output", "load"),
        WITHOUT_OUTPUT,
        13,
        err=b"RecordRead FileNotFound file_name=out/ba7816bf8f01cfea-stdout\n",
    ),
    Case(
        "replay that skips a missing output",
        ("replay", "--output", "skip"),
        WITHOUT_OUTPUT,
        out=REPLAYED,
    ),
    Case(
        "replay of a whole bundle",
        ("replay",),
        BUNDLE,
        out=b"header 550e8400-e29b-41d4-a716-446655440000 incomplete\n1002.000000000 run-paused\n",
    ),
]

CASES = [*HOSTILE, Case("no bytes, and nowhere to say so", RECORD, b"", 5, device="/dev/full")]
CASES += [
    Case(
        "a pause, and nowhere to say so",
        RECORD,
        SESSION,
        out=PAUSE_ALONE,
        file=SOME,
        device="/dev/full",
    )
]
CASES += [cut(length) for length in range(len(BUNDLE))]
CASES += [
    case
    for group_by in GROUPINGS
    for case in printed("pauses on all rows", PAUSES, marks(group_by, SLICES), group_by)
]
