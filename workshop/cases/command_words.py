"""Words that are a command, words that are none, and the texts that the program prints about
itself.
"""

from __future__ import annotations

from collections.abc import Sequence

from workshop.cases.case import SOME, Case, Wanted
from workshop.cases.texts import HEAD

# Words, the status, the line on standard error, and whether standard output and the file `b` take
# something.
COMMANDS: list[tuple[list[str], int, str, bool, bool]] = [
    ([], 2, "NoCommand", False, False),
    (["rec", "b"], 2, "UnknownCommand at=0", False, False),
    (["", "b"], 2, "UnknownCommand at=0", False, False),
    (["--help", "x"], 2, "UnknownCommand at=0", False, False),
    (["record"], 2, "MissingPositional at=1", False, False),
    (["record", "b", "x"], 2, "UnknownOption at=2", False, False),
    (["record", "b", ""], 2, "UnknownOption at=2", False, False),
    (["record", "b", "--help", "x"], 2, "UnknownOption at=2", False, False),
    (["record", "b"], 0, "", True, True),
    # No file has the empty word as its path, and the bundles of the next two go into files named
    # for options.
    (["record", ""], 10, "BundleFault", False, False),
    (["record", "--help"], 0, "", True, False),
    (["record", "--max-output"], 0, "", True, False),
    (["record", "b", "--session-limit", "9"], 4, "SessionTooLarge limit=9", False, False),
    (["trace", "b"], 2, "UnknownOption at=1", False, False),
    (["trace", "--max-output", "1"], 2, "UnknownOption at=1", False, False),
    (["trace"], 12, "ReadArchive fault=BadMagic", False, False),
    (["info", "--help"], 2, "UnknownOption at=1", False, False),
    (["info", "--session-limit", "9"], 4, "SpoolTooLarge limit=9", False, False),
    (["info"], 12, "ReadArchive fault=BadMagic", False, False),
    (["replay", "b"], 2, "UnknownOption at=1", False, False),
    (["replay"], 12, "ReadArchive fault=BadMagic", False, False),
    (["report"], 12, "ReadArchive fault=BadMagic", False, False),
    (["slots", "b"], 2, "UnknownOption at=1", False, False),
    (["slots"], 12, "ReadArchive fault=BadMagic", False, False),
    (["view", "b"], 2, "UnknownOption at=1", False, False),
    (["view"], 12, "ReadArchive fault=BadMagic", False, False),
    (["rerun", "b"], 2, "UnknownOption at=1", False, False),
    (["rerun"], 12, "ReadArchive fault=BadMagic", False, False),
    (["slots", "--session-limit", "9"], 4, "SpoolTooLarge limit=9", False, False),
    (["rerun", "--session-limit", "9"], 4, "SpoolTooLarge limit=9", False, False),
    (["sample"], 2, "MissingPositional at=1", False, False),
    (["sample", "5"], 2, "MissingPositional at=2", False, False),
    (["sample", "10001"], 2, "BadNumber at=1", False, False),
    (["sample", "10001", "b"], 2, "BadNumber at=1", False, False),
    (["sample", "0", "b"], 0, "", True, True),
    (["sample", "0", ""], 10, "BundleFault", False, False),
    (["sample", "0", "--help"], 0, "", True, False),
    (["upgrade"], 2, "MissingPositional at=1", False, False),
    (["upgrade", "b", "x"], 2, "UnknownOption at=2", False, False),
    (["upgrade", "b"], 12, "Open ReadArchive fault=BadMagic", False, False),
    (["upgrade", ""], 12, "Open ReadArchive fault=BadMagic", False, False),
    (["upgrade", "b", "--session-limit", "9"], 4, "Open SpoolTooLarge limit=9", False, False),
    (["salvage"], 2, "MissingPositional at=1", False, False),
    (["salvage", "b", "x"], 2, "UnknownOption at=2", False, False),
    (["salvage", "b"], 12, "ReadArchive fault=BadMagic", False, False),
    (["salvage", ""], 12, "ReadArchive fault=BadMagic", False, False),
    (["salvage", "b", "--session-limit", "9"], 4, "SpoolTooLarge limit=9", False, False),
    (["--help"], 0, "", True, False),
    (["--version"], 0, "", True, False),
]

# Options after `record` and a path: the status and the line of what they refuse of a head alone.
OPTIONS = [
    (" --max-output 1", 0, ""),
    (" --read-limit 2", 7, "FileTooLarge file_name=manifest.json size=462 limit=2"),
    (" --session-limit 3", 4, "SessionTooLarge limit=3"),
    (" --read-limit 2 --max-output 1", 7, "FileTooLarge file_name=manifest.json size=462 limit=2"),
    (" --max-output 1 --read-limit 2 --session-limit 3", 4, "SessionTooLarge limit=3"),
    (" --session-limit 3 --max-output 1 --read-limit 2", 4, "SessionTooLarge limit=3"),
    (" --max-output 0", 0, ""),
    (" --max-output 007", 0, ""),
    (" --max-output 00000000000000000000000", 0, ""),
    (" --read-limit 18446744073709551615", 0, ""),
    (" --session-limit 0018446744073709551615", 0, ""),
]

# Words with a blank between each two, and the line that refuses them.
REFUSED = [
    ("record b ", "UnknownOption at=2"),
    ("record b --help", "UnknownOption at=2"),
    ("record b --max-outpu 1", "UnknownOption at=2"),
    ("record b --max-output=1", "UnknownOption at=2"),
    ("record b --MAX-OUTPUT 1", "UnknownOption at=2"),
    ("record b 1 --max-output", "UnknownOption at=2"),
    ("record b --max-output 1 2", "UnknownOption at=4"),
    ("record b --max-output 1 --max-output 1", "RepeatedOption at=4"),
    ("record b --read-limit 1 --read-limit", "RepeatedOption at=4"),
    ("record b --session-limit 1 --session-limit x", "RepeatedOption at=4"),
    ("record b --max-output", "MissingValue at=3"),
    ("record b --max-output 1 --read-limit", "MissingValue at=5"),
    ("record b --max-output ", "BadValue at=3"),
    ("record b --max-output +1", "BadValue at=3"),
    ("record b --max-output -1", "BadValue at=3"),
    ("record b --max-output 1x", "BadValue at=3"),
    ("record b --max-output x1", "BadValue at=3"),
    ("record b --max-output 1_0", "BadValue at=3"),
    ("record b --max-output \u0661", "BadValue at=3"),
    ("record b --max-output 18446744073709551616", "BadValue at=3"),
    ("record b --max-output --read-limit", "BadValue at=3"),
    ("record b --max-output x --max-output", "BadValue at=3"),
    ("record b --read-limit 1 --session-limit x", "BadValue at=5"),
    ("record b --max-output 1 --read-limit x --help", "BadValue at=5"),
    ("trace --max-output 1", "UnknownOption at=1"),
    ("info --max-output", "UnknownOption at=1"),
    ("trace --read-limit 1 --max-output 1", "UnknownOption at=3"),
    ("info --read-limit 1 --read-limit x", "RepeatedOption at=3"),
    ("trace --read-limit", "MissingValue at=2"),
    ("info --read-limit 1 --session-limit", "MissingValue at=4"),
    ("trace --session-limit +1", "BadValue at=2"),
    ("replay --output", "MissingValue at=2"),
    ("replay --output ", "BadValue at=2"),
    ("replay --output Skip", "BadValue at=2"),
    ("replay --output 1", "BadValue at=2"),
    ("replay --output skip --output x", "RepeatedOption at=3"),
    ("replay --group-by slot", "UnknownOption at=1"),
    ("replay --max-output 1", "UnknownOption at=1"),
    ("report --output load", "UnknownOption at=1"),
    ("report --group-by slot", "UnknownOption at=1"),
    ("report --max-output 1", "UnknownOption at=1"),
    ("report --read-limit", "MissingValue at=2"),
    ("trace --output load", "UnknownOption at=1"),
    ("info --output load", "UnknownOption at=1"),
    ("record b --output load", "UnknownOption at=2"),
    ("slots --output load", "UnknownOption at=1"),
    ("view --group-by slot", "UnknownOption at=1"),
    ("view --max-output 1", "UnknownOption at=1"),
    ("view --output all", "BadValue at=2"),
    ("view --output skip --output skip", "RepeatedOption at=3"),
    ("slots --group-by slot", "UnknownOption at=1"),
    ("slots --message-format json", "UnknownOption at=1"),
    ("slots --max-output 1", "UnknownOption at=1"),
    ("slots --read-limit", "MissingValue at=2"),
    ("slots --read-limit 1 --read-limit 1", "RepeatedOption at=3"),
    ("rerun --output load", "UnknownOption at=1"),
    ("rerun --group-by slot", "UnknownOption at=1"),
    ("rerun --message-format json", "UnknownOption at=1"),
    ("rerun --max-output 1", "UnknownOption at=1"),
    ("rerun --session-limit x", "BadValue at=2"),
    ("slot", "UnknownCommand at=0"),
    ("reruns", "UnknownCommand at=0"),
    ("sample 10001 b", "BadNumber at=1"),
    ("sample 18446744073709551616 b", "BadNumber at=1"),
    ("sample 18446744073709551615 b", "BadNumber at=1"),
    ("sample  b", "BadNumber at=1"),
    ("sample +1 b", "BadNumber at=1"),
    ("sample -1 b", "BadNumber at=1"),
    ("sample b 1", "BadNumber at=1"),
    ("sample 1x b", "BadNumber at=1"),
    ("sample x --read-limit x", "BadNumber at=1"),
    ("sample --read-limit 1", "BadNumber at=1"),
    ("sample 1", "MissingPositional at=2"),
    ("sample 1 b 2", "UnknownOption at=3"),
    ("sample 1 b --output load", "UnknownOption at=3"),
    ("sample 1 b --read-limit", "MissingValue at=4"),
    ("sample 1 b --max-output 1x", "BadValue at=4"),
    ("sample 1 b --read-limit 1 --read-limit 1", "RepeatedOption at=5"),
    ("sample 1 b --read-limit 1 --session-limit x", "BadValue at=6"),
    ("sample 1 b --group-by x", "BadValue at=4"),
    ("upgrade b --group-by slot", "UnknownOption at=2"),
    ("upgrade b --message-format json", "UnknownOption at=2"),
    ("upgrade b --max-output 1", "UnknownOption at=2"),
    ("upgrade b --output load", "UnknownOption at=2"),
    ("upgrade b --read-limit", "MissingValue at=3"),
    ("upgrade b --read-limit x", "BadValue at=3"),
    ("upgrade b --read-limit 1 --session-limit 1 --read-limit 1", "RepeatedOption at=6"),
    ("upgrade --read-limit 1", "UnknownOption at=2"),
    ("upgrades b", "UnknownCommand at=0"),
    ("salvage b --group-by slot", "UnknownOption at=2"),
    ("salvage b --message-format json", "UnknownOption at=2"),
    ("salvage b --max-output 1", "UnknownOption at=2"),
    ("salvage b --output skip", "UnknownOption at=2"),
    ("salvage b --session-limit", "MissingValue at=3"),
    ("salvage b --session-limit -1", "BadValue at=3"),
    ("salvage b --session-limit 1 --read-limit 1 --session-limit 1", "RepeatedOption at=6"),
    ("salvage --session-limit 1", "UnknownOption at=2"),
    ("salvaged b", "UnknownCommand at=0"),
    ("record b --group-by", "MissingValue at=3"),
    ("record b --group-by ", "BadValue at=3"),
    ("record b --group-by Slot", "BadValue at=3"),
    ("trace --group-by slots", "BadValue at=2"),
    ("trace --group-by 1", "BadValue at=2"),
    ("trace --group-by slot --group-by slot", "RepeatedOption at=3"),
    ("info --group-by slot", "UnknownOption at=1"),
    ("record b --max-output slot", "BadValue at=3"),
    ("record b --message-format", "MissingValue at=3"),
    ("record b --message-format ", "BadValue at=3"),
    ("record b --message-format pretty", "BadValue at=3"),
    ("record b --message-format json_pretty", "BadValue at=3"),
    ("record b --message-format Json", "BadValue at=3"),
    ("trace --message-format json --message-format json-pretty", "RepeatedOption at=3"),
    ("replay --message-format json", "UnknownOption at=1"),
    ("report --message-format json", "UnknownOption at=1"),
    ("info --message-format json", "UnknownOption at=1"),
    ("trace --group-by json", "BadValue at=2"),
    ("live", "MissingPositional at=1"),
    ("live d --read-limit 1", "UnknownOption at=2"),
    ("live d --group-by slot", "UnknownOption at=2"),
    ("live d --max-output", "MissingValue at=3"),
    ("live d --max-output x", "BadValue at=3"),
    ("pack", "MissingPositional at=1"),
    ("pack d", "MissingPositional at=2"),
    ("pack d b --max-output 1", "UnknownOption at=3"),
    ("pack d b --read-limit 1", "UnknownOption at=3"),
    ("pack d b --session-limit 1 --session-limit 1", "RepeatedOption at=5"),
]

VERSION = b"""\
rezovamy 0.1.0
portable recording format 1.1
store format 3.1
"""

# The text of `--help`, with the settings that hold where no option sets them.
HELP = b"""\
Usage: rezovamy record BUNDLE [OPTION VALUE]..
       rezovamy trace [OPTION VALUE]..
       rezovamy replay [OPTION VALUE]..
       rezovamy report [OPTION VALUE]..
       rezovamy info [OPTION VALUE]..
       rezovamy slots [OPTION VALUE]..
       rezovamy rerun [OPTION VALUE]..
       rezovamy view [OPTION VALUE]..
       rezovamy sample N BUNDLE [OPTION VALUE]..
       rezovamy upgrade BUNDLE [OPTION VALUE]..
       rezovamy salvage BUNDLE [OPTION VALUE]..
       rezovamy live DIR [OPTION VALUE]..
       rezovamy pack DIR BUNDLE [OPTION VALUE]..

record reads the session of a test run from standard input, and writes it into
the file BUNDLE, a portable recording. Its trace, a timeline for trace viewers,
goes to standard output.

The next seven read such a bundle from standard input. trace prints the trace of
its log, replay the events, a line for each, and report what came of the tests,
a line of JSON for each run. info prints the manifest. slots prints how long a
run took and how long each of its slots was busy, paused and idle, all in
nanoseconds. rerun prints which tests are to run again after a run: a line of
JSON, and then a line for each test of its list that runs again, that is
skipped, or that is to run again but is no longer listed. view prints one line
of JSON with each test, what became of it, and its attempts with their times;
then the outputs, of each a line with its path and its length, and its bytes.

sample makes a session of N tests, at most 10000, and writes it into the file
BUNDLE as record does. It prints how many events and outputs were written.

upgrade reads a bundle from standard input, and writes it anew into the file
BUNDLE, as it would be recorded today. salvage reads a bundle whose recording
was stopped, and writes what is whole in it into the file BUNDLE: the metadata,
the events up to the first that isn't there with all its outputs, and these
outputs. It prints how many events and outputs were written.

live records a run while it goes on. It makes the folder DIR, and reads the
session from standard input line by line. It keeps each event in DIR, and then
prints accepted=N, the number of events so far. What was accepted is there even
if the program is killed. pack writes the bundle of such a folder into the file
BUNDLE, of a run that was stopped as salvage does. Standard input has the head
that the run ended with, or nothing. It prints how many events and outputs were
written, and stopped if the run had no end.

Options, each at most once, with a value after it; limits are in bytes:
  --group-by        of record, trace and sample: binary draws a process for
                    each test binary, and slot one process for all (binary)
  --message-format  of record, trace and sample: json writes the trace in one
                    line, and json-pretty over several (json)
  --max-output      of record, sample and live: the most of an output that is
                    kept whole (10485760)
  --read-limit      of all but live and pack: the most of the manifest, of the
                    log and of an entry of the store (268435456)
  --session-limit   the most of standard input that is read (268435456)
  --output          of replay and view: load reads the outputs of tests, and
                    skip leaves them out (load)

Other words, each of them alone:
  --help     prints this text
  --version  prints the version of the program and of its formats

The status is 0 on success, 2 for faulty words, 3 if standard input or DIR
can't be read, 4 if standard input is too long, 5 for a faulty line or the head
of another run, 6 for other bytes under the name of an output, 7 for what is
above the read limit, 8 for an event that needs what isn't open, starts what
is, or takes a slot that is held, 9 for a number out of range, 10 if the bundle
or DIR can't be written, 11 if standard output fails, 12 for a bundle or a
manifest that is damaged, incomplete or of another version, 13 for an event
that can't be replayed or reported, 14 for a log of which slots can't tell the
use, 15 for a store of which nothing can be salvaged, and 70 if memory runs
out.
With a status other than 0, a line on standard error names the cause.
"""


def line_of(text: str) -> bytes:
    """What stands on standard error, where a line of this text does."""
    return f"{text}\n".encode() if text else b""


def named(words: Sequence[str], status: int, line: str, prints: bool, writes: bool) -> Case:
    """A case of words over a head alone."""
    out: Wanted = SOME if prints else b""
    file = SOME if writes else None
    return Case(f"words {words}", tuple(words), HEAD, status, out, line_of(line), file)


def optioned(path: str, options: str, status: int, line: str) -> Case:
    """A case of `record` into this path over a head alone.

    No file has the empty word as its path.
    """
    if path == "" and status == 0:
        status, line = 10, "BundleFault"
    return named(
        f"record {path}{options}".split(" "), status, line, status == 0, status == 0 and path == "b"
    )


CASES = [
    Case("version", ("--version",), out=VERSION),
    Case("help", ("--help",), out=HELP),
    *[named(*case) for case in COMMANDS],
    *[optioned(path, *case) for path in ("b", "", "--max-output", "--help") for case in OPTIONS],
    *[
        Case(f"refused {text!r}", tuple(text.split(" ")), status=2, err=line_of(line))
        for text, line in REFUSED
    ],
]
