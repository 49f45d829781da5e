"""Says more exactly why a call of the program went wrong.

It looks at the words of the call, at its input, and at the place of its bundle.
"""

from __future__ import annotations

import dataclasses
import difflib
import os
import pathlib
import resource
import shlex
from collections.abc import Callable, Iterable, Mapping, Sequence

from rezovamy_runs.faults import file_kinds

# What file systems commonly take.
LONGEST_NAME = 255
PLACES = {"record": 1, "sample": 2, "upgrade": 1, "salvage": 1, "live": 1, "pack": 2}
OPTIONS = {
    "--group-by": "binary or slot",
    "--message-format": "json or json-pretty",
    "--max-output": "a number of bytes",
    "--read-limit": "a number of bytes",
    "--session-limit": "a number of bytes",
    "--output": "load or skip",
}
LIMITS = ("--read-limit", "--session-limit")
DRAWING = ("--group-by", "--message-format")
TAKEN = {
    "record": (*DRAWING, "--max-output", *LIMITS),
    "info": LIMITS,
    "trace": (*DRAWING, *LIMITS),
    "replay": (*LIMITS, "--output"),
    "report": LIMITS,
    "slots": LIMITS,
    "rerun": LIMITS,
    "view": (*LIMITS, "--output"),
    "sample": (*DRAWING, "--max-output", *LIMITS),
    "upgrade": LIMITS,
    "salvage": LIMITS,
    "live": ("--max-output", "--session-limit"),
    "pack": ("--session-limit",),
}
COMMANDS = tuple(TAKEN)


@dataclasses.dataclass(frozen=True)
class Call:
    """A call of the program: the words after its name, and the first bytes of its input."""

    words: tuple[str, ...] = ()
    # None where they are unknown.
    begins: bytes | None = None

    @property
    def command(self) -> str:
        """Return the name of the command, which may be empty."""
        return self.words[0] if self.words else ""

    @property
    def input_kind(self) -> str | None:
        """Return what the input is, with its article; None where it isn't known."""
        return None if self.begins is None else file_kinds.kind_of(self.begins)

    def word(self, values: Values) -> str | None:
        """Return the word that a line names by `at`, None where it isn't known."""
        at = int(values["at"])
        return self.words[at] if at < len(self.words) else None


# The values of a line by their names.
Values = Mapping[str, str]
Cause = Callable[[Call, Values], str | None]


def cause(form: str, call: Call, values: Values) -> str | None:
    """Return the sentence for a line of this form, where the call shows more than the line."""
    about = ABOUT.get(form.partition(" at={at}")[0])
    return about(call, values) if about else None


def listed(words: Iterable[str]) -> str:
    """Return words in a row, as `a, b or c`."""
    *others, last = words
    return f"{', '.join(others)} or {last}" if others else last


def nearest(word: str, known: Sequence[str]) -> str | None:
    """Return the known word that a mistyped one is likely to be, None where there is none."""
    return next(iter(difflib.get_close_matches(word, known, 1)), None)


def about_command(call: Call, values: Values) -> str | None:
    """Say what to do about a word that is no command."""
    word = call.word(values)
    if word is None:
        return None
    if word in ("--help", "--version"):
        return f"{word} stands alone: rezovamy {word}"
    meant = nearest(word, COMMANDS)
    return f"there is no command {word!r}: " + (
        f"rezovamy {meant} is meant" if meant else f"it is one of {listed(COMMANDS)}"
    )


def about_missing(call: Call, _values: Values) -> str | None:
    """Say which argument is missing."""
    command = call.command
    if command == "record":
        return "`record` needs the file that it writes: rezovamy record BUNDLE < SESSION"
    if command in ("upgrade", "salvage"):
        needed = f"`{command}` needs the file that it writes"
        return f"{needed}: rezovamy {command} BUNDLE < OLDER"
    if command == "live":
        return "`live` needs the folder that it makes: rezovamy live DIR < SESSION"
    if command == "pack":
        return (
            "`pack` needs the folder that `live` made, and the file that it writes: "
            "rezovamy pack DIR BUNDLE < /dev/null"
        )
    if command == "sample":
        return (
            "`sample` needs a number of tests, and the file that it writes: "
            "rezovamy sample 80 BUNDLE"
        )
    return None


def about_number(call: Call, values: Values) -> str | None:
    """Say what to do about a number of tests that is none."""
    word = call.word(values)
    return word and f"{word!r} isn't a whole number from 0 to 10000: rezovamy sample 80 BUNDLE"


def about_option(call: Call, values: Values) -> str | None:
    """Say what to do about a word that isn't an option of the command."""
    word, taken = call.word(values), TAKEN.get(call.command)
    if word is None or taken is None:
        return None
    if not word.startswith("-") and call.command not in PLACES:
        reads = f"`{call.command}` reads standard input"
        return f"{reads}: rezovamy {call.command} < {shlex.quote(word)}"
    name, equals, value = word.partition("=")
    if equals and name in taken:
        return f"an option and its value are two words: {name} {value}"
    meant = None if word in OPTIONS else nearest(word, taken)
    if meant:
        return f"`{call.command}` has no option {word!r}: {meant} is meant"
    return f"`{call.command}` has no option {word!r}: use {listed(taken)}"


def about_repeated(call: Call, values: Values) -> str | None:
    """Say which option stands there twice."""
    word = call.word(values)
    return word and f"{word} comes twice: leave one out"


def about_value(call: Call, values: Values) -> str | None:
    """Say which values the option takes."""
    at = int(values["at"])
    option = call.words[at - 1] if 0 < at <= len(call.words) else None
    if option not in OPTIONS:
        return None
    if at == len(call.words):
        return f"{option} has no value: it must be {OPTIONS[option]}"
    return f"{option} must be {OPTIONS[option]}, not {call.words[at]!r}"


def about_head(call: Call, _values: Values) -> str | None:
    """Say what was handed over in place of a session."""
    match call.input_kind:
        case None | "a session":
            return None
        case "empty":
            return (
                "standard input is empty: rezovamy record BUNDLE < SESSION, "
                "with what session_from_libtest prints"
            )
        case "a bundle":
            return (
                "this is a bundle, not a session: it is recorded already, "
                "and rezovamy info, trace, replay or report reads it"
            )
        case "what a test run printed":
            return (
                "this is what a test run printed, not a session: "
                "session_from_libtest makes one of it"
            )
        case other:
            return f"this is {other}, not a session: session_from_libtest prints one"


def about_archive(call: Call, _values: Values) -> str | None:
    """Say what was handed over in place of a bundle."""
    command = call.command or "info"
    match call.input_kind:
        case None | "a bundle":
            return None
        case "empty":
            return f"standard input is empty: rezovamy {command} < BUNDLE"
        case "a session":
            return (
                "this is a session, not a bundle: rezovamy record BUNDLE < SESSION makes one, "
                f"then rezovamy {command} < BUNDLE"
            )
        case "what a test run printed":
            return (
                "this is what a test run printed, not a bundle: "
                "rezovamy-runs test --from FILE records it"
            )
        case "a zip file":
            return (
                "this is a zip file, as nextest's own recordings are, "
                "which can't be read here: record the tests again"
            )
        case other:
            return f"this is {other}, not a bundle: pass the file that `record` wrote"


def about_bundle(call: Call, _values: Values) -> str | None:
    """Say why the file of the bundle can't be written, as far as its place shows."""
    at = PLACES.get(call.command)
    if at is None or at >= len(call.words):
        return None
    return why_unwritten(call.words[at])


def why_unwritten(path: str) -> str | None:
    """Say why a file can't be written, and what to do; None where nothing is seen."""
    folder = os.path.dirname(path) or "."
    if path == "":
        return "the path of the bundle is the empty word: name a file"
    if os.path.isdir(path):
        return f"{path} is a folder: name a file in it"
    if len(os.fsencode(os.path.basename(path))) > LONGEST_NAME:
        return f"the name of the file has more than {LONGEST_NAME} bytes: give it a shorter one"
    if file_above(path):
        return f"{file_above(path)} is a file, not a folder: name a file elsewhere"
    if not os.path.isdir(folder):
        return f"there is no folder {folder}: mkdir -p {shlex.quote(folder)}"
    place = path if os.path.exists(path) else folder
    if is_full(folder):
        return f"no room left on {mount_of(folder)}: make room there, or write the bundle elsewhere"
    if not os.access(place, os.W_OK):
        return f"{place} may not be written: name a file elsewhere, or see to its permissions"
    longest = resource.getrlimit(resource.RLIMIT_FSIZE)[0]
    if longest != resource.RLIM_INFINITY:
        return (
            f"files may have at most {longest} bytes here: "
            "raise that by `ulimit -f`, or ask who set it"
        )
    return None


def file_above(path: str) -> str | None:
    """Return the file that a path has in the place of a folder, None where it has none."""
    above = (place for place in pathlib.Path(path).parents if place.exists())
    return next((str(place) for place in above if not place.is_dir()), None)


def is_full(folder: str) -> bool:
    """Tell whether no block or no file more fits into the file system of a folder."""
    room = os.statvfs(folder)
    return room.f_blocks > 0 and room.f_bavail == 0 or room.f_files > 0 and room.f_favail == 0


def mount_of(folder: str) -> pathlib.Path:
    """Return the folder at which the file system of a folder is mounted."""
    whole = pathlib.Path(folder).resolve()
    return next(place for place in (whole, *whole.parents) if os.path.ismount(place))


ABOUT: Mapping[str, Cause] = {
    "UnknownCommand": about_command,
    "MissingPositional": about_missing,
    "BadNumber": about_number,
    "UnknownOption": about_option,
    "RepeatedOption": about_repeated,
    "MissingValue": about_value,
    "BadValue": about_value,
    "ParseHead": about_head,
    "ReadArchive fault=BadMagic": about_archive,
    "BundleFault": about_bundle,
}
