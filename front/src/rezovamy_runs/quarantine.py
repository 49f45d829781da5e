"""Tests in quarantine: a file of the workspace names them, and their failures fail no run.

A line of the file is `BINARY TEST` or `TEST`, where `*` stands for any characters. It may go on
with `until 2026-12-31`, the last day on which it counts, and with `# why`.
"""

from __future__ import annotations

import dataclasses
import datetime
import functools
import pathlib
import re
from collections.abc import Iterable, Iterator

from rezovamy_runs import formatting
from rezovamy_runs.faults.fault import Fault
from rezovamy_runs.model import Run, Status, TestName, Verdict
from rezovamy_runs.store.run_folder import Store
from rezovamy_runs.streams.session_writer import CARGO_FAILED

FILE = pathlib.PurePath(".config/rezovamy-quarantine.txt")
WORD = "QUARANTINED"
ANY = "*"
COMMENT = re.compile(r"(?:^|\s)#")
DAY = re.compile(r"\d{4}-\d\d-\d\d", re.A)


@dataclasses.dataclass(frozen=True)
class Entry:
    """A line of the file: its number, what tests it names, until which day, and why."""

    number: int
    tests: str
    until: datetime.date | None = None
    reason: str = ""

    @functools.cached_property
    def pattern(self) -> re.Pattern[str]:
        """Return the pattern of the names that it names."""
        return re.compile(".*".join(map(re.escape, self.tests.split(ANY))), re.S)

    def names(self, test: TestName) -> bool:
        """Tell whether it names a test."""
        return any(self.pattern.fullmatch(name) for name in names_of(test))

    @property
    def text(self) -> str:
        """Return what is said of a test that it names."""
        return f"{WORD}: {formatting.name(self.reason)}" if self.reason else WORD


def names_of(test: TestName) -> tuple[str, str]:
    """Return the two names by which a test can be named, as they are shown."""
    binary, name = formatting.name(test.binary), formatting.name(test.test)
    return f"{binary} {name}", name


@dataclasses.dataclass(frozen=True)
class Quarantine:
    """The lines of a file that count on a day, and those that don't any more."""

    path: str = ""
    entries: tuple[Entry, ...] = ()
    expired: tuple[Entry, ...] = ()

    @functools.cached_property
    def _exact(self) -> dict[str, Entry]:
        """Return the entries without a `*` by their tests."""
        return {one.tests: one for one in reversed(self.entries) if ANY not in one.tests}

    @functools.cached_property
    def _patterns(self) -> list[Entry]:
        """Return the entries with a `*`."""
        return [one for one in self.entries if ANY in one.tests]

    def entry_of(self, test: TestName) -> Entry | None:
        """Return an entry that names a test, None if the test isn't in quarantine."""
        exact = (self._exact.get(name) for name in names_of(test))
        patterns = (one for one in self._patterns if one.names(test))
        return next(filter(None, (*exact, next(patterns, None))), None)

    def __contains__(self, test: TestName) -> bool:
        """Tell whether a test is in quarantine."""
        return self.entry_of(test) is not None

    def marked(self, test: TestName) -> str:
        """Return what a test is called in a line, with the word if it is in quarantine."""
        whole, _ = names_of(test)
        return f"{whole} ({WORD})" if test in self else whole

    def failed(self, run: Run) -> int:
        """Return how many tests in quarantine failed in a run."""
        failed = (test for test in run.tests if test.verdict is Verdict.FAIL)
        return sum(test.key in self for test in failed)

    def status(self, run: Run, status: int) -> int:
        """Return the status of a run: 0 if it ran to its end and only such tests failed."""
        is_whole = run.status is Status.COMPLETED and not run.counts.unseen
        scripts_passed = all(script.attempt.passed for script in run.scripts)
        failed = self.failed(run)
        excuses = is_whole and scripts_passed and failed and failed == run.counts.failed
        return 0 if excuses and status == CARGO_FAILED else status

    def unknown(self, tests: Iterable[TestName]) -> list[Entry]:
        """Return the entries that name none of these tests."""
        names = {name for test in tests for name in names_of(test)}
        return [
            one
            for one in self.entries
            if one.tests not in names
            and (ANY not in one.tests or not any(map(one.pattern.fullmatch, names)))
        ]

    def remarks(self, run: Run, is_whole: bool) -> Iterator[str]:
        """Yield what is to be said of the file after a run.

        Only a run with all tests tells which lines name none.
        """
        for one in self.expired:
            day = f"the quarantine of `{one.tests}` ended on {one.until}"
            yield f"{self.path}:{one.number}: {day}: mend the test, or set another day"
        known = [*(test.key for test in run.tests), *run.never_started]
        for one in self.unknown(known) if is_whole else ():
            nothing = f"no test of the run is called `{one.tests}`"
            yield f"{self.path}:{one.number}: {nothing}: correct the line, or remove it"


NOTHING = Quarantine()


def of(runs: Store) -> Quarantine:
    """Return the quarantine of the workspace whose runs these are, as it is today."""
    root = runs.workspace_root()
    if root is None or not (root / FILE).exists():
        return NOTHING
    return read(root / FILE, datetime.date.today())


def read(path: pathlib.Path, today: datetime.date) -> Quarantine:
    """Read a file, as it counts on a day."""
    try:
        text = path.read_text("utf-8-sig")
    except (OSError, UnicodeError) as error:
        said = error.strerror if isinstance(error, OSError) else "it is no UTF-8"
        raise Fault(f"{path} can't be read: {said}; mend the file, or remove it", 2) from error
    lines = enumerate(text.splitlines(), 1)
    entries = [entry for number, line in lines if (entry := entry_of(path, number, line))]
    expired = [one for one in entries if one.until and one.until < today]
    counting = [one for one in entries if one not in expired]
    return Quarantine(str(FILE), tuple(counting), tuple(expired))


def entry_of(path: pathlib.Path, number: int, line: str) -> Entry | None:
    """Return the entry of a line, None if there is only a comment or nothing."""
    named, *reason = COMMENT.split(line, maxsplit=1)
    tests, until = named.strip(), None
    words = tests.rsplit(None, 2)
    if len(words) == 3 and words[1] == "until" and DAY.fullmatch(words[2]):
        tests = words[0]
        try:
            until = datetime.date.fromisoformat(words[2])
        except ValueError as error:
            wrong = f"{path}:{number}: {words[2]} is no day"
            raise Fault(f"{wrong}: write it as 2026-12-31", 2) from error
    return Entry(number, tests, until, "".join(reason).strip()) if tests else None
