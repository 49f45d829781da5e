"""Makes the pictures of a page that the documentation shows, of a run that is made up here.

    python3 -m workshop.make_pictures

It writes `docs/screenshot.png`, a failing test, `docs/causes.png`, the overview of the run with its
failures by their causes, and `docs/history.png`, the page of many such runs. It needs Chromium.
"""

from __future__ import annotations

import base64
import contextlib
import dataclasses
import pathlib
import random
import sys
import tempfile

from rezovamy_runs.command_line import command_line
from rezovamy_runs.history import index, queries, schema
from rezovamy_runs.history.database import SqliteDatabase
from rezovamy_runs.history.joining import joined_runs
from rezovamy_runs.history.outcomes import Outcome
from rezovamy_runs.history.rows import Recorded, key_of_run
from rezovamy_runs.json_values import JsonObject
from rezovamy_runs.model import TestName, Verdict
from rezovamy_runs.page_of_runs import document as page_of_runs
from rezovamy_runs.store import notes as run_notes
from rezovamy_runs.store.notes import CiJob, RunNotes
from tests import browser
from tests.browser import NEXT_FRAME
from tests.histories import row
from tests.made import (
    continued,
    exit_code,
    failed,
    finished,
    paused,
    retried,
    run_started,
    session_of,
    started,
    status,
)
from tests.opened_page import READY, Page
from tests.page_sessions import with_binary

from workshop import TOP

WIDE, HIGH = 1280, 800
SLOTS = 4
PAUSE_AT, PAUSE = 1.33, 1.1
NOTES = RunNotes(
    project="harbor",
    commit="9f2c41d07be6a35518c0",
    branch="berths",
    host="builder-3",
    job=CiJob("GitHub", "test", "https://ci.example/harbor/412"),
    free={"source": "https://code.example/harbor/blob/{commit}/{file}#L{line}"},
)
TESTS = {
    "harbor": "names_keep_their_order logs_are_sorted_by_hour a_buoy_has_a_light tides_turn_twice "
    "no_berth_is_short the_first_berth_is_long the_pilot_waits_for_the_tide",
    "harbor::booking": "a_berth_is_booked_once bookings_dont_overlap a_booking_ends_at_noon "
    "a_long_stay_has_a_discount fees_are_rounded_up refunds_reach_the_clerk two_clerks_agree",
    "harbor::light": "the_beam_turns the_lamp_turns_on_at_dusk a_dead_lamp_is_told",
    "harbor::radio": "channels_are_free messages_are_repeated_when_lost distress_comes_first "
    "stations_answer_in_turn static_is_masked signals_cross_the_bay weather_is_read_out",
}
SILENT = {"channels_are_free": 7411, "stations_answer_in_turn": 7423, "signals_cross_the_bay": 7460}
DISCOUNT = (
    b"stay of 9 nights, 12.50 a night\n\x1b[33mwarning\x1b[0m: rates of 2025 are used\n"
    b"fee before discount: 11250\n\nthread 'a_long_stay_has_a_discount' (1546) panicked at "
    b"tests/booking.rs:92:5:\nassertion `left == right` failed: fee after discount\n"
    b"  left: 10125\n right: 10000\n"
)
DISCOUNT_ERRORS = [
    "panicked at tests/booking.rs:92:5: assertion `left == right` failed: fee after discount",
    "  left: 10125\n right: 10000",
]
LAMP = "the_lamp_turns_on_at_dusk"
SHOWN = "#harbor%3A%3Abooking/a_long_stay_has_a_discount"


@dataclasses.dataclass(frozen=True)
class Planned:
    """A test with the slot and the time at which it runs, in seconds without the pause."""

    binary: str
    name: str
    slot: int
    begin: float
    took: float


def planned() -> list[Planned]:
    """Return the tests one by one on the slot that is free first; longer names run longer."""
    free, found = [0.02 * slot for slot in range(SLOTS)], []
    for binary, names in TESTS.items():
        for name in names.split():
            slot = free.index(min(free))
            took = 0.008 * len(name) + 0.03 * (len(name) * 7 % 11)
            found.append(Planned(binary, name, slot, free[slot], took))
            free[slot] += took + 0.01
    return found


def at(instant: float) -> float:
    """Return an instant of the run with its pause."""
    return instant + PAUSE if instant > PAUSE_AT else instant


def errors_of(name: str) -> list[str]:
    """Return why a test fails, nothing if it passes."""
    if name in SILENT:
        said = f"no answer from port {SILENT[name]}"
        return [f"panicked at tests/radio.rs:{SILENT[name] % 100}:9: {said}"]
    return DISCOUNT_ERRORS if name == "a_long_stay_has_a_discount" else []


def captured(text: bytes, errors: list[str]) -> JsonObject:
    """Return what a test printed, and why it failed."""
    return {"output": {"output": {"combined": text.hex()}, "errors": errors}}


def events_of(test: Planned) -> list[tuple[float, JsonObject]]:
    """Return the events of a test with their instants."""
    begin, end, errors = at(test.begin), at(test.begin + test.took), errors_of(test.name)
    text = DISCOUNT if errors == DISCOUNT_ERRORS else b"ok\n"
    result = exit_code() if errors else "pass"
    last = status(begin, test.took, result, output=captured(text, errors))
    made = [(begin, started(begin, test.name, test.slot))]
    if test.name == LAMP:
        dark = captured(b"dusk\n", ["the lamp is dark"])
        first = status(begin, test.took, exit_code(), 1, 2, output=dark)
        again = end + 0.25
        second = status(again, 0.2, "pass", 2, 2, stdout=b"dusk\nlight\n")
        made += [(end, failed(end, test.name, first))]
        made += [(again, retried(again, test.name, 2, 2, SLOTS))]
        made += [(again + 0.2, finished(again + 0.2, test.name, first, second))]
    else:
        made += [(end, finished(end, test.name, last))]
    return [(instant, with_binary(test.binary, one)) for instant, one in made]


def session() -> str:
    """Return the session of the run."""
    timed = [one for test in planned() for one in events_of(test)]
    timed.append((PAUSE_AT, paused(PAUSE_AT)))
    timed.append((PAUSE_AT + PAUSE, continued(PAUSE_AT + PAUSE)))
    return session_of([run_started(), *(one for _, one in sorted(timed, key=lambda pair: pair[0]))])


def take(page: Page, fragment: str, picture: pathlib.Path) -> None:
    """Take a picture of a page at a fragment of its address."""
    page.open(session(), WIDE, HIGH, fragment=fragment)
    shoot(page, picture)


def recorded(number: int) -> Recorded:
    """Return one of many runs: now and then a test of the radio fails, the lamp at one commit."""
    chance = random.Random(number)
    found: dict[TestName, Outcome] = {}
    for test in planned():
        seconds = test.took * chance.uniform(0.8, 1.2) * (1.6 if number > 40 else 1)
        is_bad = test.name in SILENT and chance.random() < 0.1 or test.name == LAMP and number > 50
        is_bad = is_bad or bool(errors_of(test.name)) and test.name not in SILENT and number > 55
        verdict = Verdict.FAIL if is_bad else Verdict.PASS
        said = "no answer from the port" if is_bad else None
        found[TestName(test.binary, test.name)] = Outcome(verdict, seconds, 1, said)
    run_id, commit = f"{number:08x}-0000-4000-8000-000000000000", random.Random(number // 2)
    known = {"commit_id": f"{commit.getrandbits(64):016x}", "branch": "berths"}
    begin = 1_700_000_000.0 + 7200 * number
    values = {"id": run_id, "run": key_of_run(run_id), "started": begin, **known}
    return Recorded(dataclasses.replace(row(number), **values), found)


def take_history(page: Page, picture: pathlib.Path) -> None:
    """Take a picture of the page of many runs, at a test that fails in the newest ones."""
    with contextlib.closing(SqliteDatabase(None)) as database:
        schema.prepare(database)
        for number in range(60):
            index.add(database, recorded(number))
        runs = joined_runs(queries.run_rows(database))
        text = page_of_runs.page_html(page_of_runs.value_of(database, runs, "harbor", None))
    path = page.folder / "history.html"
    path.write_text(text)
    page.browser.open(path.as_uri() + f"#harbor%3A%3Alight/{LAMP}/{runs[-1].id}", WIDE, HIGH)
    page.browser.wait_until(READY)
    shoot(page, picture)


def shoot(page: Page, picture: pathlib.Path) -> None:
    """Write what a page shows as a picture."""
    page.evaluate(NEXT_FRAME)
    shot = page.browser.ask("Page.captureScreenshot")["data"]
    picture.write_bytes(base64.b64decode(str(shot)))


def main() -> int:
    """Make the pictures, and return the status."""
    command_line(__doc__).parse_args()
    program = browser.find()
    if program is None:
        print("Chromium is missing: install it by workshop/install_packages.sh", file=sys.stderr)
        return 1
    with browser.opened(program) as opened, tempfile.TemporaryDirectory() as folder:
        page = Page(opened, pathlib.Path(folder))
        run_notes.write(NOTES, run_notes.path_beside(page.folder / "run.bundle"))
        take(page, SHOWN, TOP / "docs/screenshot.png")
        take(page, "", TOP / "docs/causes.png")
        take_history(page, TOP / "docs/history.png")
    return 0


if __name__ == "__main__":
    sys.exit(main())
