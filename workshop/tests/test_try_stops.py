"""The stops of a recording: what is planned, and what is found lost in what `pack` makes."""

from __future__ import annotations

import dataclasses
from collections.abc import Iterable, Sequence

import pytest

from workshop import TOP, try_stops
from workshop.oracle.container import container
from workshop.try_stops import FULL, KILLED_AT_LENGTH, WAYS, Left, Lost, Session, Stop

HEAD = b'{"run-id":"x","test-list":{}}'
EVENT = b'{"kind":"test-finished","output":{"split":{"stdout":"616263","stderr":""}}}'
# The first eight bytes of the SHA-256 of `abc`, by FIPS 180-4.
ABC = b"out/ba7816bf8f01cfea-stdout"
LINES = (b"first\n", b"second\n")
SESSION = Session("two", b"\n".join((HEAD, EVENT, EVENT)), LINES)


def bundle(log: bytes, outputs: Iterable[tuple[bytes, bytes]]) -> bytes:
    """Make the bundle of a log and outputs."""
    parts = [(b"manifest.json", b""), (b"run.log.zst", log), (b"store.zip", container(outputs))]
    return container(parts)


@dataclasses.dataclass(frozen=True)
class Packed:
    """What `pack` answers, and a program that reads its bundle."""

    log: bytes = b"".join(LINES)
    outputs: Iterable[tuple[bytes, bytes]] = ((ABC, b"abc"),)
    printed: bytes = b"events=2 outputs=1 stopped\n"
    status: int = 0

    def sound(self, words: Sequence[str], source: bytes, folder: str) -> tuple[bytes, bytes]:
        """Return what a command prints of the bundle."""
        return {"replay": b"\n" * (1 + self.log.count(b"\n")), "trace": b"{}"}[words[0]], b""


def kept(accepted: int | None, packed: Packed, ended: int = -9) -> int | None:
    """Check what is packed of a run of which this many events were accepted."""
    answer = packed.status, packed.printed, bundle(packed.log, packed.outputs)
    left = Left(ended, accepted, b"".join(LINES), b"", answer)
    return try_stops.check(packed, SESSION, left)


def test_what_is_accepted_is_packed() -> None:
    assert kept(2, Packed()) == 2


def test_an_event_that_was_written_and_not_yet_said_to_be() -> None:
    assert kept(1, Packed()) == 2
    assert kept(None, Packed(b"", (), b"events=0 outputs=0 stopped\n")) == 0


@pytest.mark.parametrize("status", [12, 15])
def test_no_metadata_was_accepted(status: int) -> None:
    assert kept(None, Packed(status=status)) is None
    with pytest.raises(Lost, match=f"status {status}"):
        kept(0, Packed(status=status))


@pytest.mark.parametrize(
    ("accepted", "packed", "what"),
    [
        (
            2,
            Packed(LINES[0], printed=b"events=1 outputs=1 stopped\n"),
            "1 events are packed, 2 were accepted",
        ),
        (0, Packed(), "2 events are packed, 0 were accepted"),
        (2, Packed(b"first\nother\n"), "another log"),
        (2, Packed(outputs=()), "an output isn't packed as it was"),
        (2, Packed(outputs=((ABC, b"abd"),)), "an output isn't packed as it was"),
        (2, Packed(printed=b"events=2 outputs=2\n"), "pack prints b'events=2 outputs=2"),
    ],
)
def test_what_is_lost(accepted: int, packed: Packed, what: str) -> None:
    with pytest.raises(Lost, match=what):
        kept(accepted, packed)


def test_outputs_of_an_event() -> None:
    assert SESSION.outputs == [[(ABC, b"abc")], [(ABC, b"abc")]]
    event = {"output": [{"combined": "616263"}, {"stdout": None}]}
    assert list(try_stops.outputs_of(event)) == [(b"out/ba7816bf8f01cfea-combined", b"abc")]


@pytest.mark.parametrize(
    ("printed", "count"),
    [
        (b"", None),
        (b"accepted=0\n", 0),
        (b"accepted=0\naccepted=1\naccepted=2\n", 2),
        (b"accepted=0\naccepted=1\naccepted=2", 1),
    ],
)
def test_what_a_recorder_says(printed: bytes, count: int | None) -> None:
    assert try_stops.accepted_of(printed) == count


def test_a_recorder_counts_without_gaps() -> None:
    with pytest.raises(Lost):
        try_stops.accepted_of(b"accepted=0\naccepted=2\n")


def test_a_whole_run_is_not_packed_as_stopped() -> None:
    assert kept(2, Packed(printed=b"events=2 outputs=1\n"), ended=0) == 2
    with pytest.raises(Lost, match="as stopped"):
        kept(2, Packed(), ended=0)


def test_the_seed_decides_what_is_tried() -> None:
    tries = list(try_stops.plan(7, 9, [SESSION], WAYS))
    assert tries == list(try_stops.plan(7, 9, [SESSION], WAYS))
    assert tries != list(try_stops.plan(8, 9, [SESSION], WAYS))
    assert [stop.way for _, stop in tries[:5]] == [*WAYS, KILLED_AT_LENGTH]
    assert FULL not in [stop.way for _, stop in try_stops.plan(7, 9, [SESSION], WAYS[:-1])]


def test_parts_of_lengths() -> None:
    assert [Stop(FULL, part).of(10) for part in (0.0, 0.05, 0.55, 1.0)] == [1, 1, 5, 10]


def test_where_a_store_ends() -> None:
    whole = container([(ABC, b"abc")])
    cut = [end for end in range(len(whole) + 1) if try_stops.ends_in_entry(whole[:end])]
    assert cut == [*range(1, 8), *range(9, len(whole) - 1)]


def test_the_names_of_the_files() -> None:
    paths = (TOP / "crates/rec_format/src/paths.rt").read_text()
    for name in (try_stops.LOG, try_stops.STORE):
        assert f'"{name}"' in paths
