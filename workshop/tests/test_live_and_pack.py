"""What the built program does while a run goes on, and what it packs of the folder that it left."""

from __future__ import annotations

import dataclasses
import json
import subprocess
from pathlib import Path

import pytest

from workshop.cases.texts import (
    HEAD,
    LOGGED_PAUSE,
    METADATA,
    RUN_PAUSED,
    SMALL_SESSION,
)
from workshop.oracle.container import container, entries

pytestmark = pytest.mark.program

NO_SIZES = {"compressed": 0, "uncompressed": 0, "entries": 0}
# The manifest of a run that goes on: that of the head, without sizes.
BEGUN = {
    "format-version": {"major": 1, "minor": 1},
    "run": {
        "cli-args": [],
        "env-vars": {},
        "last-written-at": {"nanos": 0, "offset": 0, "secs": 1011},
        "nextest-version": "0.9.111",
        "run-id": "550e8400-e29b-41d4-a716-446655440000",
        "sizes": {"log": NO_SIZES, "store": NO_SIZES},
        "started-at": {"nanos": 0, "offset": 0, "secs": 1000},
        "status": {"status": "incomplete"},
        "store-format-minor-version": 1,
        "store-format-version": 3,
    },
}
ENDED = HEAD.replace(b'"secs":1011', b'"secs":1500').replace(
    b'{"status":"incomplete"}',
    b'{"status":"completed","initial-run-count":0,"passed":0,' b'"failed":0,"exit-code":0}',
)


@dataclasses.dataclass(frozen=True)
class Done:
    """What came of a command."""

    status: int
    out: bytes
    err: bytes


def run(program: Path, folder: Path, words: str, given: bytes = b"") -> Done:
    """Run a command in a folder."""
    done = subprocess.run(
        [program, *words.split()], cwd=folder, input=given, capture_output=True, check=False
    )
    return Done(done.returncode, done.stdout, done.stderr)


def lines(*parts: bytes) -> bytes:
    """Return a line of each part."""
    return b"".join(part + b"\n" for part in parts)


def test_a_run_that_goes_on(program: Path, tmp_path: Path) -> None:
    """The folder has the manifest, the log and the store."""
    done = run(program, tmp_path, "live d", lines(HEAD, RUN_PAUSED, RUN_PAUSED))
    assert done == Done(0, b"accepted=0\naccepted=1\naccepted=2\n", b"")
    assert json.loads((tmp_path / "d/manifest.json").read_bytes()) == BEGUN
    assert (tmp_path / "d/run.log.zst").read_bytes() == LOGGED_PAUSE * 2
    assert (tmp_path / "d/store.zip").read_bytes() == container(METADATA)
    assert len(list((tmp_path / "d").iterdir())) == 3


@pytest.mark.parametrize(
    ("words", "session", "expected"),
    [
        # A line that is refused ends the recording as it ends `record`.
        ("live d", lines(HEAD, RUN_PAUSED, b"{}"), Done(5, b"0 1", b"ParseEvent line_number=3\n")),
        ("live d", lines(HEAD, b"\xff"), Done(5, b"0", b"ReadRunLog line_number=2\n")),
        ("live d", lines(HEAD, b"", b" ", RUN_PAUSED), Done(0, b"0 1", b"")),
        ("live d", HEAD, Done(0, b"0", b"")),
        ("live d --session-limit 9", lines(HEAD), Done(4, b"", b"SessionTooLarge limit=9\n")),
        # Nothing is made where there is no head, and where the folder's parent is missing.
        ("live d", b"", Done(5, b"", b"ParseHead\n")),
        ("live d", b"{}\n", Done(5, b"", b"ParseHead\n")),
        ("live no/d", lines(HEAD), Done(10, b"", b"ManifestFault\n")),
    ],
)
def test_how_a_recording_ends(
    program: Path, tmp_path: Path, words: str, session: bytes, expected: Done
) -> None:
    told = b"".join(b"accepted=%s\n" % count for count in expected.out.split())
    assert run(program, tmp_path, words, session) == dataclasses.replace(expected, out=told)
    assert (tmp_path / "d").exists() == (told != b"")


def test_a_folder_that_is_there(program: Path, tmp_path: Path) -> None:
    """It isn't touched."""
    (tmp_path / "d").mkdir()
    done = run(program, tmp_path, "live d", lines(HEAD))
    assert done == Done(10, b"", b"ManifestFault\n")
    assert not list((tmp_path / "d").iterdir())


def test_a_run_without_events(program: Path, tmp_path: Path) -> None:
    """It has a log, which is empty."""
    assert run(program, tmp_path, "live d", lines(HEAD)).status == 0
    assert (tmp_path / "d/run.log.zst").read_bytes() == b""
    assert run(program, tmp_path, "pack d b") == Done(0, b"events=0 outputs=0\n", b"")


def test_outputs_are_cut(program: Path, tmp_path: Path) -> None:
    """What `record` makes of a session is what `pack` makes of the same one."""
    run(program, tmp_path, "record recorded --max-output 2", SMALL_SESSION)
    assert run(program, tmp_path, "live d --max-output 2", SMALL_SESSION).status == 0
    done = run(program, tmp_path, "pack d packed")
    assert (done.status, done.err) == (0, b"")
    assert not done.out.endswith(b"stopped\n")
    recorded, packed = (entries((tmp_path / name).read_bytes()) for name in ("recorded", "packed"))
    assert packed == recorded


def begun(folder: Path, log: bytes, store: bytes, manifest: object = BEGUN) -> None:
    """Make the folder of a run."""
    (folder / "d").mkdir()
    (folder / "d/manifest.json").write_text(json.dumps(manifest))
    (folder / "d/run.log.zst").write_bytes(log)
    (folder / "d/store.zip").write_bytes(store)


WHOLE = container(METADATA)


@pytest.mark.parametrize(
    ("log", "store", "printed", "kept"),
    [
        (LOGGED_PAUSE * 2, WHOLE, b"events=2 outputs=0\n", 2),
        (b"", WHOLE, b"events=0 outputs=0\n", 0),
        # The store has no end.
        (LOGGED_PAUSE * 2, WHOLE[:-1], b"events=2 outputs=0 stopped\n", 2),
        # The log ends within a line, or with one that is no event.
        (LOGGED_PAUSE + b'{"el', WHOLE, b"events=1 outputs=0 stopped\n", 1),
        (LOGGED_PAUSE + b"{}\n", WHOLE, b"events=1 outputs=0\n", 1),
    ],
)
def test_what_is_packed(
    program: Path, tmp_path: Path, log: bytes, store: bytes, printed: bytes, kept: int
) -> None:
    begun(tmp_path, log, store)
    assert run(program, tmp_path, "pack d b") == Done(0, printed, b"")
    parts = entries((tmp_path / "b").read_bytes())
    assert parts[b"run.log.zst"] == LOGGED_PAUSE * kept
    assert parts[b"store.zip"] == WHOLE
    assert sorted(path.name for path in tmp_path.iterdir()) == ["b", "d"]


def test_a_run_that_ended(program: Path, tmp_path: Path) -> None:
    """The head that it ended with says how, when and after how long."""
    begun(tmp_path, LOGGED_PAUSE, WHOLE)
    assert run(program, tmp_path, "pack d b", lines(ENDED)).status == 0
    manifest = json.loads(entries((tmp_path / "b").read_bytes())[b"manifest.json"])
    assert manifest["run"]["status"]["status"] == "completed"
    assert manifest["run"]["last-written-at"]["secs"] == 1500
    assert manifest["run"]["started-at"]["secs"] == 1000


OTHER_ID = ENDED.replace(b"550e8400", b"550e8401")
OTHER_START = ENDED.replace(b'"secs":1000', b'"secs":1001')


@pytest.mark.parametrize(
    ("closing", "status", "line"),
    [
        (b"{}", 5, b"ParseHead\n"),
        (b"\n", 5, b"ParseHead\n"),
        (OTHER_ID, 5, b"OtherRun\n"),
        (OTHER_START, 5, b"OtherRun\n"),
    ],
)
def test_another_head(
    program: Path, tmp_path: Path, closing: bytes, status: int, line: bytes
) -> None:
    begun(tmp_path, LOGGED_PAUSE, WHOLE)
    (tmp_path / "b").write_bytes(b"older")
    assert run(program, tmp_path, "pack d b", closing) == Done(status, b"", line)
    assert (tmp_path / "b").read_bytes() == b"older"


@pytest.mark.parametrize(
    ("gone", "status", "line"),
    [
        ("manifest.json", 12, b"OpenManifest path=d/manifest.json\n"),
        ("store.zip", 12, b"OpenArchive path=d/store.zip\n"),
        ("run.log.zst", 12, b"OpenRunLog path=d/run.log.zst\n"),
    ],
)
def test_a_file_that_is_missing(
    program: Path, tmp_path: Path, gone: str, status: int, line: bytes
) -> None:
    begun(tmp_path, LOGGED_PAUSE, WHOLE)
    (tmp_path / "d" / gone).unlink()
    assert run(program, tmp_path, "pack d b") == Done(status, b"", line)
    assert not (tmp_path / "b").exists()


@pytest.mark.parametrize(
    ("file", "content", "status", "line"),
    [
        ("manifest.json", b"{}", 12, b"ParseManifest\n"),
        ("store.zip", b"", 15, b"BadMagic\n"),
        (
            "store.zip",
            container(METADATA[1:]),
            15,
            b"MissingMeta file_name=meta/build-scope.json\n",
        ),
    ],
)
def test_a_file_that_is_none(
    program: Path, tmp_path: Path, file: str, content: bytes, status: int, line: bytes
) -> None:
    begun(tmp_path, LOGGED_PAUSE, WHOLE)
    (tmp_path / "d" / file).write_bytes(content)
    assert run(program, tmp_path, "pack d b") == Done(status, b"", line)


def test_a_bundle_that_cannot_be_written(program: Path, tmp_path: Path) -> None:
    begun(tmp_path, LOGGED_PAUSE, WHOLE)
    assert run(program, tmp_path, "pack d no/b") == Done(10, b"", b"BundleFault\n")
