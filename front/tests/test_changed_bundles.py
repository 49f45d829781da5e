"""Of bundles that were changed, what is shown are exactly those that the program accepts."""

from __future__ import annotations

import concurrent.futures
import pathlib
import random
import subprocess
from collections.abc import Iterator

import pytest

from tests import EXAMPLES
from tests.front_end import FrontEnd

pytestmark = pytest.mark.program

EACH = 50
SEED = 20_25


def changed(whole: bytes, other: bytes) -> Iterator[bytes]:
    """Yield bundles with one bit flipped, cut, with a piece twice, and with another one behind."""
    chance = random.Random(SEED)
    for _ in range(EACH):
        place = chance.randrange(len(whole))
        flipped = bytearray(whole)
        flipped[place] ^= 1 << chance.randrange(8)
        yield bytes(flipped)
        yield whole[:place]
        begin, end = sorted(chance.sample(range(len(whole)), 2))
        yield whole[:end] + whole[begin:]
        yield whole + other[: chance.randrange(1, len(other) + 1)]


@pytest.fixture
def bundles(front_end: FrontEnd, program: pathlib.Path) -> list[pathlib.Path]:
    """The paths of the changed bundles of the example."""
    session = (EXAMPLES / "pause_and_retry.session").read_bytes()
    made = front_end.folder / "made.bundle"
    subprocess.run([program, "record", made], input=session, capture_output=True, check=True)
    paths = []
    for number, data in enumerate(changed(made.read_bytes(), made.read_bytes())):
        paths.append(front_end.folder / f"{number}.bundle")
        paths[-1].write_bytes(data)
    return paths


def test_what_is_shown_is_what_is_accepted(
    front_end: FrontEnd, program: pathlib.Path, bundles: list[pathlib.Path]
) -> None:
    def told(path: pathlib.Path) -> tuple[bool, bool]:
        """Return whether the program accepts a bundle, and whether it is shown."""
        viewed = subprocess.run(
            [program, "view", "--output", "load"],
            input=path.read_bytes(),
            capture_output=True,
            check=False,
        )
        shown = front_end.run("show", str(path))
        assert shown.returncode in (0, 1)
        assert bool(shown.stdout) == (shown.returncode == 0)
        assert shown.returncode == 0 or str(path) in shown.stderr
        return viewed.returncode == 0, shown.returncode == 0

    with concurrent.futures.ThreadPoolExecutor(4) as pool:
        found = list(pool.map(told, bundles))
    assert len(found) == 4 * EACH
    assert [accepted for accepted, _ in found] == [shown for _, shown in found]
    assert 0 < sum(accepted for accepted, _ in found) < len(found)
