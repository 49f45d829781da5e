"""A server of PostgreSQL that lasts as long as the tests, in a folder of its own."""

from __future__ import annotations

import contextlib
import dataclasses
import os
import pathlib
import shutil
import signal
import subprocess
import tempfile
import time
from collections.abc import Iterator

LONGEST_START = 60


def programs() -> pathlib.Path | None:
    """Return the folder of the server's programs, None where there is none."""
    installed = sorted(pathlib.Path("/usr/lib/postgresql").glob("*/bin/pg_isready"))
    on_path = shutil.which("pg_isready")
    found: list[str | pathlib.Path] = [*([on_path] if on_path else []), *installed]
    places = [pathlib.Path(one).resolve().parent for one in found]
    return next((place for place in reversed(places) if (place / "initdb").exists()), None)


@dataclasses.dataclass
class Server:
    """A server that listens at a socket in its folder."""

    folder: pathlib.Path
    user: str | None
    process: subprocess.Popen[bytes] | None = None

    def url(self, database: str = "postgres") -> str:
        """Return the URL of a database."""
        return f"postgresql:///{database}?host={self.folder}&user=postgres"

    def start(self) -> None:
        """Start the server, and wait until it answers."""
        path = programs()
        assert path is not None
        words = ["-D", str(self.folder / "data"), "-k", str(self.folder), "-c", "fsync=off"]
        self.process = subprocess.Popen(
            [path / "postgres", *words, "-c", "listen_addresses="],
            stdout=subprocess.DEVNULL,
            stderr=subprocess.DEVNULL,
            user=self.user,
        )
        until = time.monotonic() + LONGEST_START
        ready = [str(path / "pg_isready"), "-q", "-h", str(self.folder)]
        while subprocess.run(ready, check=False).returncode:
            assert self.process.poll() is None and time.monotonic() < until
            time.sleep(0.05)

    def stop(self) -> None:
        """End the server at once, as it ends when its machine does."""
        if self.process:
            self.process.send_signal(signal.SIGQUIT)
            self.process.wait()
            self.process = None

    def make(self, database: str) -> str:
        """Make a database anew, and return its URL."""
        path = programs()
        assert path is not None
        for words in (["dropdb", "--if-exists"], ["createdb"]):
            command = [str(path / words[0]), *words[1:], "-h", str(self.folder), "-U", "postgres"]
            subprocess.run([*command, database], check=True, stderr=subprocess.DEVNULL)
        return self.url(database)


@contextlib.contextmanager
def server() -> Iterator[Server]:
    """Make a server and let it run."""
    path = programs()
    assert path is not None
    folder = pathlib.Path(tempfile.mkdtemp(prefix="pg-", dir="/tmp"))
    # It never runs as root.
    user = "postgres" if os.geteuid() == 0 else None
    if user:
        shutil.chown(folder, user)
    made = Server(folder, user)
    try:
        words = ["-D", str(folder / "data"), "-A", "trust", "-U", "postgres", "-E", "UTF8"]
        subprocess.run(
            [path / "initdb", *words, "--no-sync"],
            check=True,
            stdout=subprocess.DEVNULL,
            user=user,
            cwd=folder,
        )
        made.start()
        yield made
    finally:
        made.stop()
        shutil.rmtree(folder, ignore_errors=True)
