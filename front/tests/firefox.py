"""A headless Firefox that is driven by its Marionette protocol, for tests of pages."""

from __future__ import annotations

import contextlib
import json
import os
import pathlib
import shutil
import signal
import socket
import subprocess
import tempfile
import time
from collections.abc import Iterator

PROGRAMS = ("firefox-esr", "firefox")
LONGEST_WAIT = 60
# A port that is free; no page of the vendor's at the start.
PREFERENCES = """
user_pref("marionette.port", 0);
user_pref("browser.startup.page", 0);
user_pref("datareporting.policy.dataSubmissionEnabled", false);
user_pref("app.normandy.enabled", false);
"""


def find() -> str | None:
    """Return the path of a Firefox, None if there isn't one."""
    return next(filter(None, map(shutil.which, PROGRAMS)), None)


class Firefox:
    """An open Firefox with one page."""

    def __init__(self, program: str, folder: pathlib.Path) -> None:
        (folder / "user.js").write_text(PREFERENCES)
        self.process = subprocess.Popen(
            [program, "--headless", "--no-remote", "--marionette", "--profile", str(folder)],
            env={**os.environ, "HOME": str(folder)},
            stdin=subprocess.DEVNULL,
            stdout=subprocess.DEVNULL,
            stderr=subprocess.DEVNULL,
            start_new_session=True,
        )
        self.number = 0
        self.connection = connected(folder / "MarionetteActivePort")
        self.stream = self.connection.makefile("rb")
        self.next_message()
        self.ask("WebDriver:NewSession")

    def next_message(self) -> object:
        """Return the next message of the browser, which its length stands before."""
        digits = b""
        while not digits.endswith(b":"):
            digit = self.stream.read(1)
            assert digit, "the browser has ended"
            digits += digit
        message: object = json.loads(self.stream.read(int(digits[:-1])))
        return message

    def ask(self, method: str, **parameters: object) -> object:
        """Return what the browser answers."""
        self.number += 1
        text = json.dumps([0, self.number, method, parameters]).encode()
        self.connection.sendall(b"%d:%s" % (len(text), text))
        answer = self.next_message()
        assert isinstance(answer, list)
        assert answer[2] is None, f"{method}: {answer[2]}"
        result = answer[3]
        return result.get("value", result) if isinstance(result, dict) else result

    def evaluate(self, code: str) -> object:
        """Return the value of an expression in the page."""
        return self.ask("WebDriver:ExecuteScript", script=f"return {code}", args=[])

    def wait_until(self, code: str) -> None:
        """Wait until an expression in the page is true."""
        until = time.monotonic() + LONGEST_WAIT
        while not self.evaluate(f"Boolean({code})"):
            assert time.monotonic() <= until, f"it never comes: {code}"
            time.sleep(0.02)

    def open(self, address: str) -> None:
        """Open a page."""
        self.ask("WebDriver:Navigate", url="about:blank")
        self.ask("WebDriver:Navigate", url=address)

    def click(self, selector: str) -> None:
        """Click on an element with the mouse."""
        found = self.ask("WebDriver:FindElement", using="css selector", value=selector)
        assert isinstance(found, dict)
        self.ask("WebDriver:ElementClick", id=next(iter(found.values())))

    def close(self) -> None:
        """End the browser, if need be by force."""
        with contextlib.suppress(OSError, AssertionError, ValueError):
            self.ask("Marionette:Quit", flags=["eForceQuit"])
        with contextlib.suppress(subprocess.TimeoutExpired):
            self.process.wait(10)
        with contextlib.suppress(ProcessLookupError):
            os.killpg(self.process.pid, signal.SIGKILL)
        self.process.wait()
        self.stream.close()
        self.connection.close()


def connected(port_file: pathlib.Path) -> socket.socket:
    """Return a connection to a browser that writes its port to a file once it listens."""
    until = time.monotonic() + LONGEST_WAIT
    while not port_file.exists() or not port_file.read_text().strip():
        assert time.monotonic() <= until, "the browser doesn't listen"
        time.sleep(0.05)
    connection = socket.create_connection(("127.0.0.1", int(port_file.read_text())))
    connection.settimeout(LONGEST_WAIT)
    return connection


@contextlib.contextmanager
def opened(program: str) -> Iterator[Firefox]:
    """Open a browser with a profile of its own, which goes with it."""
    with tempfile.TemporaryDirectory(ignore_cleanup_errors=True) as folder:
        browser = Firefox(program, pathlib.Path(folder))
        try:
            yield browser
        finally:
            browser.close()
