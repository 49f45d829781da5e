"""A headless Chromium that is driven over a pipe by its DevTools protocol, for tests of pages."""

from __future__ import annotations

import contextlib
import json
import os
import pathlib
import select
import shutil
import signal
import subprocess
import tempfile
import time
from collections.abc import Iterator
from typing import TypeAlias

Json: TypeAlias = dict[str, object]

PROGRAMS = ("chromium", "chromium-browser", "google-chrome", "google-chrome-stable")
LONGEST_WAIT = 60
# Some machines, as containers, have no sandbox, no graphics or little shared memory.
WORDS = (
    "--headless=new",
    "--remote-debugging-pipe",
    "--no-sandbox",
    "--disable-gpu",
    "--disable-dev-shm-usage",
    "--no-first-run",
    "--disable-background-networking",
    "--disable-component-update",
    "--disable-sync",
    "--hide-scrollbars",
)
NEXT_FRAME = "new Promise((done) => requestAnimationFrame(() => requestAnimationFrame(done)))"
DOMAINS = ("Page", "Runtime", "Log", "Network")


def find() -> str | None:
    """Return the path of a browser, None where there is none; CHROMIUM may name one."""
    named = os.environ.get("CHROMIUM")
    return next(filter(None, map(shutil.which, [named] if named else PROGRAMS)), None)


def member(value: object, *names: str) -> object:
    """Return a member of a member of an object, None where one of them is missing."""
    for name in names:
        value = value.get(name) if isinstance(value, dict) else None
    return value


def take_pipes(down: int, up: int) -> None:
    """Let pipes be the streams of a browser that starts."""
    os.dup2(down, 1003)
    os.dup2(up, 1004)
    os.dup2(1003, 3)
    os.dup2(1004, 4)


class Browser:
    """An open browser with one page, of which messages to its console and requests are kept."""

    def __init__(self, program: str, folder: pathlib.Path) -> None:
        down, self.to_browser = os.pipe()
        self.from_browser, up = os.pipe()
        self.rest, self.number = b"", 0
        self.events: list[Json] = []
        self.session: str | None = None
        self.process = subprocess.Popen(
            [program, *WORDS, f"--user-data-dir={folder}", "about:blank"],
            preexec_fn=lambda: take_pipes(down, up),
            close_fds=False,
            stdin=subprocess.DEVNULL,
            stdout=subprocess.DEVNULL,
            stderr=subprocess.DEVNULL,
            start_new_session=True,
        )
        os.close(down)
        os.close(up)
        target = self.ask("Target.createTarget", url="about:blank")["targetId"]
        attached = self.ask("Target.attachToTarget", targetId=target, flatten=True)
        self.session = str(attached["sessionId"])
        for domain in DOMAINS:
            self.ask(f"{domain}.enable")

    def ask(self, method: str, **parameters: object) -> Json:
        """Return what the browser answers; events that come meanwhile are kept."""
        self.number += 1
        message: Json = {"id": self.number, "method": method, "params": parameters}
        if self.session:
            message["sessionId"] = self.session
        os.write(self.to_browser, json.dumps(message).encode() + b"\0")
        while True:
            answer = self.next_message()
            if answer.get("id") == self.number:
                assert "error" not in answer, f"{method}: {member(answer, 'error', 'message')}"
                result = answer["result"]
                assert isinstance(result, dict)
                return result
            self.events.append(answer)

    def next_message(self) -> Json:
        """Return the next message of the browser."""
        until = time.monotonic() + LONGEST_WAIT
        while b"\0" not in self.rest:
            wait = max(0, until - time.monotonic())
            ready, _, _ = select.select([self.from_browser], [], [], wait)
            part = os.read(self.from_browser, 1 << 16) if ready else b""
            assert part, "the browser doesn't answer"
            self.rest += part
        message, self.rest = self.rest.split(b"\0", 1)
        value = json.loads(message)
        assert isinstance(value, dict)
        return value

    def evaluate(self, code: str) -> object:
        """Return the value of an expression in the page."""
        answer = self.ask(
            "Runtime.evaluate", expression=code, returnByValue=True, awaitPromise=True
        )
        fault = member(answer, "exceptionDetails", "exception", "description")
        assert "exceptionDetails" not in answer, fault or "the page fails"
        return member(answer, "result", "value")

    def wait_until(self, code: str) -> None:
        """Wait until an expression in the page is true."""
        until = time.monotonic() + LONGEST_WAIT
        while not self.evaluate(f"Boolean({code})"):
            assert time.monotonic() <= until, f"it never comes: {code}"
            time.sleep(0.02)

    def open(self, address: str, wide: int = 1400, high: int = 900, dark: bool = False) -> None:
        """Open a page in a window of this size."""
        size: Json = {"width": wide, "height": high, "deviceScaleFactor": 1, "mobile": False}
        self.ask("Emulation.setDeviceMetricsOverride", **size)
        scheme = {"name": "prefers-color-scheme", "value": "dark" if dark else "light"}
        self.ask("Emulation.setEmulatedMedia", features=[scheme])
        # To another fragment of the page that is open a browser only scrolls.
        self.ask("Page.navigate", url="about:blank")
        self.ask("Page.navigate", url=address)
        self.wait_until("document.readyState === 'complete'")
        # Before the first frame a browser drops what mouse and keys do.
        self.evaluate(NEXT_FRAME)

    def press(self, key: str, code: int | None = None, text: str | None = None) -> None:
        """Press a key; `code` is the number that Windows has for it."""
        number = code or ord(key[0].upper())
        shared: Json = {"key": key, "code": key, "windowsVirtualKeyCode": number}
        written: Json = {"text": text} if text else {}
        self.ask("Input.dispatchKeyEvent", type="keyDown", **shared, **written)
        self.ask("Input.dispatchKeyEvent", type="keyUp", **shared)

    def write(self, text: str) -> None:
        """Type a text where the keyboard is."""
        self.ask("Input.insertText", text=text)

    def click(self, x: float, y: float) -> None:
        """Click with the mouse."""
        kinds = {"mouseMoved": "none", "mousePressed": "left", "mouseReleased": "left"}
        for kind, button in kinds.items():
            place: Json = {"x": x, "y": y, "button": button, "clickCount": 1}
            self.ask("Input.dispatchMouseEvent", type=kind, **place)

    def drag(self, begin: tuple[float, float], end: tuple[float, float], shift: bool) -> None:
        """Drag with the mouse from a place to another one, with the shift key or without it."""
        steps = [("mousePressed", begin, 0), ("mouseMoved", end, 1), ("mouseReleased", end, 1)]
        for kind, (x, y), buttons in steps:
            place: Json = {"x": x, "y": y, "button": "left", "buttons": buttons, "clickCount": 1}
            modifiers = 8 if shift else 0
            self.ask("Input.dispatchMouseEvent", type=kind, modifiers=modifiers, **place)

    def complaints(self) -> list[str]:
        """Return what the page wrote to its console, and exceptions that nobody caught."""
        found = []
        for event in self.events:
            told = event.get("params")
            match event.get("method"):
                case "Runtime.exceptionThrown":
                    details = member(told, "exceptionDetails")
                    said = member(details, "exception", "description")
                    found.append(str(said or member(details, "text")))
                case "Runtime.consoleAPICalled":
                    found.append(f"console.{member(told, 'type')}")
                case "Log.entryAdded":
                    found.append(str(member(told, "entry", "text")))
        return found

    def requests(self) -> list[str]:
        """Return the addresses for which the page asked."""
        addresses = [
            str(member(event, "params", "request", "url"))
            for event in self.events
            if event.get("method") == "Network.requestWillBeSent"
        ]
        return [address for address in addresses if not address.startswith(("data:", "about:"))]

    def close(self) -> None:
        """End the browser, if need be by force."""
        with contextlib.suppress(OSError, AssertionError):
            self.session = None
            self.ask("Browser.close")
        with contextlib.suppress(subprocess.TimeoutExpired):
            self.process.wait(10)
        with contextlib.suppress(ProcessLookupError):
            os.killpg(self.process.pid, signal.SIGKILL)
        self.process.wait()
        os.close(self.to_browser)
        os.close(self.from_browser)


@contextlib.contextmanager
def opened(program: str) -> Iterator[Browser]:
    """Open a browser with a profile of its own, which goes with it."""
    with tempfile.TemporaryDirectory(ignore_cleanup_errors=True) as folder:
        browser = Browser(program, pathlib.Path(folder))
        try:
            yield browser
        finally:
            browser.close()
