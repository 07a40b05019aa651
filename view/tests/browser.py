"""Chromium without a window, driven by its DevTools protocol over a pipe; nothing but the standard library.

A tab keeps what is said on its console, each fault of a script, and each request that it makes.
"""
import base64
import json
import os
import pathlib
import select
import shutil
import subprocess
import tempfile
import time
from typing import Any

SECONDS = 60


def chromium() -> str | None:
    return shutil.which("chromium") or shutil.which("chromium-browser")


def words_of(program: str, folder: str) -> list[str]:
    """The words with which the browser is started: without a window, and asking nobody for anything."""
    words = [
        program,
        "--headless=new",
        "--remote-debugging-pipe",
        f"--user-data-dir={folder}",
        "--no-first-run",
        "--disable-gpu",
        "--disable-extensions",
        "--hide-scrollbars",
        "--disable-dev-shm-usage",
        "--disable-background-networking",
        "--disable-sync",
        "--no-default-browser-check",
    ]
    if os.geteuid() == 0:
        words.append("--no-sandbox")
    return words


class Browser:
    """A browser with one tab, in a folder of its own."""

    def __init__(self) -> None:
        program = chromium()
        assert program is not None
        # (a process of the browser may still write there when it ends)
        self.folder = tempfile.TemporaryDirectory(ignore_cleanup_errors=True)
        read_theirs, self.to_browser = os.pipe()
        self.from_browser, write_theirs = os.pipe()

        def pipes() -> None:
            os.dup2(read_theirs, 103)
            os.dup2(write_theirs, 104)
            os.dup2(103, 3)
            os.dup2(104, 4)

        self.process = subprocess.Popen(
            words_of(program, self.folder.name),
            preexec_fn=pipes,
            close_fds=False,
            stdin=subprocess.DEVNULL,
            stdout=subprocess.DEVNULL,
            stderr=subprocess.DEVNULL,
        )
        os.close(read_theirs)
        os.close(write_theirs)
        self.kept, self.last, self.session = b"", 0, ""
        self.events: list[dict[str, Any]] = []
        target = self.call("Target.createTarget", url="about:blank")["targetId"]
        self.session = self.call("Target.attachToTarget", targetId=target, flatten=True)["sessionId"]
        for domain in ("Page", "Runtime", "Log", "Network"):
            self.call(f"{domain}.enable")

    def close(self) -> None:
        self.process.terminate()
        self.process.wait(SECONDS)
        os.close(self.to_browser)
        os.close(self.from_browser)
        self.folder.cleanup()

    def message(self, deadline: float) -> dict[str, Any]:
        """The next message of the browser."""
        while b"\0" not in self.kept:
            ready, _, _ = select.select([self.from_browser], [], [], max(0.0, deadline - time.monotonic()))
            if not ready:
                raise TimeoutError("the browser does not answer")
            part = os.read(self.from_browser, 1 << 20)
            if not part:
                raise EOFError("the browser has ended")
            self.kept += part
        text, _, self.kept = self.kept.partition(b"\0")
        found: dict[str, Any] = json.loads(text)
        return found

    def call(self, method: str, **parameters: Any) -> dict[str, Any]:
        self.last += 1
        message: dict[str, Any] = {"id": self.last, "method": method, "params": parameters}
        if self.session:
            message["sessionId"] = self.session
        os.write(self.to_browser, json.dumps(message).encode() + b"\0")
        deadline = time.monotonic() + SECONDS
        while True:
            found = self.message(deadline)
            if found.get("id") == self.last:
                if "error" in found:
                    raise RuntimeError(f"{method}: {found['error']}")
                answer: dict[str, Any] = found["result"]
                return answer
            if "method" in found:
                self.events.append(found)

    def wide(self, width: int, height: int = 900) -> None:
        """Sets the width of the screen."""
        self.call(
            "Emulation.setDeviceMetricsOverride", width=width, height=height, deviceScaleFactor=1, mobile=width < 600
        )

    def open(self, path: pathlib.Path, anchor: str = "") -> float:
        """Opens a file, and gives the seconds until its script is done and the page is painted."""
        self.call("Page.navigate", url="about:blank")
        self.events.clear()
        began = time.monotonic()
        self.call("Page.navigate", url=path.resolve().as_uri() + anchor)
        while self.value("document.documentElement?.dataset.ready || ''") != "yes":
            if time.monotonic() > began + SECONDS:
                raise TimeoutError(f"{path} is not ready: {self.events[-5:]}")
            time.sleep(0.01)
        self.value("new Promise((done) => requestAnimationFrame(() => setTimeout(() => done(1), 0)))")
        return time.monotonic() - began

    def value(self, expression: str) -> Any:
        """The value of an expression in the page."""
        found = self.call("Runtime.evaluate", expression=expression, returnByValue=True, awaitPromise=True)
        if "exceptionDetails" in found:
            raise RuntimeError(f"{expression}: {found['exceptionDetails']}")
        return found["result"].get("value")

    def press(self, key: str, code: int, text: str = "") -> None:
        """Presses a key."""
        for kind in ("keyDown", "keyUp"):
            self.call(
                "Input.dispatchKeyEvent",
                type=kind,
                key=key,
                code=key,
                windowsVirtualKeyCode=code,
                text=text if kind == "keyDown" else "",
            )

    def requests(self) -> list[str]:
        """The addresses that were asked for."""
        return [
            event["params"]["request"]["url"]
            for event in self.events
            if event["method"] == "Network.requestWillBeSent"
        ]

    def faults(self) -> list[str]:
        """What was said on the console, and each fault of a script."""
        kinds = ("Runtime.exceptionThrown", "Log.entryAdded", "Runtime.consoleAPICalled")
        return [json.dumps(event["params"])[:400] for event in self.events if event["method"] in kinds]

    def picture(self, path: pathlib.Path, whole: bool = True) -> None:
        """A picture of the page."""
        found = self.call("Page.captureScreenshot", format="png", captureBeyondViewport=whole)
        path.write_bytes(base64.b64decode(found["data"]))

    def printed(self, **parameters: Any) -> bytes:
        """The page as it is printed, a PDF."""
        return base64.b64decode(self.call("Page.printToPDF", printBackground=True, **parameters)["data"])
