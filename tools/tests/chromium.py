"""Drives a headless Chromium through its pipe of commands, with nothing but the standard library."""
from __future__ import annotations

import base64
import json
import os
import select
import shutil
import subprocess
import tempfile
import time
from typing import Any, Optional

NAMES = ("chromium", "chromium-browser", "google-chrome", "google-chrome-stable")
SECONDS = 120


def program() -> Optional[str]:
    """The browser's program, or None where none is installed."""
    return next((found for found in (shutil.which(name) for name in NAMES) if found), None)


class Browser:
    """A page that is open. Commands go to the descriptor 3 of the browser, answers come from its 4."""

    def __init__(self, path: str, width: int = 1280, height: int = 900) -> None:
        self.folder = tempfile.TemporaryDirectory()
        to_read, self.to_write = os.pipe()
        self.from_read, from_write = os.pipe()

        def place() -> None:
            # Both go by numbers that are free, so that neither is closed by the other.
            commands, answers = os.dup2(to_read, 63), os.dup2(from_write, 64)
            os.dup2(commands, 3)
            os.dup2(answers, 4)

        words = [program() or NAMES[0], "--headless", "--no-sandbox", "--disable-gpu",
                 "--disable-dev-shm-usage", "--no-first-run", "--remote-debugging-pipe",
                 f"--user-data-dir={self.folder.name}", f"--window-size={width},{height}", "about:blank"]
        self.process = subprocess.Popen(words, stdin=subprocess.DEVNULL, stdout=subprocess.DEVNULL,
                                        stderr=subprocess.DEVNULL, preexec_fn=place, close_fds=False)
        os.close(to_read)
        os.close(from_write)
        self.left, self.number = b"", 0
        self.session: Optional[str] = None
        self.events: list[dict[str, Any]] = []
        target = self.send("Target.createTarget", url="about:blank")["targetId"]
        self.session = self.send("Target.attachToTarget", targetId=target, flatten=True)["sessionId"]
        for domain in ("Page", "Runtime", "Network", "Log"):
            self.send(domain + ".enable")
        self.send("Page.navigate", url="file://" + os.path.abspath(path))
        self.wait("document.body && document.body.dataset.ready === 'yes'")

    def send(self, method: str, **params: Any) -> Any:
        self.number += 1
        message = {"id": self.number, "method": method, "params": params}
        if self.session:
            message["sessionId"] = self.session
        os.write(self.to_write, json.dumps(message).encode() + b"\0")
        while True:
            answer = self.read()
            if answer.get("id") == self.number:
                if "error" in answer:
                    raise AssertionError(f"{method}: {answer['error']}")
                return answer["result"]
            self.events.append(answer)

    def read(self) -> Any:
        while b"\0" not in self.left:
            if not select.select([self.from_read], [], [], SECONDS)[0]:
                raise AssertionError(f"the browser says nothing for {SECONDS} seconds")
            data = os.read(self.from_read, 1 << 20)
            if not data:
                raise AssertionError("the browser ended")
            self.left += data
        message, self.left = self.left.split(b"\0", 1)
        return json.loads(message)

    def value(self, expression: str) -> Any:
        """What an expression of JavaScript gives."""
        found = self.send("Runtime.evaluate", expression=expression, returnByValue=True, awaitPromise=True)
        if "exceptionDetails" in found:
            raise AssertionError(f"{expression}: {found['exceptionDetails']}")
        return found["result"].get("value")

    def wait(self, expression: str) -> None:
        end = time.monotonic() + SECONDS
        while not self.value(expression):
            if time.monotonic() > end:
                raise AssertionError(f"not within {SECONDS} seconds: {expression}")
            time.sleep(0.05)

    def click(self, selector: str) -> None:
        """A click of the mouse in the middle of an element."""
        spot = self.value(f"(() => {{ const e = document.querySelector({json.dumps(selector)});"
                          " e.scrollIntoView({block: 'center'}); const r = e.getBoundingClientRect();"
                          " return [r.x + r.width / 2, r.y + r.height / 2]; })()")
        for kind in ("mousePressed", "mouseReleased"):
            self.send("Input.dispatchMouseEvent", type=kind, x=spot[0], y=spot[1], button="left",
                      clickCount=1)

    def texts(self, selector: str) -> Any:
        return self.value(f"[...document.querySelectorAll({json.dumps(selector)})].map(e => e.textContent)")

    def named(self, selector: str, name: str) -> Any:
        """An attribute of each element."""
        return self.value(f"[...document.querySelectorAll({json.dumps(selector)})].map(e => "
                          f"e.getAttribute({json.dumps(name)}))")

    def screenshot(self, path: str, full: bool = True) -> None:
        data = self.send("Page.captureScreenshot", format="png", captureBeyondViewport=full)["data"]
        with open(path, "wb") as file:
            file.write(base64.b64decode(data))

    def problems(self) -> list[str]:
        """Errors and warnings of the page, and each request that left it."""
        faults = ("Runtime.exceptionThrown", "Log.entryAdded")
        found = [event["params"] for event in self.events if event.get("method") in faults]
        urls = [event["params"]["request"]["url"]
                for event in self.events if event.get("method") == "Network.requestWillBeSent"]
        return found + [url for url in urls if not url.startswith(("file:", "blob:", "about:"))]

    def close(self) -> None:
        try:
            os.write(self.to_write, json.dumps({"id": 0, "method": "Browser.close"}).encode() + b"\0")
            self.process.wait(10)
        except (OSError, subprocess.TimeoutExpired):
            self.process.kill()
            self.process.wait()
        os.close(self.to_write)
        os.close(self.from_read)
        self.folder.cleanup()
