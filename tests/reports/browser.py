"""A headless Chromium, asked through two pipes by the protocol of its developer tools."""
from __future__ import annotations

import json
import os
import select
import shutil
import subprocess
import tempfile
import time
from pathlib import Path
from typing import Any, Dict, List, Optional

SECONDS = 120


def found() -> Optional[str]:
    """Returns the path of a browser, or None."""
    return next(filter(None, map(shutil.which, ("chromium", "chromium-browser", "google-chrome"))), None)


class Browser:
    """A browser with one empty page. The messages of its console are collected in `told`."""

    def __init__(self, path: str) -> None:
        self.folder = tempfile.mkdtemp(prefix="reports-browser-")
        asked, self.writing = os.pipe()
        self.reading, answering = os.pipe()
        words = [
            path,
            "--headless",
            "--no-sandbox",
            "--disable-gpu",
            "--disable-dev-shm-usage",
            "--no-first-run",
            "--remote-debugging-pipe",
            f"--user-data-dir={self.folder}",
        ]
        shell = f'exec "$@" 3<&{asked} 4>&{answering}'
        self.process = subprocess.Popen(
            ["bash", "-c", shell, "browser", *words],
            pass_fds=(asked, answering),
            stdin=subprocess.DEVNULL,
            stdout=subprocess.DEVNULL,
            stderr=subprocess.DEVNULL,
        )
        os.close(asked)
        os.close(answering)
        self.rest = b""
        self.number = 0
        self.session = ""
        self.told: List[str] = []
        self.events: List[str] = []
        target = self.ask("Target.createTarget", url="about:blank")["targetId"]
        self.session = self.ask("Target.attachToTarget", targetId=target, flatten=True)["sessionId"]
        for domain in ("Page", "Log", "Runtime"):
            self.ask(f"{domain}.enable")

    def close(self) -> None:
        """Ends the browser."""
        self.process.kill()
        self.process.wait()
        os.close(self.reading)
        os.close(self.writing)
        shutil.rmtree(self.folder, ignore_errors=True)

    def ask(self, method: str, **words: Any) -> Dict[str, Any]:
        """Sends a command, and returns the answer."""
        self.number += 1
        message: Dict[str, Any] = {"id": self.number, "method": method, "params": words}
        if self.session:
            message["sessionId"] = self.session
        os.write(self.writing, json.dumps(message).encode() + b"\0")
        while True:
            answer = self.read()
            if answer.get("id") == self.number:
                if "error" in answer:
                    raise AssertionError(f"{method}: {answer['error']}")
                return dict(answer["result"])

    def read(self) -> Dict[str, Any]:
        """Returns the next message; the messages of the console are kept."""
        end = time.monotonic() + SECONDS
        while b"\0" not in self.rest:
            if not select.select([self.reading], [], [], max(0, end - time.monotonic()))[0]:
                raise AssertionError("the browser does not answer")
            part = os.read(self.reading, 1 << 20)
            if not part:
                raise AssertionError("the browser has ended")
            self.rest += part
        first, _, self.rest = self.rest.partition(b"\0")
        message = dict(json.loads(first))
        method = message.get("method", "")
        self.events.append(method)
        if method in ("Log.entryAdded", "Runtime.consoleAPICalled", "Runtime.exceptionThrown"):
            self.told.append(json.dumps(message["params"]))
        return message

    def open(self, page: Path, width: int, scheme: str) -> None:
        """Opens a page in a window of a width, in points, and a colour scheme."""
        self.ask("Emulation.setDeviceMetricsOverride", width=width, height=900, deviceScaleFactor=1, mobile=width < 800)
        self.ask("Emulation.setEmulatedMedia", features=[{"name": "prefers-color-scheme", "value": scheme}])
        self.events.clear()
        self.ask("Page.navigate", url=page.resolve().as_uri())
        while "Page.loadEventFired" not in self.events:
            self.read()

    def value(self, expression: str) -> Any:
        """Returns the value of an expression in the page."""
        answer = self.ask("Runtime.evaluate", expression=expression, returnByValue=True)
        if "exceptionDetails" in answer:
            raise AssertionError(str(answer["exceptionDetails"]))
        return answer["result"].get("value")
