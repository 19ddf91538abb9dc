"""A headless Chromium, controlled through two pipes (its DevTools protocol), with nothing but Python's own library."""

from __future__ import annotations

import base64
import itertools
import json
import os
import shutil
import subprocess
import tempfile
from typing import Any

PROGRAMS = ("chromium", "chromium-browser", "google-chrome")


def program() -> str | None:
    return next((path for name in PROGRAMS if (path := shutil.which(name))), None)


class Browser:
    """One page of a browser. Each call waits until it is done."""

    def __init__(self) -> None:
        to_browser, from_browser = os.pipe(), os.pipe()
        self.profile = tempfile.mkdtemp()
        self.numbers, self.read, self.rest = itertools.count(1), from_browser[0], b""

        def hand_on() -> None:
            # (the browser reads from 3 and writes to 4)
            ends = [os.dup(end) for end in (to_browser[0], from_browser[1])]
            os.dup2(ends[0], 3)
            os.dup2(ends[1], 4)

        words = [
            program() or PROGRAMS[0],
            "--headless",
            "--no-sandbox",
            "--disable-gpu",
            "--hide-scrollbars",
            "--disable-dev-shm-usage",
            "--remote-debugging-pipe",
            f"--user-data-dir={self.profile}",
            "about:blank",
        ]
        self.process = subprocess.Popen(
            words, preexec_fn=hand_on, close_fds=False, stdout=subprocess.DEVNULL, stderr=subprocess.DEVNULL
        )
        os.close(to_browser[0])
        os.close(from_browser[1])
        self.write = to_browser[1]
        self.session: str | None = None
        target = self.call("Target.createTarget", url="about:blank")["targetId"]
        self.session = self.call("Target.attachToTarget", targetId=target, flatten=True)["sessionId"]
        self.call("Page.enable")

    def answer(self) -> dict[str, Any]:
        while b"\0" not in self.rest:
            more = os.read(self.read, 1 << 16)
            if not more:
                raise RuntimeError("the browser has ended")
            self.rest += more
        text, _, self.rest = self.rest.partition(b"\0")
        found: dict[str, Any] = json.loads(text)
        return found

    def call(self, method: str, **words: object) -> dict[str, Any]:
        number = next(self.numbers)
        request = {
            "id": number,
            "method": method,
            "params": words,
            **({"sessionId": self.session} if self.session else {}),
        }
        data = json.dumps(request).encode() + b"\0"
        while data:
            data = data[os.write(self.write, data) :]
        while (answer := self.answer()).get("id") != number:
            pass
        if "error" in answer:
            raise RuntimeError(f"{method}: {answer['error']['message']}")
        result: dict[str, Any] = answer["result"]
        return result

    def open(self, path: str | os.PathLike[str]) -> None:
        self.call("Page.navigate", url="file://" + os.path.abspath(path))
        self.evaluate(
            "new Promise(done => document.readyState === 'complete' ? done() : addEventListener('load', done))"
        )

    def evaluate(self, script: str) -> Any:
        result = self.call("Runtime.evaluate", expression=script, awaitPromise=True, returnByValue=True)
        if "exceptionDetails" in result:
            raise RuntimeError(result["exceptionDetails"]["exception"]["description"])
        return result["result"].get("value")

    def size(self, width: int, height: int = 900, is_phone: bool = False) -> None:
        self.call(
            "Emulation.setDeviceMetricsOverride", width=width, height=height, deviceScaleFactor=1, mobile=is_phone
        )

    def medium(self, name: str, scheme: str) -> None:
        self.call(
            "Emulation.setEmulatedMedia", media=name, features=[{"name": "prefers-color-scheme", "value": scheme}]
        )

    def picture(self, path: str | os.PathLike[str], most: int = 12_000) -> None:
        """The page from its top, as a picture of at most this many lines."""
        box = self.call("Page.getLayoutMetrics")["cssContentSize"]
        clip = {"x": 0, "y": 0, "width": box["width"], "height": min(box["height"], most), "scale": 1}
        data = self.call("Page.captureScreenshot", format="png", clip=clip, captureBeyondViewport=True)["data"]
        with open(path, "wb") as file:
            file.write(base64.b64decode(data))

    def printed(self, path: str | os.PathLike[str]) -> None:
        """The page printed on A4."""
        data = self.call(
            "Page.printToPDF",
            paperWidth=8.27,
            paperHeight=11.69,
            marginTop=0.5,
            marginBottom=0.5,
            marginLeft=0.5,
            marginRight=0.5,
        )["data"]
        with open(path, "wb") as file:
            file.write(base64.b64decode(data))

    def close(self) -> None:
        try:
            self.call("Browser.close")
        except (RuntimeError, OSError):
            self.process.kill()
        self.process.wait(20)
        shutil.rmtree(self.profile, ignore_errors=True)
