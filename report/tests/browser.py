"""Chromium without a window, driven over a pair of pipes by its DevTools protocol: Python's standard library alone."""

from __future__ import annotations

import json
import os
import select
import shutil
import subprocess
import tempfile
import time
from typing import Any

SECONDS = 60
ARGUMENTS = [
    "--headless=new",
    "--no-sandbox",
    "--disable-gpu",
    "--disable-dev-shm-usage",
    "--no-first-run",
    "--window-size=1400,1000",
    "--remote-debugging-pipe",
]
KEYS = {
    "ArrowDown": 40,
    "ArrowUp": 38,
    "Home": 36,
    "End": 35,
    "Escape": 27,
    "Tab": 9,
}


def missing() -> str:
    """Returns why there is no browser here, or nothing."""
    return "" if shutil.which("chromium") else "chromium is not installed"


class Browser:
    """One page of one browser."""

    def __init__(self) -> None:
        self.folder = tempfile.TemporaryDirectory()
        to_child, self.writer = os.pipe()
        self.reader, from_child = os.pipe()

        def join_pipes() -> None:
            # DevTools reads descriptor 3 and writes descriptor 4
            source, target = os.dup(to_child), os.dup(from_child)
            os.dup2(source, 3)
            os.dup2(target, 4)

        self.process = subprocess.Popen(
            ["chromium", *ARGUMENTS, f"--user-data-dir={self.folder.name}", "about:blank"],
            stdin=subprocess.DEVNULL,
            stdout=subprocess.DEVNULL,
            stderr=subprocess.DEVNULL,
            close_fds=False,
            preexec_fn=join_pipes,
            env={**os.environ, "HOME": self.folder.name},
        )
        os.close(to_child)
        os.close(from_child)
        self.received = b""
        self.number = 0
        self.session = ""
        self.messages: list[str] = []
        self.loaded = False
        self._attach()

    def _attach(self) -> None:
        targets = self._call("Target.getTargets")["targetInfos"]
        page = next(target for target in targets if target["type"] == "page")
        attached = self._call("Target.attachToTarget", targetId=page["targetId"], flatten=True)
        self.session = attached["sessionId"]
        for domain in ("Page", "Runtime", "Log"):
            self._call(f"{domain}.enable")

    def _call(self, method: str, **parameters: Any) -> Any:
        self.number += 1
        asked = {"id": self.number, "method": method, "params": parameters}
        if self.session:
            asked["sessionId"] = self.session
        os.write(self.writer, json.dumps(asked).encode() + b"\0")
        while True:
            message = self._next()
            if message.get("id") == self.number:
                if "error" in message:
                    raise RuntimeError(f"{method}: {message['error']['message']}")
                return message["result"]
            self._note(message)

    def _next(self) -> Any:
        end = time.monotonic() + SECONDS
        while b"\0" not in self.received:
            ready, _, _ = select.select([self.reader], [], [], end - time.monotonic())
            got = os.read(self.reader, 1 << 16) if ready else b""
            if not got:
                raise RuntimeError("chromium does not answer")
            self.received += got
        text, _, self.received = self.received.partition(b"\0")
        return json.loads(text)

    def _note(self, message: Any) -> None:
        method, parameters = message.get("method"), message.get("params", {})
        if method == "Page.loadEventFired":
            self.loaded = True
        elif method == "Runtime.exceptionThrown":
            self.messages.append(str(parameters["exceptionDetails"]))
        elif method == "Log.entryAdded":
            self.messages.append(str(parameters["entry"]["text"]))

    def open(self, path: str) -> None:
        """Opens a file, and waits until it is there."""
        self.loaded = False
        self._call("Page.navigate", url=f"file://{path}")
        while not self.loaded:
            self._note(self._next())

    def run(self, script: str) -> Any:
        """Returns the value of an expression in the page."""
        answer = self._call("Runtime.evaluate", expression=script, returnByValue=True)
        if "exceptionDetails" in answer:
            raise RuntimeError(str(answer["exceptionDetails"]))
        return answer["result"].get("value")

    def keys(self, *names: str) -> None:
        """Presses keys, one after another, where the focus is."""
        for name in names:
            key: dict[str, Any] = {"key": name}
            if name in KEYS:
                key |= {"code": name, "windowsVirtualKeyCode": KEYS[name]}
            else:
                key |= {"text": name}
            self._call("Input.dispatchKeyEvent", type="keyDown", **key)
            key.pop("text", None)
            self._call("Input.dispatchKeyEvent", type="keyUp", **key)

    def emulate(self, scheme: str = "light", width: int = 1400) -> None:
        """Shows the page in a scheme of colours, in a window of a width."""
        features = [{"name": "prefers-color-scheme", "value": scheme}]
        self._call("Emulation.setEmulatedMedia", features=features)
        self._call(
            "Emulation.setDeviceMetricsOverride",
            width=width,
            height=1000,
            deviceScaleFactor=1,
            mobile=False,
        )

    def shot(self, path: str) -> None:
        """Writes a picture of the page."""
        import base64

        data = self._call("Page.captureScreenshot")["data"]
        with open(path, "wb") as picture:
            picture.write(base64.b64decode(data))

    def complaints(self) -> list[str]:
        """Returns what the page has said on its console since the last call."""
        said, self.messages = self.messages, []
        return said

    def close(self) -> None:
        """Ends the browser."""
        try:
            self.session = ""
            self._call("Browser.close")
        except (OSError, RuntimeError):
            self.process.terminate()
        self.process.wait()
        os.close(self.writer)
        os.close(self.reader)
        self.folder.cleanup()
