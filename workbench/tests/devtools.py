"""A browser without a window, spoken to over a pipe in the DevTools protocol."""

import base64
import json
import os
import select
import subprocess
import tempfile
import time
from collections.abc import Iterator
from contextlib import contextmanager
from pathlib import Path
from typing import Any

from fizhedul_workbench.draw.browser import browser_words

# What answers at all answers sooner, also where the machine has much other work.
SECONDS = 300
# A fixed piece of work of a browser: tables that are drawn one after another.
TABLES = """(async () => {
  for (let turn = 0; turn < 6; turn += 1) {
    const cells = Array.from({ length: 1000 }, (_, number) => `<tr><td>${number}</td><td>${turn}</td></tr>`);
    document.body.innerHTML = `<table>${cells.join("")}</table>`;
    await new Promise(requestAnimationFrame);
  }
  document.body.innerHTML = "";
})()"""
# The seconds of a processor that they take at most where nothing else is done.
TABLES_TAKE = 0.45


class Tab:
    """One page, and the errors that it told."""

    def __init__(self, into: int, out_of: int, process: int) -> None:
        self.into, self.out_of, self.process = into, out_of, process
        self.number = 0
        self.rest = b""
        self.session: str | None = None
        self.errors: list[str] = []
        # What each process has taken, also those that have ended since.
        self.taken: dict[tuple[str, str], int] = {}

    def read(self, seconds: float) -> dict[str, Any]:
        while b"\0" not in self.rest:
            if not select.select([self.out_of], [], [], max(0, seconds))[0]:
                raise RuntimeError(f"the browser said nothing for {SECONDS} seconds")
            piece = os.read(self.out_of, 1 << 16)
            if not piece:
                raise RuntimeError("the browser ended")
            self.rest += piece
        message, self.rest = self.rest.split(b"\0", 1)
        found: dict[str, Any] = json.loads(message)
        if found.get("method") == "Runtime.exceptionThrown":
            self.errors.append(json.dumps(found["params"]["exceptionDetails"])[:500])
        if found.get("method") == "Log.entryAdded" and found["params"]["entry"]["level"] == "error":
            self.errors.append(found["params"]["entry"]["text"])
        return found

    def call(self, method: str, **parameters: Any) -> dict[str, Any]:
        self.number += 1
        message = {"id": self.number, "method": method, "params": parameters}
        if self.session is not None:
            message["sessionId"] = self.session
        os.write(self.into, json.dumps(message).encode() + b"\0")
        end = time.monotonic() + SECONDS
        while (found := self.read(end - time.monotonic())).get("id") != self.number:
            assert time.monotonic() < end, f"no answer to {method}"
        assert "error" not in found, found
        result: dict[str, Any] = found["result"]
        return result

    def value(self, script: str) -> Any:
        """The value of an expression in the page, awaited where it is a promise."""
        found = self.call("Runtime.evaluate", expression=script, awaitPromise=True, returnByValue=True)
        assert "exceptionDetails" not in found, found
        return found["result"].get("value")

    def open(self, address: str) -> None:
        self.call("Page.navigate", url=address)
        loaded = "new Promise((done) => document.readyState === 'complete' ? done(1) : addEventListener('load', done))"
        self.value(f"{loaded}.then(() => new Promise(requestAnimationFrame)).then(() => 1)")

    def key(self, key: str, text: str = "") -> None:
        self.call("Input.dispatchKeyEvent", type="keyDown", key=key, text=text)
        self.call("Input.dispatchKeyEvent", type="keyUp", key=key)

    def move(self, x: float, y: float) -> None:
        self.call("Input.dispatchMouseEvent", type="mouseMoved", x=x, y=y)

    def work(self) -> float:
        """The seconds of a processor that all processes of the browser have taken."""
        for file in Path("/proc").glob("[0-9]*/stat"):
            try:
                parts = file.read_text().rsplit(")", 1)[1].split()
            except OSError:
                continue
            if int(parts[3]) == self.process:
                # A process is known by its number and the time at which it began.
                self.taken[file.parent.name, parts[19]] = int(parts[11]) + int(parts[12])
        return sum(self.taken.values()) / os.sysconf("SC_CLK_TCK")

    def slowness(self) -> float:
        """How many times what it should take of a processor a fixed piece of work takes in this empty page; at least 1.
        Where much else is done, all work costs more."""
        begin = self.work()
        self.value(TABLES)
        return max(1, (self.work() - begin) / TABLES_TAKE)

    def screenshot(self) -> bytes:
        return base64.b64decode(self.call("Page.captureScreenshot")["data"])


@contextmanager
def tab(width: int = 1300, height: int = 900) -> Iterator[Tab]:
    """A page in a browser that ends with the block."""
    to_browser, from_browser = os.pipe(), os.pipe()

    def place() -> None:
        ends = os.dup(to_browser[0]), os.dup(from_browser[1])
        os.dup2(ends[0], 3)
        os.dup2(ends[1], 4)

    with tempfile.TemporaryDirectory(prefix="fizhedul-", ignore_cleanup_errors=True) as folder:
        words = browser_words(folder) + ["--remote-debugging-pipe", f"--window-size={width},{height}"]
        process = subprocess.Popen(
            words,
            preexec_fn=place,
            close_fds=False,
            start_new_session=True,
            stdin=subprocess.DEVNULL,
            stdout=subprocess.DEVNULL,
            stderr=subprocess.DEVNULL,
        )
        os.close(to_browser[0])
        os.close(from_browser[1])
        try:
            page = Tab(to_browser[1], from_browser[0], process.pid)
            target = page.call("Target.createTarget", url="about:blank")["targetId"]
            page.session = page.call("Target.attachToTarget", targetId=target, flatten=True)["sessionId"]
            for domain in ("Page", "Runtime", "Log"):
                page.call(f"{domain}.enable")
            size = {"width": width, "height": height, "deviceScaleFactor": 1, "mobile": False}
            page.call("Emulation.setDeviceMetricsOverride", **size)
            yield page
        finally:
            ended(process)
            os.close(to_browser[1])
            os.close(from_browser[0])


def ended(process: subprocess.Popen[bytes]) -> None:
    """Ends a browser, by force where it takes long."""
    process.terminate()
    try:
        process.wait(SECONDS)
    except subprocess.TimeoutExpired:
        process.kill()
        process.wait()
