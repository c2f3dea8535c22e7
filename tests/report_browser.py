"""Chromium without a window, asked over its pipe for debuggers: what a page shows and does."""
import base64
import json
import os
import pathlib
import select
import subprocess
import time
from typing import Any

TABLES = """
Object.fromEntries([...document.querySelectorAll("table")].map(table => [table.id,
  [...table.tBodies[0].rows].map(row => [...row.cells].map(cell => {
    const small = cell.querySelector("small") ? cell.querySelector("small").textContent : "";
    const code = cell.querySelector("code");
    if (code) return code.textContent;
    const text = cell.textContent;
    return small ? [text.slice(0, text.length - small.length), small] : text;
  }))]))
"""
# of each chart: its texts, its size on the page, and the height of its lowest letters
CHARTS = """
[...document.querySelectorAll("figure svg")].map(svg => ({
  texts: [...svg.querySelectorAll("text")].map(text => text.textContent.trim()),
  width: svg.getBoundingClientRect().width,
  height: svg.getBoundingClientRect().height,
  letters: Math.min(...[...svg.querySelectorAll("text")].map(
    text => parseFloat(getComputedStyle(text).fontSize) * svg.getScreenCTM().a)),
}))
"""
# the heights of the bars of the chart of lengths, in the order in which they are drawn
BARS = """
[...document.querySelectorAll("[id^='lengths-patch_'] path")]
  .filter(path => !path.closest("[id^='lengths-legend_']")).map(path => path.getBBox())
  .filter(box => box.width > 0 && box.width < 100).map(box => [box.x, box.height])
"""


class Browser:
    """One page of a browser. What it asks of a network and says on its console is kept."""

    def __init__(self, program: str, folder: pathlib.Path) -> None:
        to_browser, self.writes = os.pipe()
        self.reads, from_browser = os.pipe()
        words = [program, "--headless", "--no-sandbox", "--disable-gpu", "--hide-scrollbars"]
        words += ["--remote-debugging-pipe", f"--user-data-dir={folder}/profile"]
        self.process = subprocess.Popen(
            ["bash", "-c", f'exec "$@" 3<&{to_browser} 4>&{from_browser}', "bash", *words],
            pass_fds=(to_browser, from_browser),
            stdout=subprocess.DEVNULL,
            stderr=subprocess.DEVNULL,
        )
        os.close(to_browser)
        os.close(from_browser)
        self.number, self.rest, self.session = 0, b"", None
        self.events: list[dict] = []
        target = self.ask("Target.createTarget", url="about:blank")["targetId"]
        attached = self.ask("Target.attachToTarget", targetId=target, flatten=True)
        self.session = attached["sessionId"]
        for domain in ("Page", "Runtime", "Log", "Network"):
            self.ask(f"{domain}.enable")

    def ask(self, method: str, **words: object) -> dict:
        """The result of a call."""
        self.number += 1
        message = {"id": self.number, "method": method, "params": words}
        if self.session:
            message["sessionId"] = self.session
        os.write(self.writes, json.dumps(message).encode() + b"\0")
        while True:
            found = self.receive()
            if found.get("id") == self.number:
                if "error" in found:
                    raise AssertionError(f"the browser refuses {method}: {found['error']}")
                return found["result"]

    def receive(self) -> dict:
        """The next message; those that answer no call are kept."""
        limit = time.monotonic() + 60
        while b"\0" not in self.rest:
            if not select.select([self.reads], [], [], max(0, limit - time.monotonic()))[0]:
                raise AssertionError("the browser does not answer")
            more = os.read(self.reads, 1 << 20)
            if not more:
                raise AssertionError("the browser has ended")
            self.rest += more
        text, _, self.rest = self.rest.partition(b"\0")
        found = json.loads(text)
        if "method" in found:
            self.events.append(found)
        return found

    def open(self, path: pathlib.Path) -> None:
        """Opens a file, and waits until it is loaded."""
        self.events.clear()
        self.ask("Page.navigate", url=path.as_uri())
        while not any(event["method"] == "Page.loadEventFired" for event in self.events):
            self.receive()

    def tell(self, expression: str) -> Any:
        """The value of an expression of JavaScript, also of one that comes later."""
        found = self.ask(
            "Runtime.evaluate", expression=expression, returnByValue=True, awaitPromise=True
        )
        if "exceptionDetails" in found:
            fault = found["exceptionDetails"]
            raise AssertionError(f"the page does not tell {expression}: {fault}")
        return found["result"].get("value")

    def size(self, width: int, height: int, scale: float = 1.0, mobile: bool = False) -> None:
        screen = dict(width=width, height=height, deviceScaleFactor=scale, mobile=mobile)
        self.ask("Emulation.setDeviceMetricsOverride", **screen)

    def click(self, selector: str) -> None:
        """A click by hand on the middle of what is seen of an element."""
        place = self.tell(
            f"(() => {{ const it = document.querySelector({json.dumps(selector)});"
            "it.scrollIntoView({block: 'center'}); const box = it.getBoundingClientRect();"
            "return [box.x + box.width / 2, box.y + box.height / 2]; })()"
        )
        for kind in ("mousePressed", "mouseReleased"):
            self.ask(
                "Input.dispatchMouseEvent",
                type=kind, x=place[0], y=place[1], button="left", clickCount=1,
            )

    def said(self) -> list[dict]:
        """Every line on the console, and every fault of the page."""
        kinds = ("Runtime.consoleAPICalled", "Runtime.exceptionThrown", "Log.entryAdded")
        return [event["params"] for event in self.events if event["method"] in kinds]

    def requests(self) -> list[str]:
        kind = "Network.requestWillBeSent"
        return [e["params"]["request"]["url"] for e in self.events if e["method"] == kind]

    def picture(self, path: pathlib.Path, clip: dict[str, float]) -> None:
        how = dict(format="png", captureBeyondViewport=True, clip=clip)
        found = self.ask("Page.captureScreenshot", **how)
        path.write_bytes(base64.b64decode(found["data"]))

    def printed(self) -> bytes:
        """The page as a PDF."""
        return base64.b64decode(self.ask("Page.printToPDF", printBackground=False)["data"])

    def close(self) -> None:
        self.ask("Page.close")
        os.close(self.writes)
        os.close(self.reads)
        self.process.terminate()
        self.process.wait(timeout=20)
