"""Headless Chromium, told what to do through its pipe for debuggers (the Chrome DevTools Protocol): no port, and no further package."""

from __future__ import annotations

import contextlib
import json
import os
import select
import shutil
import signal
import subprocess
import tempfile
import time
from pathlib import Path
from typing import Any, Dict, Iterator, List

WORDS = ["chromium", "--headless", "--no-sandbox", "--disable-gpu", "--remote-debugging-pipe", "--disable-background-networking"]
PATIENCE = 30  # seconds without a change of the page
SILENCE = 120  # seconds without an answer of the browser, also on a very busy machine


# what the page shows of its state and its progress
STATE = (
    """`${document.body?.dataset.state} ${document.getElementById("progress")?.value} ${document.getElementById("status")?.textContent}`"""
)


# The contrast of each text with what is behind it (WCAG 2.1, 1.4.3), by the colours that the browser has computed
CONTRAST = """(() => {
  const channels = (colour) => colour.match(/[\\d.]+/g).map(Number);
  const luminance = ([r, g, b]) => [r, g, b].map((it) => it / 255).map((it) => it <= 0.04045 ? it / 12.92 : ((it + 0.055) / 1.055) ** 2.4)
    .reduce((sum, it, at) => sum + it * [0.2126, 0.7152, 0.0722][at], 0);
  const behind = (element) => {
    for (let at = element; at; at = at.parentElement) {
      const colour = channels(getComputedStyle(at).backgroundColor);
      if (colour.length < 4 || colour[3] === 1) return colour;
      if (colour[3] > 0) throw new Error("a colour that is seen through");
    }
    return [255, 255, 255];
  };
  const found = [];
  const walker = document.createTreeWalker(document.body, NodeFilter.SHOW_TEXT);
  let texts = 0;
  while (walker.nextNode()) {
    const element = walker.currentNode.parentElement;
    if (!walker.currentNode.data.trim() || !element.checkVisibility()) continue;
    texts += 1;
    const pair = [luminance(channels(getComputedStyle(element).color)), luminance(behind(element))].sort((a, b) => b - a);
    const contrast = (pair[0] + 0.05) / (pair[1] + 0.05);
    if (contrast < 4.5) found.push([walker.currentNode.data.trim().slice(0, 40), element.className, contrast]);
  }
  return [texts, found];
})()"""


class Waiting:
    """What is asked until it is true."""

    def ask(self, expression: str) -> Any:
        """The value of an expression in the page, also of a promise."""
        raise NotImplementedError

    def wait(self, expression: str) -> Any:
        """Waits until an expression is true, and returns its value. A page that still works, by what it shows, is waited for longer."""
        end, seen = time.monotonic() + PATIENCE, ""
        while time.monotonic() < end:
            if value := self.ask(expression):
                return value
            if (now := self.ask(STATE)) != seen:
                end, seen = time.monotonic() + PATIENCE, now
            time.sleep(0.02)
        raise TimeoutError(f"{PATIENCE} seconds without a change, while this was waited for: {expression}; the page shows: {seen}")


class Browser(Waiting):
    """One page in a browser: the addresses that it asked for, and what it logged, which is mostly a violation of a policy."""

    def __init__(self, folder: Path) -> None:
        self.profile = tempfile.mkdtemp(dir=folder)
        self.answers, browsers_output = os.pipe()
        browsers_input, self.commands = os.pipe()
        self.requests: List[str] = []
        self.log: List[Dict[str, Any]] = []
        self.number, self.rest, self.session, self.asked = 0, b"", "", ""

        def arrange() -> None:
            """Puts the pipes where the browser expects them."""
            command, answer = os.dup(browsers_input), os.dup(browsers_output)
            os.dup2(command, 3)
            os.dup2(answer, 4)

        words = [*WORDS, f"--user-data-dir={self.profile}", "about:blank"]
        null = subprocess.DEVNULL
        self.process = subprocess.Popen(words, preexec_fn=arrange, close_fds=False, stdin=null, stdout=null, stderr=null)
        os.close(browsers_input)
        os.close(browsers_output)
        target = self.call("Target.createTarget", url="about:blank")["targetId"]
        self.session = self.call("Target.attachToTarget", targetId=target, flatten=True)["sessionId"]
        for domain in ("Network", "Page", "Log", "Runtime", "DOM"):
            self.call(f"{domain}.enable")

    def call(self, method: str, **parameters: Any) -> Dict[str, Any]:
        """Calls a method of the protocol, and returns its result."""
        self.number += 1
        message = {"id": self.number, "method": method, "params": parameters, **({"sessionId": self.session} if self.session else {})}
        self.asked = json.dumps(message)
        os.write(self.commands, self.asked.encode() + b"\0")
        while True:
            answer = self.message()
            if answer.get("id") == self.number:
                if "error" in answer:
                    raise RuntimeError(f"{method}: {answer['error']}")
                return answer["result"]
            self.note(answer)

    def message(self) -> Dict[str, Any]:
        while b"\0" not in self.rest:
            if not select.select([self.answers], [], [], SILENCE)[0]:
                raise TimeoutError(f"Chromium has said nothing for {SILENCE} seconds, after {self.asked[:300]}")
            octets = os.read(self.answers, 1 << 20)
            if not octets:
                raise EOFError("Chromium ended")
            self.rest += octets
        text, _, self.rest = self.rest.partition(b"\0")
        return json.loads(text)

    def note(self, event: Dict[str, Any]) -> None:
        if event.get("method") == "Network.requestWillBeSent":
            self.requests.append(event["params"]["request"]["url"])
        elif event.get("method") in ("Log.entryAdded", "Runtime.exceptionThrown"):
            self.log.append(event["params"])

    def ask(self, expression: str) -> Any:
        result = self.call("Runtime.evaluate", expression=expression, awaitPromise=True, returnByValue=True)
        if "exceptionDetails" in result:
            raise RuntimeError(f"{expression[:200]}: {json.dumps(result['exceptionDetails'])[:1000]}")
        return result["result"].get("value")

    def open(self, address: str) -> None:
        self.call("Page.navigate", url=address)
        self.wait("document.readyState === 'complete' && location.href !== 'about:blank'")

    def show(self, width: int = 1280, height: int = 900, dark: bool = False) -> None:
        """Sets the size of the window, and whether the user prefers dark pages."""
        self.call("Emulation.setDeviceMetricsOverride", width=width, height=height, deviceScaleFactor=1, mobile=width < 600)
        self.call("Emulation.setEmulatedMedia", features=[{"name": "prefers-color-scheme", "value": "dark" if dark else "light"}])

    def choose(self, selector: str, *files: Path) -> None:
        """Chooses files or a folder in an input, as a user does."""
        root = self.call("DOM.getDocument")["root"]["nodeId"]
        node = self.call("DOM.querySelector", nodeId=root, selector=selector)["nodeId"]
        self.call("DOM.setFileInputFiles", nodeId=node, files=[str(file.resolve()) for file in files])

    def drop(self, selector: str, *files: Path) -> None:
        """Drops files or folders on an element."""
        x, y = self.ask(
            f"(() => {{ const box = document.querySelector({json.dumps(selector)}).getBoundingClientRect(); return [box.x + 9, box.y + 9]; }})()"
        )
        data = {"items": [], "files": [str(file.resolve()) for file in files], "dragOperationsMask": 1}
        for kind in ("dragEnter", "dragOver", "drop"):
            self.call("Input.dispatchDragEvent", type=kind, x=x, y=y, data=data)

    def press(self, key: str, code: int) -> None:
        text = {"text": "\r"} if key == "Enter" else {}
        for kind in ("keyDown", "keyUp"):
            self.call("Input.dispatchKeyEvent", type=kind, key=key, code=key, windowsVirtualKeyCode=code, **text)

    def end(self) -> None:
        self.call("Browser.close")
        self.process.wait(SILENCE)
        for process in self.left():  # such as the one that waits for crashes, which would take its time
            with contextlib.suppress(ProcessLookupError):
                os.kill(process, signal.SIGKILL)
        os.close(self.commands)
        os.close(self.answers)
        shutil.rmtree(self.profile, ignore_errors=True)

    def left(self) -> Iterator[int]:
        """The processes of this browser, by the folder of its profile in their arguments."""
        for process in filter(str.isdigit, os.listdir("/proc")):
            with contextlib.suppress(OSError):
                if os.fsencode(self.profile) in Path("/proc", process, "cmdline").read_bytes():
                    yield int(process)
