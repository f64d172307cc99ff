"""Headless Firefox over WebDriver BiDi, by a WebSocket of tornado, which Debian's python3-distributed needs, too."""

from __future__ import annotations

import asyncio
import contextlib
import json
import os
import re
import subprocess
import time
from pathlib import Path
from typing import Any, Dict, List

from browser import Waiting
from tornado.websocket import WebSocketClientConnection, websocket_connect

WORDS = ["firefox-esr", "--headless", "--no-remote", "--remote-debugging-port", "0", "--profile"]
PATIENCE = 120  # seconds in which the browser answers, also on a very busy machine
LISTENS = re.compile(r"WebDriver BiDi listening on ws://127\.0\.0\.1:(\d+)")
# What Firefox would ask for by itself when it starts, and what isn't needed to see one page
PREFERENCES = """user_pref("app.update.disabledForTesting", true);
user_pref("browser.shell.checkDefaultBrowser", false);
user_pref("browser.startup.homepage_override.mstone", "ignore");
user_pref("app.normandy.enabled", false);
user_pref("services.settings.server", "data:,#remote-settings-dummy/v1");
user_pref("datareporting.policy.dataSubmissionEnabled", false);
user_pref("network.captive-portal-service.enabled", false);
user_pref("network.connectivity-service.enabled", false);
user_pref("toolkit.telemetry.reportingpolicy.firstRun", false);
"""


class Firefox(Waiting):
    """One page in Firefox: the addresses that it asked for, and what it logged."""

    def __init__(self, folder: Path) -> None:
        self.profile = folder / "firefox"
        self.profile.mkdir()
        (self.profile / "user.js").write_text(PREFERENCES, encoding="ascii")
        self.log_file = folder / "firefox.log"
        with open(self.log_file, "wb") as log:
            environment = dict(os.environ, HOME=str(folder), MOZ_CRASHREPORTER_DISABLE="1")
            streams: Dict[str, Any] = {"stdin": subprocess.DEVNULL, "stdout": log, "stderr": log}
            self.process = subprocess.Popen([*WORDS, str(self.profile)], env=environment, **streams)
        self.number = 0
        self.requests: List[str] = []
        self.log: List[Dict[str, Any]] = []
        self.loop = asyncio.new_event_loop()
        self.socket = self.loop.run_until_complete(self._connected(f"ws://127.0.0.1:{self._port()}/session"))
        self.call("session.new", capabilities={})
        self.call("session.subscribe", events=["network.beforeRequestSent", "log.entryAdded"])
        self.context = self.call("browsingContext.getTree")["contexts"][0]["context"]

    def _port(self) -> int:
        end = time.monotonic() + PATIENCE
        while time.monotonic() < end and self.process.poll() is None:
            if found := LISTENS.search(self.log_file.read_text(encoding="utf-8", errors="replace")):
                return int(found[1])
            time.sleep(0.05)
        text = self.log_file.read_text(encoding="utf-8", errors="replace")
        raise TimeoutError(f"Firefox has named no port: {text[-500:]}")

    async def _connected(self, address: str) -> WebSocketClientConnection:
        return await websocket_connect(address, max_message_size=1 << 30)

    def call(self, method: str, **parameters: Any) -> Dict[str, Any]:
        """Calls a method of the protocol, and returns its result."""
        return self.loop.run_until_complete(asyncio.wait_for(self._answered(method, parameters), PATIENCE))

    async def _answered(self, method: str, parameters: Dict[str, Any]) -> Dict[str, Any]:
        self.number += 1
        await self.socket.write_message(json.dumps({"id": self.number, "method": method, "params": parameters}))
        while message := await self.socket.read_message():
            answer = json.loads(message)
            if answer.get("method") == "network.beforeRequestSent":
                self.requests.append(answer["params"]["request"]["url"])
            elif answer.get("method") == "log.entryAdded":
                self.log.append(answer["params"])
            elif answer.get("id") == self.number:
                if answer["type"] == "error":
                    raise RuntimeError(f"{method}: {answer['error']}, {answer['message'][:500]}")
                return dict(answer["result"])
        raise EOFError("Firefox ended")

    def evaluate(self, expression: str) -> Dict[str, Any]:
        target = {"context": self.context}
        found = self.call("script.evaluate", expression=expression, target=target, awaitPromise=True)
        if found["type"] == "exception":
            raise RuntimeError(f"{expression[:200]}: {found['exceptionDetails']['text']}")
        return found["result"]

    def ask(self, expression: str) -> Any:
        text = f"(async () => JSON.stringify(await ({expression}) ?? null))()"
        return json.loads(self.evaluate(text)["value"])

    def open(self, address: str) -> None:
        self.call("browsingContext.navigate", context=self.context, url=address, wait="complete")

    def choose(self, selector: str, *files: Path) -> None:
        """Chooses files in an input, as a user does."""
        element = self.evaluate(f"document.querySelector({json.dumps(selector)})")
        shared, names = {"sharedId": element["sharedId"]}, [str(it) for it in files]
        self.call("input.setFiles", context=self.context, element=shared, files=names)

    def end(self) -> None:
        with contextlib.suppress(Exception):  # it may have ended
            self.call("browser.close")
        try:
            self.process.wait(PATIENCE)
        finally:
            self.process.kill()
            self.loop.close()
