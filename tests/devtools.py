"""Chromium without a window, by its DevTools protocol over a pair of pipes: pages are opened, asked by scripts, sized and looked at."""

import json
import os
import select
import shutil
import subprocess
import time
from collections.abc import Sequence
from pathlib import Path
from typing import Any

# Chromium reads commands from file 3 and writes answers to file 4, each message with a byte 0 at its end.
COMMANDS, ANSWERS = 3, 4
# A busy machine takes its time.
MOST_SECONDS = 180.0
# tests/coverage has what is reached of each page's scripts written to this folder.
COUNTED = os.environ.get("TOARMUTS_COUNT_SCRIPTS")


class ScriptError(AssertionError):
    """A script failed in the page, for the reason in the message."""


class NoAnswer(RuntimeError):
    """Chromium doesn't reply, or refuses a command."""


def chromium() -> str:
    return shutil.which("chromium") or shutil.which("chromium-browser") or ""


class Browser:
    """A running Chromium with its own profile. Use it in ``with``."""

    def __init__(self, folder: Path) -> None:
        # A frame that is in the page's own process can be asked, too.
        words = [chromium(), "--headless", "--disable-gpu", "--remote-debugging-pipe", f"--user-data-dir={folder}/profile",
                 "--hide-scrollbars", "--disable-features=IsolateSandboxedIframes"]
        if os.geteuid() == 0:
            words.append("--no-sandbox")
        down, self._commands = os.pipe()
        self._answers, up = os.pipe()
        self._process = subprocess.Popen(self._redirected(words, down, up), stdout=subprocess.DEVNULL, stderr=subprocess.DEVNULL,
                                         pass_fds=(down, up))
        os.close(down)
        os.close(up)
        self._rest = b""
        self._number = 0
        self.pages: dict[str, Page] = {}

    @staticmethod
    def _redirected(words: Sequence[str], down: int, up: int) -> list[str]:
        """A shell's command that has the pipes as the files that Chromium wants."""
        high = max(down, up) + 10
        command = f'exec {high}<&{down} {high + 1}>&{up}; exec {COMMANDS}<&{high} {ANSWERS}>&{high + 1}; exec "$@"'
        return ["bash", "-c", command, "chromium", *words]

    def __enter__(self) -> "Browser":
        return self

    def __exit__(self, *_: object) -> None:
        os.close(self._commands)
        try:
            self._process.wait(10)
        except subprocess.TimeoutExpired:
            self._process.kill()
            self._process.wait()
        os.close(self._answers)

    def call(self, method: str, session: str | None = None, **parameters: Any) -> dict[str, Any]:
        self._number += 1
        message: dict[str, Any] = {"id": self._number, "method": method, "params": parameters}
        if session:
            message["sessionId"] = session
        data = json.dumps(message).encode() + b"\0"
        while data:
            data = data[os.write(self._commands, data):]
        end = time.monotonic() + MOST_SECONDS
        while True:
            told = self._read(end - time.monotonic())
            if told.get("id") == self._number:
                if "error" in told:
                    raise NoAnswer(f"{method}: {told['error']['message']}")
                result: dict[str, Any] = told["result"]
                return result
            if told.get("sessionId") in self.pages:
                self.pages[told["sessionId"]].events.append(told)

    def _read(self, seconds: float) -> dict[str, Any]:
        parts = [self._rest]
        while b"\0" not in parts[-1]:
            if seconds <= 0 or not select.select([self._answers], [], [], seconds)[0]:
                raise NoAnswer(f"Chromium doesn't answer within {MOST_SECONDS:.0f} seconds")
            part = os.read(self._answers, 1 << 20)
            if not part:
                raise NoAnswer("Chromium has ended")
            parts.append(part)
        message, _, self._rest = b"".join(parts).partition(b"\0")
        told: dict[str, Any] = json.loads(message)
        return told

    def open(self, address: str, width: int = 1200, height: int = 900, dark: bool = False) -> "Page":
        """A new page in a window of this size in pixels, where dark colours are preferred or light ones."""
        target = self.call("Target.createTarget", url="about:blank")["targetId"]
        session = self.call("Target.attachToTarget", targetId=target, flatten=True)["sessionId"]
        page = Page(self, session, target)
        self.pages[session] = page
        for domain in ("Page", "Runtime", "Network", "Log"):
            page.call(f"{domain}.enable")
        page.call("Emulation.setDeviceMetricsOverride", width=width, height=height, deviceScaleFactor=1, mobile=False)
        page.call("Emulation.setEmulatedMedia", features=[{"name": "prefers-color-scheme", "value": "dark" if dark else "light"}])
        if COUNTED:
            page.begin_counting()
        page.call("Page.navigate", url=address)
        return page


class Page:
    def __init__(self, browser: Browser, session: str, target: str) -> None:
        self._browser, self._session, self._target = browser, session, target
        self.events: list[dict[str, Any]] = []

    def call(self, method: str, **parameters: Any) -> dict[str, Any]:
        return self._browser.call(method, self._session, **parameters)

    def ask(self, script: str) -> Any:
        told = self.call("Runtime.evaluate", expression=f"(async () => {{ {script} }})()", awaitPromise=True, returnByValue=True,
                         userGesture=True)
        if "exceptionDetails" in told:
            details = told["exceptionDetails"]
            raise ScriptError(details.get("exception", {}).get("description", details["text"]))
        return told["result"].get("value")

    def wait_for(self, condition: str, seconds: float = 90.0) -> None:
        end = time.monotonic() + seconds
        while True:
            try:
                if self.ask(f"return Boolean({condition});"):
                    return
                error = f"not within {seconds} seconds: {condition}"
            except (ScriptError, NoAnswer) as failure:
                error = str(failure)
            if time.monotonic() > end:
                raise ScriptError(error)
            time.sleep(0.02)

    def ask_frame(self, expression: str, wanted: Any = None, seconds: float = 90.0) -> Any:
        """The value of an expression in the page's newest frame. Waits for a wanted one."""
        end = time.monotonic() + seconds
        while True:
            self.ask("")
            frames = [it["params"]["context"]["id"] for it in self.events if it["method"] == "Runtime.executionContextCreated"]
            value = self.call("Runtime.evaluate", expression=expression, contextId=frames[-1], returnByValue=True)["result"].get("value")
            if wanted is None or value == wanted or time.monotonic() > end:
                return value
            time.sleep(0.02)

    def press(self, key: str, code: int = 0, modifiers: int = 0, text: str = "") -> None:
        told = {"key": key, "windowsVirtualKeyCode": code, "modifiers": modifiers}
        self.call("Input.dispatchKeyEvent", type="keyDown", text=text, **told)
        self.call("Input.dispatchKeyEvent", type="keyUp", **told)

    def insert(self, text: str) -> None:
        self.call("Input.insertText", text=text)

    def requests(self) -> list[str]:
        return [it["params"]["request"]["url"] for it in self.events if it["method"] == "Network.requestWillBeSent"]

    def errors(self) -> list[str]:
        """Scripts' errors, what breaks the page's policy, and what the browser logs as an error."""
        found = [it["params"]["exceptionDetails"] for it in self.events if it["method"] == "Runtime.exceptionThrown"]
        logged = [it["params"]["entry"] for it in self.events if it["method"] == "Log.entryAdded"]
        thrown = [it.get("exception", {}).get("description", it["text"]) for it in found]
        return thrown + [it["text"] for it in logged if it["level"] == "error"]

    def begin_counting(self) -> None:
        for method in ("Debugger.enable", "Profiler.enable"):
            self.call(method)
        self.call("Profiler.startPreciseCoverage", callCount=True, detailed=True)

    def write_counts(self, folder: Path) -> None:
        """Writes each script of the page with the counts of its blocks."""
        for script in self.call("Profiler.takePreciseCoverage")["result"]:
            source = self.call("Debugger.getScriptSource", scriptId=script["scriptId"])["scriptSource"]
            name = f"{os.getpid()}-{self._target}-{script['scriptId']}.script.json"
            (folder / name).write_text(json.dumps({"source": source, "functions": script["functions"]}), encoding="utf-8")

    def close(self) -> None:
        if COUNTED:
            self.write_counts(Path(COUNTED))
        self._browser.call("Target.closeTarget", targetId=self._target)
