"""Chromium without a window, for the tests of pages and for tools/pictures. It needs only Python's own library."""

import json
import os
import subprocess
from pathlib import Path
from typing import Any, Dict, List

# The width of the window in pixels, in which all channels are in sight.
WINDOW = 1280


class Browser:
    """Chromium without a window, by its pipe of messages."""

    def __init__(self, program: str, folder: Path) -> None:
        self.commands_to, self.commands = os.pipe()[::-1]
        self.answers, self.answers_to = os.pipe()
        words = [
            program,
            "--headless=new",
            "--no-sandbox",
            "--disable-gpu",
            "--no-first-run",
            "--disable-background-networking",
        ]
        words += [
            "--disable-component-update",
            "--remote-debugging-pipe",
            f"--user-data-dir={folder}/browser",
            "--window-size=1300,900",
        ]
        # (dash, which is the `sh` of Debian, knows no number of a file above 9)
        line = f'exec "$@" 3<&{self.commands} 4>&{self.answers_to}'
        self.process = subprocess.Popen(
            ["bash", "-c", line, "bash", *words], pass_fds=(self.commands, self.answers_to), stderr=subprocess.DEVNULL
        )
        os.close(self.commands)
        os.close(self.answers_to)
        self.number, self.came, self.session = 0, b"", ""
        self.events: List[Dict[str, Any]] = []
        target = self.ask("Target.createTarget", url="about:blank")["targetId"]
        self.session = self.ask("Target.attachToTarget", targetId=target, flatten=True)["sessionId"]
        for domain in ("Page", "Network", "Runtime", "Log"):
            self.ask(f"{domain}.enable")
        self.ask("Emulation.setDeviceMetricsOverride", width=WINDOW, height=900, deviceScaleFactor=1, mobile=False)

    def message(self) -> Dict[str, Any]:
        """The next message of the browser."""
        while b"\0" not in self.came:
            part = os.read(self.answers, 1 << 20)
            if not part:
                raise EOFError("the browser has ended")
            self.came += part
        first, _, self.came = self.came.partition(b"\0")
        message: Dict[str, Any] = json.loads(first)
        return message

    def ask(self, method: str, **params: Any) -> Dict[str, Any]:
        """The result of a command."""
        self.number += 1
        question: Dict[str, Any] = {"id": self.number, "method": method, "params": params}
        if self.session:
            question["sessionId"] = self.session
        os.write(self.commands_to, json.dumps(question).encode() + b"\0")
        while True:
            message = self.message()
            if message.get("id") == self.number:
                if "error" in message:
                    raise RuntimeError(f"{method}: {message['error']}")
                result: Dict[str, Any] = message["result"]
                return result
            self.events.append(message)

    def wait(self, method: str) -> Dict[str, Any]:
        """The next event of this kind."""
        while True:
            for at, message in enumerate(self.events):
                if message.get("method") == method:
                    return self.events.pop(at)
            self.events.append(self.message())

    def run(self, script: str) -> Any:
        """The value of a script."""
        answer = self.ask("Runtime.evaluate", expression=script, returnByValue=True)
        if "exceptionDetails" in answer:
            raise RuntimeError(answer["exceptionDetails"])
        return answer["result"].get("value")

    def open(self, path: Path) -> float:
        """Opens a page. Returns the processor time that the browser takes until the page is there, in seconds."""
        self.events.clear()
        begun = self.processor_seconds()
        self.ask("Page.navigate", url=path.as_uri())
        self.wait("Page.loadEventFired")
        self.run("new Promise(requestAnimationFrame) && document.body.offsetHeight")
        return self.processor_seconds() - begun

    def processor_seconds(self) -> float:
        """The processor time of the browser and of all processes below it, in seconds."""
        parents: Dict[int, int] = {}
        ticks: Dict[int, int] = {}
        for path in Path("/proc").glob("[0-9]*/stat"):
            try:
                fields = path.read_text().rpartition(")")[2].split()
            except OSError:  # a process that has ended
                continue
            parents[int(path.parent.name)] = int(fields[1])
            ticks[int(path.parent.name)] = sum(map(int, fields[11:15]))
        found, below = [], [self.process.pid]
        while below:
            found += below
            below = [process for process, parent in parents.items() if parent in below]
        return sum(ticks.get(process, 0) for process in found) / os.sysconf("SC_CLK_TCK")

    def press(self, key: str, code: int = 0, text: str = "") -> None:
        """Presses a key."""
        for kind in ("keyDown" if text else "rawKeyDown", "keyUp"):
            self.ask(
                "Input.dispatchKeyEvent",
                type=kind,
                key=key,
                code=key,
                windowsVirtualKeyCode=code,
                **({"text": text} if kind == "keyDown" else {}),
            )

    def media(self, media: str = "", scheme: str = "light") -> None:
        """Shows the page for a medium, such as print, and in light or dark mode."""
        self.ask(
            "Emulation.setEmulatedMedia", media=media, features=[{"name": "prefers-color-scheme", "value": scheme}]
        )

    def asked_for(self) -> List[str]:
        """The addresses that the page asked for."""
        return [
            event["params"]["request"]["url"]
            for event in self.events
            if event.get("method") == "Network.requestWillBeSent"
        ]

    def failures(self) -> List[Dict[str, Any]]:
        """The failures of scripts."""
        return [event for event in self.events if event.get("method") in ("Runtime.exceptionThrown", "Log.entryAdded")]

    def end(self) -> None:
        self.process.terminate()
        self.process.wait()
