"""A headless Chromium that shows the page. It is driven by the browser's own protocol, over a pipe."""

import fcntl
import json
import os
import pathlib
import re
import subprocess
import tempfile
import time

MOST_SECONDS = 60
# What a page says that is at fault, or asks the network.
FAULT = re.compile(r"Runtime.exceptionThrown|Log.entryAdded|Network.requestWillBeSent")
DOMAINS = ("Runtime", "Log", "Page", "DOM")
# Runs a program that reads what is asked by descriptor 3, and answers by 4.
SHELL = 'exec "$0" "$@" 3<&{} 4>&{}'


class Browser:
    """The page, opened and ready. It ends with its block, which fails if the page was at fault."""

    def __init__(self, program, page):
        self.program, self.page = program, pathlib.Path(page).resolve()
        self.session, self.last, self.said, self.faults = None, 0, b"", []

    def __enter__(self):
        self.folder = tempfile.TemporaryDirectory(prefix="dbus-wire-", ignore_cleanup_errors=True)
        (ask, self.asks), (self.answers, answer) = os.pipe(), os.pipe()
        given = [fcntl.fcntl(it, fcntl.F_DUPFD, 10) for it in (ask, answer)]
        words = ["--headless", "--no-sandbox", "--disable-gpu", "--remote-debugging-pipe"]
        words += [f"--user-data-dir={self.folder.name}", "about:blank"]
        shell = ["bash", "-c", SHELL.format(*given), self.program, *words]
        quiet = {"stdin": subprocess.DEVNULL, "stdout": subprocess.DEVNULL, "stderr": subprocess.DEVNULL}
        self.process = subprocess.Popen(shell, pass_fds=given, **quiet)
        for it in (ask, answer, *given):
            os.close(it)
        target = self.ask("Target.createTarget", url="about:blank")["targetId"]
        self.session = self.ask("Target.attachToTarget", targetId=target, flatten=True)["sessionId"]
        for it in DOMAINS:
            self.ask(f"{it}.enable")
        self.resize(1280, 800)
        self.open()
        return self

    def __exit__(self, kind, error, trace):
        self.process.terminate()
        self.process.wait()
        os.close(self.asks)
        os.close(self.answers)
        self.folder.cleanup()
        if self.faults and kind is None:
            raise RuntimeError(f"the page was at fault: {self.faults[0]}")

    def open(self):
        """Loads the page. From here on it asks for nothing."""
        self.ask("Network.disable")
        self.ask("Page.navigate", url=self.page.as_uri())
        self.until("document.readyState === 'complete' && find('status').textContent.startsWith('Ready')")
        self.ask("Network.enable")

    def ask(self, method, **params):
        self.last += 1
        asked = {"id": self.last, "method": method, "params": params}
        asked |= {"sessionId": self.session} if self.session else {}
        rest = json.dumps(asked).encode() + b"\0"
        while rest:
            rest = rest[os.write(self.asks, rest):]
        while True:
            told = self.take()
            if told.get("id") == self.last:
                if "error" in told:
                    raise RuntimeError(f"{method}: {told['error']['message']}")
                return told["result"]
            if FAULT.fullmatch(told.get("method", "")):
                self.faults.append(told)

    def take(self):
        """The next message of the browser."""
        while b"\0" not in self.said:
            more = os.read(self.answers, 1 << 20)
            if not more:
                raise RuntimeError("the browser ended")
            self.said += more
        message, _, self.said = self.said.partition(b"\0")
        return json.loads(message)

    def value(self, expression):
        told = self.ask("Runtime.evaluate", expression=expression, awaitPromise=True, returnByValue=True)
        if "exceptionDetails" in told:
            details = told["exceptionDetails"]
            raise RuntimeError(details.get("exception", {}).get("description", details["text"]))
        return told["result"].get("value")

    def until(self, condition, seconds=MOST_SECONDS):
        end = time.monotonic() + seconds
        while not self.value(f'typeof find === "function" && ({condition})'):
            if time.monotonic() > end:
                raise RuntimeError(f"not within {seconds} seconds: {condition}")
            time.sleep(0.005)

    def resize(self, width, height):
        self.ask("Emulation.setDeviceMetricsOverride", width=width, height=height, deviceScaleFactor=1, mobile=False)

    def choose(self, *files, seconds=MOST_SECONDS):
        """Chooses files as a user does, and waits until all of them is listed. Whether they were read."""
        root = self.ask("DOM.getDocument")["root"]["nodeId"]
        node = self.ask("DOM.querySelector", nodeId=root, selector="#file")["nodeId"]
        self.value("find('count').textContent = find('status').textContent = ''")
        self.ask("DOM.setFileInputFiles", nodeId=node, files=[*map(str, files)])
        is_done = "find('count').textContent.endsWith(' shown') || find('status').textContent.includes('was not read')"
        self.until(is_done, seconds)
        return self.value("find('count').textContent !== ''")
