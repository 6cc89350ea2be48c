"""A browser without a window, chromium, which is driven through a pipe (Chrome DevTools Protocol)."""

import base64
import itertools
import json
import os
import pathlib
import shutil
import subprocess
import tempfile

from lib.tools import CALLED, give_up

PROGRAMS = ("chromium", "chromium-browser", "google-chrome")


class Browser:
    """A browser with one page."""

    def __init__(self, width, height):
        program = next(filter(shutil.which, PROGRAMS), None) or give_up("chromium is needed, and is not installed")
        CALLED.add(program)
        self.home = tempfile.TemporaryDirectory()
        to_browser, self.write_end = os.pipe()
        self.read_end, from_browser = os.pipe()

        def take_ends():
            # The browser reads from 3, and writes to 4. Copies above keep them from each other.
            ends = os.dup(to_browser), os.dup(from_browser)
            os.dup2(ends[0], 3)
            os.dup2(ends[1], 4)

        self.process = subprocess.Popen(
            [program, "--headless", "--no-sandbox", "--disable-gpu", "--hide-scrollbars", "--remote-debugging-pipe",
             f"--user-data-dir={self.home.name}", f"--window-size={width},{height}", "about:blank"],
            preexec_fn=take_ends, close_fds=False, stdout=subprocess.DEVNULL, stderr=subprocess.DEVNULL)
        os.close(to_browser)
        os.close(from_browser)
        self.numbers, self.pending, self.events, self.session = itertools.count(1), b"", [], None
        target = self.call("Target.createTarget", url="about:blank")["targetId"]
        self.session = self.call("Target.attachToTarget", targetId=target, flatten=True)["sessionId"]
        for domain in ("Page", "Runtime", "Network"):
            self.call(f"{domain}.enable")
        self.resize(width, height)

    def __enter__(self):
        return self

    def __exit__(self, *_):
        self.process.terminate()
        self.process.wait()
        os.close(self.write_end)
        os.close(self.read_end)
        self.home.cleanup()

    def message(self):
        while b"\0" not in self.pending:
            more = os.read(self.read_end, 1 << 20)
            if not more:
                give_up("the browser ended")
            self.pending += more
        first, _, self.pending = self.pending.partition(b"\0")
        return json.loads(first)

    def call(self, method, **values):
        number = next(self.numbers)
        sent = {"id": number, "method": method, "params": values, **({"sessionId": self.session} if self.session else {})}
        os.write(self.write_end, json.dumps(sent).encode() + b"\0")
        while True:
            found = self.message()
            if found.get("id") == number:
                if "error" in found:
                    give_up(f"{method}: {found['error']}")
                return found["result"]
            self.events.append(found)

    def wait_for(self, event):
        while not any(it.get("method") == event for it in self.events):
            self.events.append(self.message())

    def open(self, path, with_script=True):
        """Opens a file, and returns the addresses that were asked for."""
        self.call("Emulation.setScriptExecutionDisabled", value=not with_script)
        self.events.clear()
        self.call("Page.navigate", url=pathlib.Path(path).resolve().as_uri())
        self.wait_for("Page.loadEventFired")
        return [it["params"]["request"]["url"] for it in self.events if it.get("method") == "Network.requestWillBeSent"]

    def resize(self, width, height):
        self.call("Emulation.setDeviceMetricsOverride", width=width, height=height, deviceScaleFactor=1, mobile=False)

    def value(self, expression):
        found = self.call("Runtime.evaluate", expression=expression, returnByValue=True)
        if "exceptionDetails" in found:
            give_up(f"{expression}: {found['exceptionDetails']}")
        return found["result"].get("value")

    def click(self, x, y):
        self.call("Input.dispatchMouseEvent", type="mouseMoved", x=x, y=y)
        for kind in ("mousePressed", "mouseReleased"):
            self.call("Input.dispatchMouseEvent", type=kind, x=x, y=y, button="left", clickCount=1)

    def press(self, key):
        for kind in ("keyDown", "keyUp"):
            self.call("Input.dispatchKeyEvent", type=kind, key=key)

    def write(self, text):
        self.call("Input.insertText", text=text)

    def screenshot(self, path):
        pathlib.Path(path).write_bytes(base64.b64decode(self.call("Page.captureScreenshot", format="png")["data"]))
