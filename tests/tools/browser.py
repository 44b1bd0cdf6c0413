"""A headless Chromium that a test drives: over a pipe, by the commands of its DevTools. Nothing needs it."""

import base64
import json
import os
import shutil
import subprocess
import tempfile
import time
import unittest

NAMES = ("chromium", "chromium-browser", "google-chrome")
SECONDS = 120
KEYS = {"Tab": 9, "Enter": 13, " ": 32, "ArrowDown": 40}


def path():
    """The browser's path; None where there is none."""
    return next((found for found in map(shutil.which, NAMES) if found), None)


needed = unittest.skipUnless(path(), "needs Chromium")


class Browser:
    """A browser with one page. Its profile is in a directory of its own, which goes at the end."""

    def __init__(self, directory=None):
        self.holder = tempfile.TemporaryDirectory(prefix="cqe-browser.", dir=directory, ignore_cleanup_errors=True)
        words = [path(), "--headless=new", "--no-sandbox", "--disable-gpu", "--disable-dev-shm-usage", "--no-first-run",
                 "--disable-extensions", "--disable-background-networking", "--hide-scrollbars",
                 f"--user-data-dir={self.holder.name}", "--remote-debugging-pipe", "about:blank"]
        heard, self.sending = os.pipe()
        self.hearing, said = os.pipe()
        # The browser reads commands at the descriptor 3 and writes replies at 4.
        self.child = subprocess.Popen(["sh", "-c", f'exec "$0" "$@" 3<&{heard} 4>&{said}', *words],
                                      pass_fds=(heard, said), stdin=subprocess.DEVNULL, stdout=subprocess.DEVNULL,
                                      stderr=subprocess.DEVNULL, env={**os.environ, "HOME": self.holder.name})
        os.close(heard)
        os.close(said)
        self.rest, self.number, self.session = b"", 0, None
        self.errors = []  # what pages complained of
        target = next(one for one in self.call("Target.getTargets")["targetInfos"] if one["type"] == "page")
        self.take(target["targetId"])

    def take(self, target):
        """Drives this page from now on."""
        self.session = self.call("Target.attachToTarget", targetId=target, flatten=True)["sessionId"]
        for domain in ("Page", "Runtime", "Log"):
            self.call(f"{domain}.enable")

    def further(self):
        """Opens a further page and drives it; `turn_to` with what this answers drives the one before again."""
        before = self.session
        self.session = None
        self.take(self.call("Target.createTarget", url="about:blank")["targetId"])
        return before

    def turn_to(self, session):
        """Drives another page, and answers what tells the one before."""
        before, self.session = self.session, session
        self.call("Page.bringToFront")
        return before

    def __enter__(self):
        return self

    def __exit__(self, *_):
        self.child.kill()
        self.child.wait()
        os.close(self.sending)
        os.close(self.hearing)
        self.holder.cleanup()

    def call(self, method, **parameters):
        """The result of a command."""
        self.number += 1
        sent = {"id": self.number, "method": method, "params": parameters}
        if self.session is not None:
            sent["sessionId"] = self.session
        os.write(self.sending, json.dumps(sent).encode() + b"\0")
        while True:
            heard = self.heard()
            if heard.get("id") == self.number:
                if "error" in heard:
                    raise AssertionError(f"{method}: {heard['error']}")
                return heard["result"]
            if heard.get("method") in ("Runtime.exceptionThrown", "Log.entryAdded"):
                self.errors.append(heard["params"])

    def heard(self):
        """The next thing that the browser says."""
        while b"\0" not in self.rest:
            piece = os.read(self.hearing, 65536)
            if not piece:
                raise AssertionError("the browser ended")
            self.rest += piece
        said, self.rest = self.rest.split(b"\0", 1)
        return json.loads(said)

    def go(self, address):
        self.call("Page.navigate", url=address)
        self.wait("document.readyState === 'complete' && document.body.innerText.length > 0")

    def value(self, expression):
        """The value of an expression in the page."""
        found = self.call("Runtime.evaluate", expression=expression, returnByValue=True, awaitPromise=True)
        if "exceptionDetails" in found:
            raise AssertionError(found["exceptionDetails"])
        return found["result"].get("value")

    def wait(self, expression):
        """Waits until an expression in the page holds."""
        end = time.monotonic() + SECONDS
        while not self.value(f"Boolean({expression})"):
            if time.monotonic() > end:
                raise AssertionError(f"never: {expression}\n{self.value('document.body.innerText')}")
            time.sleep(0.05)

    def type(self, text):
        self.call("Input.insertText", text=text)

    def press(self, key, shift=False):
        """A key as a person presses it."""
        more = {"text": "\r"} if key == "Enter" else {"text": " "} if key == " " else {}
        parts = {"key": key, "code": "Space" if key == " " else key, "windowsVirtualKeyCode": KEYS[key],
                 "modifiers": 8 if shift else 0}
        self.call("Input.dispatchKeyEvent", type="keyDown" if more else "rawKeyDown", **parts, **more)
        self.call("Input.dispatchKeyEvent", type="keyUp", **parts)

    def look(self, width, height, scheme="light"):
        """Sets the size of the page and whether it is light or dark."""
        self.call("Emulation.setDeviceMetricsOverride", width=width, height=height, deviceScaleFactor=1, mobile=False)
        self.call("Emulation.setEmulatedMedia", features=[{"name": "prefers-color-scheme", "value": scheme}])

    def picture(self, width, height, scale=1):
        """What is seen of the page, made smaller by a scale, as the bytes of a PNG."""
        clip = {"x": 0, "y": 0, "width": width, "height": height, "scale": scale}
        return base64.b64decode(self.call("Page.captureScreenshot", format="png", clip=clip)["data"])
