"""A headless Chromium that a tool drives over the browser's own debugging pipe: nothing but the browser and Python is needed.
Messages are JSON, each ended by a byte 0. It is written for itself, and stands apart from what is proved."""
import base64
import json
import os
import select
import shutil
import subprocess
import tempfile
import time

NAMES = ("chromium", "chromium-browser", "google-chrome")
# the browser reads commands from the one and writes answers to the other
COMMANDS, ANSWERS = 3, 4
SECONDS = 60


class Failed(Exception):
    """What the browser or the page didn't do."""


def path_of_browser():
    """Where a Chromium is; None where there is none."""
    return next((path for name in NAMES if (path := shutil.which(name))), None)


class Browser:
    """A browser with one page, which is ended with the `with` block."""

    def __init__(self, path):
        self.folder = tempfile.mkdtemp(prefix="look-at-page-")
        to_browser, self.commands = os.pipe()
        self.answers, from_browser = os.pipe()
        self.rest, self.number, self.events = b"", 0, []
        words = [path, "--headless=new", "--remote-debugging-pipe", f"--user-data-dir={self.folder}", "--no-first-run"]
        # a browser that runs as root, as in a container, has no sandbox
        words += ["--no-sandbox"] if os.geteuid() == 0 else []
        shell = f'exec "$@" {COMMANDS}<&{to_browser} {ANSWERS}>&{from_browser}'
        self.process = subprocess.Popen(
            ["bash", "-c", shell, "bash", *words, "about:blank"],
            pass_fds=(to_browser, from_browser), stdout=subprocess.DEVNULL, stderr=subprocess.DEVNULL,
        )
        os.close(to_browser)
        os.close(from_browser)
        self.session = None

    def __enter__(self):
        targets = self.call("Target.getTargets")["targetInfos"]
        page = next(it["targetId"] for it in targets if it["type"] == "page")
        self.session = self.call("Target.attachToTarget", targetId=page, flatten=True)["sessionId"]
        for domain in ("Page", "Runtime", "Log"):
            self.call(f"{domain}.enable")
        return self

    def __exit__(self, *_):
        self.process.terminate()
        try:
            self.process.wait(10)
        except subprocess.TimeoutExpired:
            self.process.kill()
            self.process.wait()
        os.close(self.commands)
        os.close(self.answers)
        shutil.rmtree(self.folder, ignore_errors=True)

    def call(self, method, **words):
        """Has the browser do something, and answers what it says."""
        self.number += 1
        message = {"id": self.number, "method": method, "params": words}
        if self.session:
            message["sessionId"] = self.session
        os.write(self.commands, json.dumps(message).encode() + b"\0")
        while True:
            said = self.next()
            if said.get("id") == self.number:
                if "error" in said:
                    raise Failed(f"{method}: {said['error']['message']}")
                return said["result"]
            self.events.append(said)

    def next(self):
        """The next message of the browser."""
        end = time.monotonic() + SECONDS
        while b"\0" not in self.rest:
            if not select.select([self.answers], [], [], max(0, end - time.monotonic()))[0]:
                raise Failed(f"the browser said nothing for {SECONDS} seconds")
            piece = os.read(self.answers, 1 << 20)
            if not piece:
                raise Failed("the browser ended")
            self.rest += piece
        message, _, self.rest = self.rest.partition(b"\0")
        return json.loads(message)

    def run(self, script):
        """The value of an expression in the page, where a promise is awaited."""
        said = self.call("Runtime.evaluate", expression=script, awaitPromise=True, returnByValue=True)
        if "exceptionDetails" in said:
            raise Failed(said["exceptionDetails"].get("exception", {}).get("description", "the page's script failed"))
        return said["result"].get("value")

    def until(self, script, what):
        """Waits until an expression holds in the page."""
        end = time.monotonic() + SECONDS
        while not self.run(script):
            if time.monotonic() > end:
                raise Failed(f"{what}: not within {SECONDS} seconds")
            time.sleep(0.02)

    def open(self, path):
        """Opens a file as the page."""
        self.call("Page.navigate", url=f"file://{path}")
        self.until("document.readyState === 'complete'", "the page is read")

    def size(self, wide, high, scale=1):
        self.call("Emulation.setDeviceMetricsOverride", width=wide, height=high, deviceScaleFactor=scale, mobile=False)

    def theme(self, name):
        self.call("Emulation.setEmulatedMedia", features=[{"name": "prefers-color-scheme", "value": name}])

    def picture(self, path, whole=False):
        """Writes what is seen, or the whole page, as a picture."""
        said = self.call("Page.captureScreenshot", format="png", captureBeyondViewport=whole)
        path.write_bytes(base64.b64decode(said["data"]))

    def press(self, key, text=None, shift=False):
        """Presses a key."""
        words = {"key": key, "modifiers": 8 if shift else 0, "windowsVirtualKeyCode": KEY_CODES.get(key, 0)}
        self.call("Input.dispatchKeyEvent", type="keyDown", **words, **({"text": text} if text else {}))
        self.call("Input.dispatchKeyEvent", type="keyUp", **words)

    def point(self, kind, x, y, **more):
        """Moves or presses the pointer: mouseMoved, mousePressed, mouseReleased, mouseWheel."""
        self.call("Input.dispatchMouseEvent", type=kind, x=x, y=y, **more)

    def drop(self, paths, x=200, y=200):
        """Drops files on the page."""
        data = {"items": [], "files": [str(path) for path in paths], "dragOperationsMask": 1}
        for kind in ("dragEnter", "dragOver", "drop"):
            self.call("Input.dispatchDragEvent", type=kind, x=x, y=y, data=data)

    def faults(self):
        """What the page's script failed in so far, and what the console was told of errors."""
        thrown = [it["params"]["exceptionDetails"] for it in self.events if it.get("method") == "Runtime.exceptionThrown"]
        logged = [it["params"]["entry"] for it in self.events if it.get("method") == "Log.entryAdded"]
        said = [str(it.get("exception", {}).get("description", it["text"])) for it in thrown]
        return said + [it["text"] for it in logged if it["level"] == "error"]


KEY_CODES = {"Tab": 9, "Enter": 13, "ArrowLeft": 37, "ArrowUp": 38, "ArrowRight": 39, "ArrowDown": 40, "End": 35, "Home": 36}
