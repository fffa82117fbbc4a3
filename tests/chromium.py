"""Headless Chromium for tests, driven over the DevTools protocol through a pair of pipes: real clicks, real keys, screenshots."""
import base64
import json
import os
import pathlib
import shutil
import subprocess
import tempfile
import time

NAMES = ("chromium", "chromium-browser", "google-chrome", "chrome")
KEYS = {
    "Enter": ("Enter", 13, "\r"), "Escape": ("Escape", 27, ""), "Tab": ("Tab", 9, ""), "Delete": ("Delete", 46, ""), " ": ("Space", 32, " "),
    "ArrowLeft": ("ArrowLeft", 37, ""), "ArrowUp": ("ArrowUp", 38, ""), "ArrowRight": ("ArrowRight", 39, ""), "ArrowDown": ("ArrowDown", 40, ""),
    "Home": ("Home", 36, ""), "End": ("End", 35, ""),
}
CTRL = 2
WORDS = (
    "--no-first-run", "--no-default-browser-check", "--disable-gpu", "--disable-extensions", "--disable-background-networking", "--disable-component-update",
    "--hide-scrollbars", "--force-color-profile=srgb",
)
# the middle of an element, once it is scrolled into view
MIDDLE = """(() => {
  const e = document.querySelectorAll(SELECTOR)[INDEX];
  e.scrollIntoView({ block: 'center', inline: 'center' });
  const r = e.getBoundingClientRect();
  return [r.x + r.width / 2, r.y + r.height / 2];
})()"""


def found():
    """The browser's path, or nothing."""
    given = os.environ.get("CHROMIUM")
    return given or next((path for path in map(shutil.which, NAMES) if path), None)


class Chromium:
    def __init__(self, path, wait=30):
        self.wait, self.number, self.events, self.left = wait, 0, [], b""
        self.room = tempfile.mkdtemp(prefix="foxentu-chromium-")
        to, self.out = os.pipe()
        self.back, of = os.pipe()
        words = ["--headless=new", "--remote-debugging-pipe", f"--user-data-dir={self.room}", *WORDS]
        if os.geteuid() == 0:
            words.append("--no-sandbox")
        # the browser reads from descriptor 3 and writes to descriptor 4
        script = f'exec "$@" 3<&{to} 4>&{of}'
        quiet = {"stdin": subprocess.DEVNULL, "stdout": subprocess.DEVNULL, "stderr": subprocess.DEVNULL}
        self.process = subprocess.Popen(["bash", "-c", script, "chromium", path, *words, "about:blank"], pass_fds=(to, of), **quiet)
        os.close(to)
        os.close(of)
        os.set_blocking(self.back, False)
        target = self.send("Target.createTarget", url="about:blank")["targetId"]
        self.session = None
        self.session = self.send("Target.attachToTarget", targetId=target, flatten=True)["sessionId"]
        for domain in ("Page", "Runtime", "Log", "Network"):
            self.send(f"{domain}.enable")

    session = None

    def close(self):
        try:
            session, self.session = self.session, None
            self.send("Browser.close")
            self.session = session
        except (OSError, RuntimeError):
            pass  # it is gone already
        try:
            self.process.wait(10)
        except subprocess.TimeoutExpired:
            self.process.kill()
            self.process.wait()
        os.close(self.out)
        os.close(self.back)
        shutil.rmtree(self.room, ignore_errors=True)

    # ---- messages
    def send(self, method, **params):
        self.number += 1
        message = {"id": self.number, "method": method, "params": params}
        if self.session:
            message["sessionId"] = self.session
        os.write(self.out, json.dumps(message).encode() + b"\0")
        until = time.monotonic() + self.wait
        while True:
            told = self._next(until)
            if told.get("id") == self.number:
                if "error" in told:
                    raise RuntimeError(f"{method}: {told['error']}")
                return told["result"]
            self.events.append(told)

    def _next(self, until):
        while b"\0" not in self.left:
            if time.monotonic() > until or self.process.poll() is not None:
                raise RuntimeError("Chromium does not answer")
            try:
                piece = os.read(self.back, 1 << 20)
                if not piece:
                    raise RuntimeError("Chromium has ended")
                self.left += piece
            except BlockingIOError:
                time.sleep(0.002)
        first, _, self.left = self.left.partition(b"\0")
        return json.loads(first)

    # ---- the page
    def run(self, script):
        """The value of an expression; a promise is waited for."""
        told = self.send("Runtime.evaluate", expression=script, awaitPromise=True, returnByValue=True)
        if "exceptionDetails" in told:
            raise RuntimeError(f"{script}: {told['exceptionDetails'].get('exception', {}).get('description', told['exceptionDetails']['text'])}")
        return told["result"].get("value")

    def until(self, script, what=None):
        """Waits until an expression is true."""
        until = time.monotonic() + self.wait
        while not self.run(f"!!({script})"):
            if time.monotonic() > until:
                raise RuntimeError(f"not so after {self.wait} s: {what or script}")
            time.sleep(0.01)

    def go(self, address):
        self.send("Page.navigate", url=address)
        self.until(f"document.readyState === 'complete' && location.href.startsWith({json.dumps(address)})")

    def size(self, wide, high, scale=1):
        self.send("Emulation.setDeviceMetricsOverride", width=wide, height=high, deviceScaleFactor=scale, mobile=False)

    def scheme(self, name):
        self.send("Emulation.setEmulatedMedia", features=[{"name": "prefers-color-scheme", "value": name}])

    def at(self, selector, index=0):
        return self.run(MIDDLE.replace("SELECTOR", json.dumps(selector)).replace("INDEX", str(index)))

    def click(self, selector, index=0):
        x, y = self.at(selector, index)
        self.mouse("mousePressed", x, y, 1)
        self.mouse("mouseReleased", x, y, 0)

    def mouse(self, kind, x, y, buttons=0):
        moved = kind == "mouseMoved"
        self.send("Input.dispatchMouseEvent", type=kind, x=x, y=y, button="none" if moved and not buttons else "left", buttons=buttons, clickCount=int(not moved))

    def key(self, name, modifiers=0):
        if name in KEYS:
            code, number, text = KEYS[name]
        else:
            code, number, text = f"Key{name.upper()}" if name.isalpha() else "", ord(name.upper()), name
        settings = {"key": name, "code": code, "windowsVirtualKeyCode": number, "modifiers": modifiers}
        typed = {"text": text} if text and not modifiers & CTRL else {}
        self.send("Input.dispatchKeyEvent", type="keyDown" if typed else "rawKeyDown", **settings, **typed)
        self.send("Input.dispatchKeyEvent", type="keyUp", **settings)

    def type(self, text):
        for letter in text:
            self.key(letter)

    def picture(self, path, whole=False):
        """A screenshot as PNG."""
        data = self.send("Page.captureScreenshot", format="png", captureBeyondViewport=whole)["data"]
        pathlib.Path(path).write_bytes(base64.b64decode(data))

    def complaints(self):
        """Errors of scripts and refused loads since the start."""
        self.run("0")
        found = []
        for event in self.events:
            if event.get("method") == "Runtime.exceptionThrown":
                found.append(event["params"]["exceptionDetails"].get("exception", {}).get("description", "an exception"))
            elif event.get("method") == "Log.entryAdded" and event["params"]["entry"]["level"] == "error":
                found.append(event["params"]["entry"]["text"])
        return found
