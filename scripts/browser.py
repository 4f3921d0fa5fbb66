"""Chromium without a window, driven by its debugging protocol over a socket: pages, keys, presses, pictures, and what it says.

    with Browser() as browser:
        tab = browser.open(path.as_uri(), width=1200, height=800)
        tab.value("document.title")
"""
import base64
import json
import os
import pathlib
import re
import shutil
import socket
import subprocess
import tempfile
import time
import urllib.request

NAMES = ("chromium", "chromium-browser", "google-chrome", "chrome")
# the seconds that something is waited for
PATIENCE = 60
# of a frame of the socket: the last one of a text, a close, and the bit that says it is masked
TEXT, CLOSE, MASKED = 0x81, 0x88, 0x80


def chromium():
    """The path of the browser, or None."""
    return next(filter(None, map(shutil.which, NAMES)), None)


class Socket:
    """A web socket to a port of this machine, which sends and gets texts."""

    def __init__(self, port, path):
        self.line = socket.create_connection(("127.0.0.1", port), timeout=PATIENCE)
        key = base64.b64encode(os.urandom(16)).decode()
        head = (f"GET {path} HTTP/1.1", f"Host: 127.0.0.1:{port}", "Upgrade: websocket", "Connection: Upgrade", f"Sec-WebSocket-Key: {key}", "Sec-WebSocket-Version: 13", "", "")
        self.line.sendall("\r\n".join(head).encode())
        self.file = self.line.makefile("rb")
        while self.file.readline().strip():
            pass

    def send(self, text):
        data, mask = text.encode(), os.urandom(4)
        size = len(data)
        length = bytes([MASKED | size]) if size < 126 else bytes([MASKED | 126]) + size.to_bytes(2, "big") if size < 1 << 16 else bytes([MASKED | 127]) + size.to_bytes(8, "big")
        masked = (int.from_bytes(data, "big") ^ int.from_bytes((mask * (size // 4 + 1))[:size], "big")).to_bytes(size, "big")
        self.line.sendall(bytes([TEXT]) + length + mask + masked)

    def get(self):
        """The next text, whose parts may come one by one."""
        text = b""
        while True:
            kind, size = self.file.read(2)
            size = int.from_bytes(self.file.read(2 if size == 126 else 8), "big") if size > 125 else size
            text += self.file.read(size)
            if kind & 0x80:
                return text.decode()

    def close(self):
        self.line.close()


class Browser:
    """A browser with a folder of its own, until it is left."""

    def __init__(self, *words):
        self.folder = tempfile.TemporaryDirectory(prefix="browser-", ignore_cleanup_errors=True)
        how = ["--headless=new", "--no-sandbox", "--remote-debugging-port=0", "--no-first-run", "--disable-gpu", "--mute-audio", "--disable-background-networking",
               "--disable-component-update", "--disable-sync", "--hide-scrollbars", f"--user-data-dir={self.folder.name}", *words]
        self.ran = subprocess.Popen([chromium(), *how, "about:blank"], stdin=subprocess.DEVNULL, stdout=subprocess.DEVNULL, stderr=subprocess.DEVNULL)
        self.port = self.find_port()

    def find_port(self):
        told = pathlib.Path(self.folder.name) / "DevToolsActivePort"
        wait_until(lambda: told.exists() and told.read_text().count("\n"), "the browser doesn't start")
        return int(told.read_text().split("\n")[0])

    def open(self, address="about:blank", width=1280, height=800, **how):
        """A tab of some size that shows an address."""
        request = urllib.request.Request(f"http://127.0.0.1:{self.port}/json/new?about:blank", method="PUT")
        with urllib.request.urlopen(request, timeout=PATIENCE) as answer:
            told = json.load(answer)
        tab = Tab(Socket(self.port, re.sub(r"^ws://[^/]*", "", told["webSocketDebuggerUrl"])))
        tab.show(address, width, height, **how)
        return tab

    def __enter__(self):
        return self

    def __exit__(self, *_):
        self.ran.terminate()
        try:
            self.ran.wait(10)
        except subprocess.TimeoutExpired:
            self.ran.kill()
            self.ran.wait()
        self.folder.cleanup()


class Tab:
    """A tab: what is asked of it, and what it says by itself: its requests, its messages and its faults."""

    def __init__(self, line):
        self.line, self.count, self.said, self.requests, self.loaded = line, 0, [], [], 0
        for domain in ("Page", "Runtime", "Network", "Log"):
            self.ask(f"{domain}.enable")

    def ask(self, method, **words):
        """What the browser answers. What it says meanwhile is kept."""
        self.count += 1
        self.line.send(json.dumps({"id": self.count, "method": method, "params": words}))
        while True:
            found = json.loads(self.line.get())
            if found.get("id") == self.count:
                if "error" in found:
                    raise RuntimeError(f"{method}: {found['error']['message']}")
                return found["result"]
            self.keep(found)

    def keep(self, found):
        method, told = found.get("method"), found.get("params", {})
        if method == "Page.loadEventFired":
            self.loaded += 1
        elif method == "Network.requestWillBeSent":
            self.requests.append(told["request"]["url"])
        elif method == "Runtime.consoleAPICalled":
            self.said.append(" ".join(str(it.get("value", it.get("description", ""))) for it in told["args"]))
        elif method == "Runtime.exceptionThrown":
            self.said.append(told["exceptionDetails"].get("exception", {}).get("description", told["exceptionDetails"]["text"]))
        elif method == "Log.entryAdded":
            self.said.append(told["entry"]["text"])

    def show(self, address, width, height, is_dark=False, ratio=1):
        """Goes to an address, and waits until it is there."""
        self.resize(width, height, ratio)
        self.ask("Emulation.setEmulatedMedia", features=[{"name": "prefers-color-scheme", "value": "dark" if is_dark else "light"}])
        self.loaded, self.said, self.requests = 0, [], []
        self.ask("Page.navigate", url=address)
        wait_until(lambda: self.value("1") and self.loaded, f"{address} isn't loaded")

    def resize(self, width, height, ratio=1):
        self.ask("Emulation.setDeviceMetricsOverride", width=width, height=height, deviceScaleFactor=ratio, mobile=False)

    def value(self, code):
        """The value of some code, or of its promise."""
        found = self.ask("Runtime.evaluate", expression=code, returnByValue=True, awaitPromise=True)
        if "exceptionDetails" in found:
            raise RuntimeError(f"{code}: {found['exceptionDetails'].get('exception', {}).get('description')}")
        return found["result"].get("value")

    def wait(self, code):
        """Waits until some code gives something true."""
        wait_until(lambda: self.value(code), f"{code} doesn't come: {self.said}")

    def key(self, name, text="", modifiers=0):
        """Presses a key and lets it go."""
        code = {" ": "Space"}.get(name, f"Key{name.upper()}" if len(name) == 1 and name.isalpha() else name)
        told = {"key": name, "code": code, "modifiers": modifiers, "windowsVirtualKeyCode": ord(name.upper()) if len(name) == 1 else 0}
        self.ask("Input.dispatchKeyEvent", type="keyDown" if text else "rawKeyDown", text=text, **told)
        self.ask("Input.dispatchKeyEvent", type="keyUp", **told)

    def press(self, x, y, to=None):
        """Presses at a point, and lets go there or at another one."""
        told = {"button": "left", "clickCount": 1}
        self.ask("Input.dispatchMouseEvent", type="mousePressed", x=x, y=y, **told)
        if to:
            self.ask("Input.dispatchMouseEvent", type="mouseMoved", x=to[0], y=to[1], buttons=1, button="left")
        self.ask("Input.dispatchMouseEvent", type="mouseReleased", x=to[0] if to else x, y=to[1] if to else y, **told)

    def wheel(self, x, y, down, aside=0, modifiers=0):
        self.ask("Input.dispatchMouseEvent", type="mouseWheel", x=x, y=y, deltaX=aside, deltaY=down, modifiers=modifiers)

    def picture(self, path):
        """Writes what is seen as a PNG."""
        pathlib.Path(path).write_bytes(base64.b64decode(self.ask("Page.captureScreenshot", format="png")["data"]))


def wait_until(is_so, otherwise):
    until = time.monotonic() + PATIENCE
    while not is_so():
        if time.monotonic() > until:
            raise TimeoutError(otherwise)
        time.sleep(0.03)
