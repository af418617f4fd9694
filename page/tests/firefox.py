"""A headless Firefox, driven through WebDriver BiDi, which it speaks over a WebSocket. Standard library alone.

It has what browser.py has of Chromium, but for the DevTools protocol: no emulated phone, no dark colours, no tree for screen readers.
"""
import base64
import itertools
import json
import os
import queue
import re
import shutil
import socket
import struct
import subprocess
import tempfile
import threading

from browser import Failed, NotHere, Steps

NAMES = ("firefox-esr", "firefox")
SETTINGS = {
    "app.update.enabled": False, "browser.download.folderList": 2, "browser.download.useDownloadDir": True, "datareporting.policy.dataSubmissionEnabled": False,
    "browser.shell.checkDefaultBrowser": False, "browser.startup.homepage_override.mstone": "ignore",
    "network.captive-portal-service.enabled": False, "network.connectivity-service.enabled": False, "toolkit.telemetry.enabled": False,
    "browser.download.alwaysOpenPanel": False, "browser.download.manager.addToRecentDocs": False,
}
# Keys that are no letters, as WebDriver writes them.
KEYS = {"ArrowLeft": "\ue012", "ArrowUp": "\ue013", "ArrowRight": "\ue014", "ArrowDown": "\ue015", "Home": "\ue011", "End": "\ue010", "Enter": "\ue007",
        "Tab": "\ue004", "Escape": "\ue00c", "PageUp": "\ue00e", "PageDown": "\ue00f"}
SHIFT, SHIFTED = "\ue008", 8


def program():
    """The browser's path, or none."""
    return os.environ.get("FIREFOX") or next(filter(None, map(shutil.which, NAMES)), None)


class WebSocket:
    """Texts to and fro, by frames."""

    def __init__(self, port, path):
        self.line = socket.create_connection(("127.0.0.1", port), 60)
        self.line.settimeout(None)
        key = base64.b64encode(os.urandom(16)).decode()
        self.line.sendall((f"GET {path} HTTP/1.1\r\nHost: 127.0.0.1:{port}\r\nUpgrade: websocket\r\nConnection: Upgrade\r\n"
                           f"Sec-WebSocket-Key: {key}\r\nSec-WebSocket-Version: 13\r\n\r\n").encode())
        self.back = self.line.makefile("rb")
        if b" 101 " not in self.back.readline():
            raise Failed("the browser opens no WebSocket")
        while self.back.readline().strip():
            pass

    def send(self, text):
        content, mask = text.encode(), os.urandom(4)
        size = len(content)
        length = bytes([0x80 | size]) if size < 126 else b"\xfe" + struct.pack(">H", size) if size < 65536 else b"\xff" + struct.pack(">Q", size)
        times = mask * (size // 4 + 1)
        masked = (int.from_bytes(content, "big") ^ int.from_bytes(times[:size], "big")).to_bytes(size, "big")
        self.line.sendall(b"\x81" + length + mask + masked)

    def texts(self):
        """Each text that comes, up to the end of the connection."""
        parts = []
        while True:
            head = self.back.read(2)
            if len(head) < 2:
                return
            size = head[1] & 127
            if size > 125:
                size = int.from_bytes(self.back.read(2 if size == 126 else 8), "big")
            content, kind = self.back.read(size), head[0] & 15
            if kind == 8:
                return
            if kind in (0, 1):
                parts.append(content)
                if head[0] & 128:
                    yield b"".join(parts).decode()
                    parts = []


def plain(value):
    """A value of the page's script, which comes with its types."""
    kind, inside = value["type"], value.get("value")
    if kind in ("array", "set", "nodelist"):
        return [plain(one) for one in inside or []]
    if kind == "object":
        return {name if isinstance(name, str) else plain(name): plain(one) for name, one in inside or []}
    return inside


class Browser:
    """One process of the browser; its tabs share it."""

    def __init__(self):
        self.folder = tempfile.mkdtemp(prefix="snaplab-page.")
        self.downloads = os.path.join(self.folder, "downloads")
        os.mkdir(self.downloads)
        with open(os.path.join(self.folder, "user.js"), "w", encoding="utf-8") as file:
            for name, value in {**SETTINGS, "browser.download.dir": self.downloads}.items():
                file.write(f"user_pref({json.dumps(name)}, {json.dumps(value)});\n")
        self.process = subprocess.Popen([program(), "--headless", "--no-remote", "--remote-debugging-port=0", "--profile", self.folder],
                                        stdin=subprocess.DEVNULL, stdout=subprocess.DEVNULL, stderr=subprocess.PIPE)
        port = self._port()
        self.socket = WebSocket(port, "/session")
        self.numbers = itertools.count(1)
        self.waiting = {}
        self.events = queue.Queue()
        threading.Thread(target=self._read, daemon=True).start()
        self.ask("session.new", capabilities={"alwaysMatch": {"unhandledPromptBehavior": {"default": "accept", "beforeUnload": "accept"}}})
        self.ask("session.subscribe", events=["log.entryAdded"])

    def _port(self):
        for line in self.process.stderr:
            found = re.search(rb"WebDriver BiDi listening on ws://[^:]*:(\d+)", line)
            if found:
                threading.Thread(target=lambda: [None for _ in self.process.stderr], daemon=True).start()
                return int(found[1])
        raise Failed("the browser does not start")

    def _read(self):
        for message in map(json.loads, self.socket.texts()):
            if message.get("id") in self.waiting:
                self.waiting[message["id"]].put(message)
            elif message.get("method") == "log.entryAdded":
                self._note(**message["params"])
        for asked in list(self.waiting.values()):
            asked.put({"type": "error", "message": "the browser ended"})

    def _note(self, text="", type="", level="", **_):
        """Keeps what failed in a script. What the page's policy blocks is no failure of its own."""
        if type == "javascript" and level == "error" and not (text or "").startswith("Content-Security-Policy"):
            self.events.put({"method": "Runtime.exceptionThrown", "params": text})

    def ask(self, method, limit=60, **params):
        """One command, and its result."""
        number = next(self.numbers)
        answer = self.waiting[number] = queue.Queue()
        self.socket.send(json.dumps({"id": number, "method": method, "params": params}))
        try:
            told = answer.get(timeout=limit)
        except queue.Empty:
            raise Failed(f"{method}: no answer in {limit} s") from None
        del self.waiting[number]
        if told["type"] == "error":
            raise Failed(f"{method}: {told.get('error', '')} {told['message']}")
        return told["result"]

    def tab(self, **how):
        return Tab(self, **how)

    def close(self):
        self.process.terminate()
        try:
            self.process.wait(10)
        except subprocess.TimeoutExpired:
            self.process.kill()
        shutil.rmtree(self.folder, ignore_errors=True)

    def __enter__(self):
        return self

    def __exit__(self, *_):
        self.close()


class Tab(Steps):
    """One page of the browser."""

    drawn = "new Promise(done => requestAnimationFrame(() => requestAnimationFrame(done)))"

    def __init__(self, browser, width=1280, height=720, dark=False, scale=1, mobile=False, address=None, wait=True, bench=True):
        self.browser = browser
        self.context = browser.ask("browsingContext.create", type="tab")["context"]
        self.look(width, height, dark, scale, mobile)
        self.open(address, wait, bench)

    def ask(self, method, **_):
        raise NotHere(f"Chromium alone has {method}")

    def look(self, width, height, dark=False, scale=1, mobile=False):
        if dark:
            raise NotHere("this browser is not asked for dark colours")
        self.browser.ask("browsingContext.setViewport", context=self.context, viewport={"width": width, "height": height},
                         devicePixelRatio=float(scale))
        self.laid_out()

    def watch_tasks(self):
        self.ask("Tracing.start")

    def go(self, address):
        self.browser.ask("browsingContext.navigate", context=self.context, url=address, wait="none")

    def run(self, script, limit=60):
        told = self.browser.ask("script.evaluate", limit, expression=script, target={"context": self.context}, awaitPromise=True,
                                resultOwnership="none", userActivation=True)
        if told["type"] == "exception":
            raise Failed(told["exceptionDetails"]["text"])
        return plain(told["result"])

    def act(self, kind, actions, **more):
        self.browser.ask("input.performActions", context=self.context, actions=[{"type": kind, "id": kind, "actions": actions, **more}])

    def hover(self, x, y):
        self.act("pointer", [{"type": "pointerMove", "x": round(x), "y": round(y)}])

    def mouse(self, x, y, *way):
        moves = [{"type": "pointerMove", "x": round(px), "y": round(py)} for px, py in ((x, y), *way)]
        self.act("pointer", [moves[0], {"type": "pointerDown", "button": 0}, *moves[1:], {"type": "pointerUp", "button": 0}])

    def key(self, key, modifiers=0):
        pressed = [SHIFT] * (modifiers == SHIFTED) + [KEYS.get(key, key)]
        self.act("key", [{"type": "keyDown", "value": one} for one in pressed] + [{"type": "keyUp", "value": one} for one in reversed(pressed)])

    def give_file(self, selector, path):
        element = self.browser.ask("browsingContext.locateNodes", context=self.context, locator={"type": "css", "value": selector})["nodes"][0]
        self.browser.ask("input.setFiles", context=self.context, element={"sharedId": element["sharedId"]}, files=[path])

    def downloads(self, folder):
        """The folder that files are saved in: this browser's own."""
        return self.browser.downloads

    def type(self, text):
        self.run(f"document.execCommand('insertText', false, {json.dumps(text)})")

    def picture(self, path, whole=False):
        got = self.browser.ask("browsingContext.captureScreenshot", context=self.context, origin="document" if whole else "viewport")
        with open(path, "wb") as file:
            file.write(base64.b64decode(got["data"]))

    def close(self):
        self.browser.ask("browsingContext.close", context=self.context)
