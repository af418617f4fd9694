"""A headless Chromium, driven through the DevTools protocol over two pipes. Standard library alone.

The environment's SLOWED, as 4, makes pages so many times as slow as the machine is: a test waits for what is to be, never for a time.
Its BROWSER=firefox takes Firefox in place of Chromium, for what firefox.py has.
"""
import base64
import itertools
import json
import os
import queue
import shutil
import subprocess
import sys
import tempfile
import threading
import time

TOP = os.path.abspath(os.path.join(os.path.dirname(__file__), "..", ".."))
PAGE = os.path.join(TOP, "page", "snaplab.html")
NAMES = ("chromium", "chromium-browser", "google-chrome", "chrome")
NOT_HERE = 77
USUAL_LOOP = 25      # milliseconds of the loop by which the speed of a processor is told


class Failed(Exception):
    """What the browser or the page refused."""


class NotHere(Exception):
    """What this browser has not."""


def wait_for(what, holds, limit=60):
    """What holds() tells as soon as that is true; a slow machine has time for it."""
    end = time.time() + limit
    while True:
        told = holds()
        if told:
            return told
        if time.time() > end:
            raise Failed(f"not in {limit} s: {what}")
        time.sleep(0.02)


def program():
    """The browser's path, or none."""
    named = os.environ.get("CHROMIUM")
    return named or next(filter(None, map(shutil.which, NAMES)), None)


def is_firefox():
    return os.environ.get("BROWSER") == "firefox"


def need():
    """Ends the test where there is no browser."""
    if is_firefox():
        import firefox
        there = firefox.program()
    else:
        there = program()
    if not there:
        print("there is no such browser here")
        sys.exit(NOT_HERE)


def started():
    """The browser of the environment, which runs."""
    if is_firefox():
        import firefox
        return firefox.Browser()
    return Browser()


class Browser:
    """One process of the browser; its tabs share it."""

    def __init__(self):
        self.folder = tempfile.mkdtemp(prefix="snaplab-page.")
        ours, theirs = os.pipe(), os.pipe()
        words = [program(), "--headless=new", "--remote-debugging-pipe", "--no-sandbox", "--disable-gpu", "--no-first-run",
                 "--hide-scrollbars", "--disable-extensions", "--disable-background-networking",
                 f"--user-data-dir={self.folder}", "about:blank"]
        self.process = subprocess.Popen(
            ["sh", "-c", 'exec "$@" 3<&%d 4>&%d' % (ours[0], theirs[1]), "sh", *words],
            stdin=subprocess.DEVNULL, stdout=subprocess.DEVNULL, stderr=subprocess.DEVNULL,
            pass_fds=(ours[0], theirs[1]))
        os.close(ours[0])
        os.close(theirs[1])
        self.out = os.fdopen(ours[1], "wb")
        self.back = os.fdopen(theirs[0], "rb")
        self.numbers = itertools.count(1)
        self.waiting = {}
        self.events = queue.Queue()
        threading.Thread(target=self._read, daemon=True).start()

    def _read(self):
        kept = b""
        while True:
            got = self.back.read1(1 << 20)
            if not got:
                break
            *whole, kept = (kept + got).split(b"\0")
            for message in map(json.loads, whole):
                if "id" in message:
                    self.waiting[message["id"]].put(message)
                else:
                    self.events.put(message)
        for asked in list(self.waiting.values()):
            asked.put({"error": {"message": "the browser ended"}})

    def ask(self, method, session=None, limit=60, **params):
        """One command, and its result."""
        number = next(self.numbers)
        answer = self.waiting[number] = queue.Queue()
        message = {"id": number, "method": method, "params": params}
        if session:
            message["sessionId"] = session
        self.out.write(json.dumps(message).encode() + b"\0")
        self.out.flush()
        try:
            told = answer.get(timeout=limit)
        except queue.Empty:
            raise Failed(f"{method}: no answer in {limit} s") from None
        del self.waiting[number]
        if "error" in told:
            raise Failed(f"{method}: {told['error']['message']}")
        return told["result"]

    def tab(self, **how):
        return Tab(self, **how)

    def close(self):
        try:
            self.ask("Browser.close", limit=5)
        except (Failed, OSError):
            pass
        try:
            self.process.wait(10)
        except subprocess.TimeoutExpired:
            self.process.kill()
        shutil.rmtree(self.folder, ignore_errors=True)

    def __enter__(self):
        return self

    def __exit__(self, *_):
        self.close()


KEYS = {"ArrowLeft": 37, "ArrowRight": 39, "ArrowUp": 38, "ArrowDown": 40, "Home": 36, "End": 35, "Enter": 13, "Tab": 9,
        "Escape": 27, " ": 32}


class Steps:
    """What is done with a page, whatever browser has it: by 'run' for a script, 'go' for an address, 'mouse', 'key' and 'look'."""

    def laid_out(self):
        """A page that is there already is waited for until it knows its width."""
        self.until("window.snaplab === undefined || line.wide === document.getElementById('timeline').clientWidth")

    def open(self, address, wait=True, bench=True):
        """A page, once it is there; with the workbench, where its address leads to no screen of a lesson."""
        self.run("window.oldPage = true")
        self.go(address or "file://" + PAGE)
        if wait:
            self.until("window.oldPage === undefined && document.readyState === 'complete' && window.snaplab !== undefined")
            self.settled()
        if wait and bench and "screen=" not in (address or ""):
            self.run("snaplab.stage.on && snaplab.toBench()")
            self.settled()

    def until(self, script, limit=60):
        """Waits until an expression is true."""
        def holds():
            try:
                return self.run(script)
            except Failed as failed:
                if "context" not in str(failed):
                    raise
                return False
        wait_for(script, holds, limit)

    def when(self, script, limit=10):
        """Whether an expression is true, or comes to be so: what the page does at the next frame it may do late."""
        try:
            self.until(script, limit)
            return True
        except Failed:
            return False

    def settled(self, limit=60):
        """Waits until nothing that the page has asked of the module is under way."""
        self.until("window.snaplab.settled()", limit)

    def click(self, selector, nth=0):
        """A click of the mouse in the middle of an element, which is scrolled into view, and stays where it is."""
        box, last = self.middle(selector, nth), None
        while box != last:
            box, last = self.middle(selector, nth), box
        if not box:
            raise Failed(f"there is no {selector} ({nth})")
        self.mouse(*box)

    drawn = "0"      # what is waited for until a part that comes into view is laid out

    def middle(self, selector, nth):
        return self.run(f"""(async () => {{ const e = document.querySelectorAll({json.dumps(selector)})[{nth}];
            if (!e) return null; e.scrollIntoView({{block: 'nearest', inline: 'nearest'}}); await {self.drawn};
            const r = e.getBoundingClientRect(); return [r.x + r.width / 2, r.y + r.height / 2]; }})()""")

    def ask_module(self, name, texts, numbers=()):
        """What a function of the module answers to these bytes and numbers: its code and bytes."""
        letters = json.dumps([base64.b64encode(text).decode() for text in texts])
        told = self.run(f"""snaplab.answer({json.dumps(name)}, {letters}.map(text =>
            Uint8Array.from(atob(text), c => c.charCodeAt(0))), {json.dumps(list(numbers))}).then(a => {{
            let s = ''; const b = a.bytes; for (let k = 0; k < b.length; k += 32768)
            s += String.fromCharCode(...b.subarray(k, k + 32768)); return [a.code, btoa(s)]; }})""", 120)
        return told[0], base64.b64decode(told[1])

    def answer(self, sub, shipped, given):
        """What the module answers to a subcommand, the kind of a shipped listing and an input."""
        return self.ask_module("page_output", (sub.encode(), shipped.encode(), given))

    def slowness(self):
        """How many times as long as usual a processor of this machine takes for what it is given; 1 where it is as fast, or faster."""
        best = self.run("""(() => { let best = Infinity, x = 0;
            for (let k = 0; k < 9; k++) {
                const begun = performance.now();
                for (let j = 0; j < 1e7; j++) x = (x * 31 + j) | 0;
                best = Math.min(best, performance.now() - begun + x * 0);
            }
            return best; })()""")
        return max(1, best / USUAL_LOOP)


class Tab(Steps):
    """One page of the browser."""

    def __init__(self, browser, width=1280, height=720, dark=False, scale=1, mobile=False, address=None, wait=True, bench=True):
        self.browser = browser
        self.target = browser.ask("Target.createTarget", url="about:blank")["targetId"]
        self.session = browser.ask("Target.attachToTarget", targetId=self.target, flatten=True)["sessionId"]
        for domain in ("Page", "Runtime", "Log"):
            self.ask(domain + ".enable")
        if os.environ.get("SLOWED"):
            self.ask("Emulation.setCPUThrottlingRate", rate=float(os.environ["SLOWED"]))
        self.look(width, height, dark, scale, mobile)
        self.open(address, wait, bench)

    def ask(self, method, limit=60, **params):
        return self.browser.ask(method, self.session, limit, **params)

    def look(self, width, height, dark=False, scale=1, mobile=False):
        self.ask("Emulation.setDeviceMetricsOverride", width=width, height=height, deviceScaleFactor=scale, mobile=mobile)
        scheme = {"name": "prefers-color-scheme", "value": "dark" if dark else "light"}
        self.ask("Emulation.setEmulatedMedia", features=[scheme])
        self.laid_out()

    def go(self, address):
        self.ask("Page.navigate", url=address)

    def run(self, script, limit=60):
        """The value of an expression; promises are waited for."""
        told = self.ask("Runtime.evaluate", limit, expression=script, awaitPromise=True, returnByValue=True,
                        userGesture=True)
        if "exceptionDetails" in told:
            details = told["exceptionDetails"]
            raise Failed(details.get("exception", {}).get("description", details["text"]))
        return told["result"].get("value")

    def mouse(self, x, y, *way):
        """Presses the mouse here, moves on these points, and lets it go at the last of them."""
        for kind, (px, py) in [("mousePressed", (x, y)), *(("mouseMoved", at) for at in way),
                               ("mouseReleased", way[-1] if way else (x, y))]:
            self.ask("Input.dispatchMouseEvent", type=kind, x=px, y=py, button="left", buttons=1, clickCount=1)

    def key(self, key, modifiers=0):
        """One key, pressed and let go."""
        how = {"key": key, "modifiers": modifiers, "windowsVirtualKeyCode": KEYS.get(key, ord(key[0].upper()))}
        if len(key) == 1:
            how["text"] = key
        elif key == "Enter":
            how["text"] = "\r"
        self.ask("Input.dispatchKeyEvent", type="keyDown", **how)
        how.pop("text", None)
        self.ask("Input.dispatchKeyEvent", type="keyUp", **how)

    def hover(self, x, y):
        """The mouse comes here."""
        self.ask("Input.dispatchMouseEvent", type="mouseMoved", x=x, y=y)

    def type(self, text):
        self.ask("Input.insertText", text=text)

    def give_file(self, selector, path):
        """A file for an element that takes one."""
        root = self.ask("DOM.getDocument")["root"]["nodeId"]
        self.ask("DOM.setFileInputFiles", files=[path], nodeId=self.ask("DOM.querySelector", nodeId=root, selector=selector)["nodeId"])

    def downloads(self, folder):
        """The folder that files are saved in from now on: this one."""
        self.ask("Browser.setDownloadBehavior", behavior="allow", downloadPath=folder)
        return folder

    def picture(self, path, whole=False):
        got = self.ask("Page.captureScreenshot", format="png", captureBeyondViewport=whole)
        with open(path, "wb") as file:
            file.write(base64.b64decode(got["data"]))

    def watch_tasks(self):
        """Begins to note what the page's thread does."""
        self.ask("Tracing.start", traceConfig={"includedCategories": ["toplevel"]}, transferMode="ReportEvents")

    def longest_tasks(self, count=3):
        """The longest tasks of pages since then: milliseconds of a processor's time, without the time that others had it."""
        self.ask("Tracing.end")
        told, noted, others = None, [], []
        while told != "Tracing.tracingComplete":
            event = self.browser.events.get(timeout=60)
            told = event.get("method")
            if told == "Tracing.dataCollected":
                noted += event["params"]["value"]
            elif told != "Tracing.tracingComplete":
                others.append(event)
        for event in others:
            self.browser.events.put(event)
        pages = {(one["pid"], one["tid"]) for one in noted
                 if one["name"] == "thread_name" and one["args"]["name"] == "CrRendererMain"}
        tasks = [one["tdur"] for one in noted if one["ph"] == "X" and "tdur" in one and (one["pid"], one["tid"]) in pages]
        return [round(each / 1000) for each in sorted(tasks)[:-count - 1:-1]]

    def close(self):
        self.browser.ask("Target.closeTarget", targetId=self.target)


class Count:
    """Counts what passed and what failed, and says each."""

    def __init__(self):
        self.passed = self.failed = self.skipped = 0

    def check(self, what, holds, more=""):
        if holds:
            self.passed += 1
            print("ok", what)
        else:
            self.failed += 1
            print("FAILED", what, more)

    def skip(self, what, why):
        self.skipped += 1
        print(f"skipped {what}: {why}")

    def finish(self):
        print(f"{self.passed} passed, {self.failed} failed, {self.skipped} skipped")
        sys.exit(1 if self.failed else 0)
