"""Drives a headless Chromium by its DevTools protocol, over a pipe, for tests/web."""
import base64
import collections
import contextlib
import fcntl
import json
import os
import select
import shutil
import struct
import subprocess
import tempfile
import time
import zlib

NAMES = ("chromium", "chromium-browser", "google-chrome-stable", "google-chrome", "chrome")
WORDS = ("--headless=new", "--no-sandbox", "--disable-gpu", "--disable-dev-shm-usage", "--hide-scrollbars", "--no-first-run",
         "--disable-background-networking", "--disable-component-update", "--disable-sync", "--disable-extensions",
         "--force-color-profile=srgb", "--font-render-hinting=none", "--remote-debugging-pipe", "about:blank")
# How long an answer of the browser may take, and something on the page.
SECONDS = 60
KEYS = {"Enter": 13, "Escape": 27, "ArrowUp": 38, "ArrowDown": 40, "ArrowLeft": 37, "ArrowRight": 39, "Home": 36, "End": 35}


def found():
    """The path of a browser, or None."""
    named = os.environ.get("CHROMIUM")
    return shutil.which(named) if named else next(filter(None, map(shutil.which, NAMES)), None)


def rows_of(png):
    """The rows of a picture as Chromium makes it: 8 bits for each of 3 or 4 colours, and no interlace."""
    width, height, _, kind = struct.unpack(">IIBB", png[16:26])
    deep, at, packed = {2: 3, 6: 4}[kind], 8, b""
    while at < len(png):
        length, name = struct.unpack(">I4s", png[at:at + 8])
        packed += png[at + 8:at + 8 + length] if name == b"IDAT" else b""
        at += 12 + length
    data, size = zlib.decompress(packed), width * deep
    before = bytes(size)
    for row in range(height):
        filtered = data[row * (size + 1)]
        now = bytearray(data[row * (size + 1) + 1:(row + 1) * (size + 1)])
        for place in range(size) if filtered else ():
            left, up = now[place - deep] if place >= deep else 0, before[place]
            corner = before[place - deep] if place >= deep else 0
            if filtered == 4:
                sum_ = left + up - corner
                guess = min((left, up, corner), key=lambda it: abs(sum_ - it))
            else:
                guess = {1: left, 2: up, 3: (left + up) // 2}[filtered]
            now[place] = (now[place] + guess) & 255
        before = now
        yield now, deep


def smaller(png):
    """The same picture in at most 256 colours: the most frequent ones, and for others the nearest of these."""
    width, height = struct.unpack(">II", png[16:24])
    rows = [[tuple(row[at:at + 3]) for at in range(0, len(row), deep)] for row, deep in rows_of(png)]
    counts = collections.Counter(colour for row in rows for colour in row)
    kept = [colour for colour, _ in counts.most_common(256)]
    index = {colour: at for at, colour in enumerate(kept)}
    for colour in counts:
        if colour not in index:
            index[colour] = min(range(len(kept)), key=lambda at: sum((a - b) ** 2 for a, b in zip(kept[at], colour)))
    data = b"".join(b"\0" + bytes(index[colour] for colour in row) for row in rows)

    def chunk(name, body):
        return struct.pack(">I", len(body)) + name + body + struct.pack(">I", zlib.crc32(name + body))
    return (png[:8] + chunk(b"IHDR", struct.pack(">IIBBBBB", width, height, 8, 3, 0, 0, 0))
            + chunk(b"PLTE", b"".join(map(bytes, kept))) + chunk(b"IDAT", zlib.compress(data, 9)) + chunk(b"IEND", b""))


class Wrong(Exception):
    """The browser or the page did not do what it was told."""


class Browser:
    """A browser with one page."""

    def __init__(self, path):
        self.profile = tempfile.TemporaryDirectory(prefix="chromium-", ignore_cleanup_errors=True)
        # It reads at 3 and writes at 4, so the ends that are ours are kept clear of these.
        its_read, our_write, our_read, its_write = (fcntl.fcntl(it, fcntl.F_DUPFD_CLOEXEC, 20) for it in (*os.pipe(), *os.pipe()))

        def place():
            os.dup2(its_read, 3)
            os.dup2(its_write, 4)
        self.process = subprocess.Popen([path, f"--user-data-dir={self.profile.name}", *WORDS], preexec_fn=place, pass_fds=(3, 4),
                                        stdin=subprocess.DEVNULL, stdout=subprocess.DEVNULL, stderr=subprocess.DEVNULL,
                                        start_new_session=True)
        os.close(its_read)
        os.close(its_write)
        self.reader, self.writer, self.came, self.number = our_read, our_write, b"", 0
        # What the console shows of errors, and the answers to questions such as prompt().
        self.errors, self.answers, self.session = [], [], None
        page = next(it for it in self.call("Target.getTargets")["targetInfos"] if it["type"] == "page")
        self.session = self.call("Target.attachToTarget", targetId=page["targetId"], flatten=True)["sessionId"]
        for part in ("Page", "Runtime", "DOM", "Log", "Network"):
            self.call(f"{part}.enable")

    def __enter__(self):
        return self

    def __exit__(self, *_):
        with contextlib.suppress(Wrong, OSError):
            self.session = None
            self.call("Browser.close")
        try:
            self.process.wait(5)
        except subprocess.TimeoutExpired:
            self.process.kill()
            self.process.wait()
        self.profile.cleanup()

    def message(self, until):
        """The next message of the browser."""
        while b"\0" not in self.came:
            if not select.select([self.reader], [], [], max(0, until - time.monotonic()))[0]:
                raise Wrong("the browser does not answer")
            piece = os.read(self.reader, 1 << 20)
            if not piece:
                raise Wrong("the browser has ended")
            self.came += piece
        one, _, self.came = self.came.partition(b"\0")
        return json.loads(one)

    def take(self, message):
        """Takes note of what happened on the page."""
        kind, said = message.get("method"), message.get("params", {})
        if kind == "Runtime.exceptionThrown":
            self.errors.append(said["exceptionDetails"].get("exception", {}).get("description") or said["exceptionDetails"]["text"])
        elif kind == "Log.entryAdded" and said["entry"]["level"] in ("error", "warning"):
            self.errors.append(f"{said['entry']['text']} {said['entry'].get('url', '')}")
        elif kind == "Runtime.consoleAPICalled" and said["type"] in ("error", "warning", "assert"):
            self.errors.append(str([it.get("value", it.get("description")) for it in said["args"]]))
        elif kind == "Page.javascriptDialogOpening":
            self.send("Page.handleJavaScriptDialog", accept=bool(self.answers), promptText=self.answers.pop(0) if self.answers else "")

    def send(self, method, **words):
        self.number += 1
        message = {"id": self.number, "method": method, "params": words}
        if self.session:
            message["sessionId"] = self.session
        data = json.dumps(message).encode() + b"\0"
        while data:
            data = data[os.write(self.writer, data):]
        return self.number

    def call(self, method, **words):
        """What the browser answers to a command."""
        number, until = self.send(method, **words), time.monotonic() + SECONDS
        while True:
            message = self.message(until)
            if message.get("id") != number:
                self.take(message)
            elif "error" in message:
                raise Wrong(f"{method}: {message['error']}")
            else:
                return message["result"]

    def open(self, address, width=1280, height=760, dark=False):
        self.call("Emulation.setDeviceMetricsOverride", width=width, height=height, deviceScaleFactor=1, mobile=False)
        self.call("Emulation.setEmulatedMedia", features=[{"name": "prefers-color-scheme", "value": "dark" if dark else "light"}])
        # A change behind # alone would load nothing.
        self.call("Page.navigate", url="about:blank")
        self.call("Page.navigate", url=address)
        self.settle()

    def script(self, text):
        """The value of an expression on the page."""
        answer = self.call("Runtime.evaluate", expression=text, awaitPromise=True, returnByValue=True)
        if "exceptionDetails" in answer:
            raise Wrong(f"{text}: {answer['exceptionDetails'].get('exception', {}).get('description')}")
        return answer["result"].get("value")

    def value(self, text, wanted, seconds=20):
        """The value of an expression, which is waited for until it is the one that is wanted."""
        until = time.monotonic() + seconds
        while True:
            came = self.script(text)
            if came == wanted or time.monotonic() > until:
                return came
            time.sleep(0.05)

    def settle(self):
        """Waits until the page has drawn what its address says."""
        time.sleep(0.05)
        if self.value("document.body?.dataset.state ?? null", "ready") != "ready":
            raise Wrong("the page is never ready")

    def click(self, element):
        """Clicks in the middle of an element, which an expression tells."""
        self.value(f"!!({element})", True, 5)
        place = self.script(f"""(async () => {{ const it = {element}; if (!it) return null; it.scrollIntoView({{ block: "nearest" }});
            await new Promise(requestAnimationFrame); const box = it.getBoundingClientRect();
            return [box.left + box.width / 2, box.top + box.height / 2]; }})()""")
        if not place:
            raise Wrong(f"there is nothing to click: {element}")
        for kind in ("mouseMoved", "mousePressed", "mouseReleased"):
            self.call("Input.dispatchMouseEvent", type=kind, x=place[0], y=place[1], clickCount=int(kind != "mouseMoved"),
                      button="none" if kind == "mouseMoved" else "left")
        self.settle()

    def point(self, element):
        """Moves the mouse to an element."""
        x, y = self.script(f"(box => [box.left + box.width / 2, box.top + box.height / 2])({element}.getBoundingClientRect())")
        self.call("Input.dispatchMouseEvent", type="mouseMoved", x=x, y=y)

    def press(self, key):
        """Presses a key: a sign, or one of KEYS."""
        words = {"key": key, "windowsVirtualKeyCode": KEYS.get(key, ord(key[0].upper()))}
        # (a link is opened by the sign that Enter gives)
        if key not in KEYS or key == "Enter":
            words["text"] = key if key not in KEYS else "\r"
        self.call("Input.dispatchKeyEvent", type="keyDown", **words)
        self.call("Input.dispatchKeyEvent", type="keyUp", **{name: it for name, it in words.items() if name != "text"})
        self.settle()

    def type(self, text):
        self.call("Input.insertText", text=text)

    def choose(self, selector, value):
        """Chooses a value of a list."""
        self.script(f"""(it => {{ it.value = {json.dumps(value)}; it.dispatchEvent(new Event("change")); }})(document.querySelector({json.dumps(selector)}))""")
        self.settle()

    def give(self, selector, paths):
        """Picks files."""
        top = self.call("DOM.getDocument")["root"]["nodeId"]
        node = self.call("DOM.querySelector", nodeId=top, selector=selector)["nodeId"]
        self.call("DOM.setFileInputFiles", nodeId=node, files=paths)
        self.settle()

    def picture(self, path):
        """Keeps what the page looks like."""
        data = self.call("Page.captureScreenshot", format="png")["data"]
        with open(path, "wb") as file:
            file.write(smaller(base64.b64decode(data)))
