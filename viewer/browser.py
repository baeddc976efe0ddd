"""A headless browser that is led by its debugging pipe, so that keys, wheel and mouse are those of a user.

It needs nothing but a Chromium on the PATH: messages of the DevTools protocol go over two pipes, each one a JSON text with a
zero byte after it. What the browser does in between (events, answers to nobody) is dropped.
"""
import base64
import fcntl
import json
import os
import pathlib
import select
import shutil
import signal
import tempfile
import time

NAMES = ["chromium", "chromium-browser", "google-chrome", "chrome"]
HERE = pathlib.Path(__file__).resolve().parent
# Key codes of the keys that are no letters; the page itself looks at the names alone.
CODES = {"ArrowLeft": 37, "ArrowUp": 38, "ArrowRight": 39, "ArrowDown": 40, "Home": 36, "End": 35, "PageUp": 33, "PageDown": 34,
         "Enter": 13, "Escape": 27, "Tab": 9}
SHIFT, CONTROL = 8, 2


class NoBrowser(Exception):
    """No browser is installed, or it did not run, so nothing was shown."""


def find():
    path = next((path for path in map(shutil.which, NAMES) if path), None)
    if path is None:
        raise NoBrowser("no browser is installed")
    return path


class Browser:
    """One page of a browser. Use it in a `with`: the browser and its folder are gone after it."""

    def __init__(self, width=1400, height=1000):
        self.folder = tempfile.TemporaryDirectory(prefix="viewer", ignore_cleanup_errors=True)
        self.number, self.kept = 0, b""
        words = [find(), "--headless", "--no-sandbox", "--disable-gpu", "--hide-scrollbars", "--remote-debugging-pipe",
                 "--no-first-run", "--disable-extensions", f"--user-data-dir={self.folder.name}/profile", "about:blank"]
        try:
            self.process = self.start(words)
        except OSError as error:
            raise NoBrowser(str(error)) from error
        try:
            target = self.ask("Target.createTarget", {"url": "about:blank"}, session=None)
            self.session = self.ask("Target.attachToTarget", {"targetId": target["targetId"], "flatten": True}, session=None)["sessionId"]
            self.ask("Page.enable")
            self.size(width, height)
        except BaseException:
            self.close()
            raise

    def start(self, words):
        """The browser reads its descriptor 3 and writes its descriptor 4."""
        theirs_in, ours_out = os.pipe()
        ours_in, theirs_out = os.pipe()
        # Ends that are 3 or 4 here already would be closed by the other one's copy.
        high = [fcntl.fcntl(end, fcntl.F_DUPFD_CLOEXEC, 20) for end in (theirs_in, theirs_out)]
        null = os.open(os.devnull, os.O_RDWR)
        places = [(null, 0), (null, 1), (null, 2), (high[0], 3), (high[1], 4)]
        actions = [(os.POSIX_SPAWN_DUP2, end, place) for end, place in places]
        process = os.posix_spawn(words[0], words, os.environ, file_actions=actions, setsid=True)
        for end in (theirs_in, theirs_out, *high, null):
            os.close(end)
        self.input, self.output = ours_in, ours_out
        return process

    def ask(self, method, words=None, session="", seconds=120):
        """The answer to one message."""
        return self.ask_all([(method, words or {})], session, seconds)

    def ask_all(self, questions, session="", seconds=120):
        """Sends some messages at once, and waits for their answers; gives the last one."""
        try:
            for method, words in questions:
                self.number += 1
                message = {"id": self.number, "method": method, "params": words}
                if session is not None:
                    message["sessionId"] = self.session
                os.write(self.output, json.dumps(message).encode() + b"\0")
            for number in range(self.number - len(questions) + 1, self.number + 1):
                answer = self.wait_for(number, time.monotonic() + seconds)
                if "error" in answer:
                    raise RuntimeError(f"{questions}: {answer['error']['message']}")
        except OSError as error:
            raise NoBrowser(f"it ended: {error}") from error
        return answer["result"]

    def wait_for(self, number, end):
        """The answer with a number. Answers come in order, so those before it are not kept."""
        while True:
            while b"\0" not in self.kept:
                ready, _, _ = select.select([self.input], [], [], max(0, end - time.monotonic()))
                more = os.read(self.input, 1 << 20) if ready else b""
                if not more:
                    raise NoBrowser("it does not answer")
                self.kept += more
            text, _, self.kept = self.kept.partition(b"\0")
            answer = json.loads(text)
            if answer.get("id") == number:
                return answer

    def run(self, script, seconds=120):
        """What a piece of JavaScript gives in the page; a promise is waited for."""
        answer = self.ask("Runtime.evaluate", {"expression": script, "returnByValue": True, "awaitPromise": True, "userGesture": True}, seconds=seconds)
        if "exceptionDetails" in answer:
            details = answer["exceptionDetails"]
            raise RuntimeError(details.get("exception", {}).get("description", details["text"]))
        return answer["result"].get("value")

    def open(self, path=HERE / "index.html", fragment=""):
        # A page that is shown already would only go to the fragment.
        self.ask("Page.navigate", {"url": "about:blank"})
        self.until("location.protocol === 'about:'")
        self.ask("Page.navigate", {"url": path.as_uri() + (f"#{fragment}" if fragment else "")})
        self.until("document.readyState === 'complete' && location.protocol === 'file:'")

    def size(self, width, height):
        self.ask("Emulation.setDeviceMetricsOverride", {"width": width, "height": height, "deviceScaleFactor": 1, "mobile": False})

    def until(self, condition, seconds=120):
        """Waits until a condition holds in the page, and after its next picture."""
        self.run(f"""new Promise(done => {{
            const look = () => ({condition}) ? requestAnimationFrame(() => setTimeout(done)) : setTimeout(look, 10);
            look();
        }})""", seconds=seconds)

    def processor_seconds(self):
        """The processor time that the browser has used. Where the system does not tell it, it is the time by the clock."""
        ticks = 0
        for path in pathlib.Path("/proc").glob("[0-9]*/stat"):
            try:
                fields = path.read_text().rpartition(")")[2].split()
            except OSError:
                continue
            if int(fields[3]) == self.process:     # the session, which is the browser's own
                ticks += int(fields[11]) + int(fields[12])
        return ticks / os.sysconf("SC_CLK_TCK") if ticks else time.monotonic()

    def give_files(self, selector, paths):
        """Chooses files in a file input, as a user does."""
        root = self.ask("DOM.getDocument")["root"]["nodeId"]
        node = self.ask("DOM.querySelector", {"nodeId": root, "selector": selector})["nodeId"]
        self.ask("DOM.setFileInputFiles", {"files": [str(pathlib.Path(path).resolve()) for path in paths], "nodeId": node})

    def press(self, key, modifiers=0):
        # Codes of other characters are those of other keys: 34 is PageDown, and not a quotation mark.
        code = CODES.get(key, ord(key.upper()[0]) if key[0].isalnum() or key == " " else 0)
        words = {"key": key, "windowsVirtualKeyCode": code, "modifiers": modifiers}
        if len(key) == 1:
            words["text"] = key
        if key == "Enter":
            words["text"] = "\r"
        down, up = {"type": "keyDown" if "text" in words else "rawKeyDown", **words}, {"type": "keyUp", **words}
        self.ask_all([("Input.dispatchKeyEvent", down), ("Input.dispatchKeyEvent", up)])

    def click(self, x, y):
        words = {"x": x, "y": y, "button": "left", "clickCount": 1}
        self.ask_all([("Input.dispatchMouseEvent", {"type": kind, **words}) for kind in ("mousePressed", "mouseReleased")])

    def wheel(self, x, y, by, modifiers=0):
        self.ask("Input.dispatchMouseEvent", {"type": "mouseWheel", "x": x, "y": y, "deltaX": 0, "deltaY": by, "modifiers": modifiers})

    def picture(self, path, clip=None, scale=1):
        """Writes a PNG of the window, or of a part of the page."""
        words = {"format": "png", "captureBeyondViewport": clip is not None}
        if clip:
            words["clip"] = {**clip, "scale": scale}
        pathlib.Path(path).write_bytes(base64.b64decode(self.ask("Page.captureScreenshot", words)["data"]))

    def close(self):
        for end in (self.input, self.output):
            os.close(end)
        try:
            os.killpg(self.process, signal.SIGTERM)
            self.wait_for_end()
        except ProcessLookupError:
            pass
        self.folder.cleanup()

    def wait_for_end(self):
        """It has two seconds to end by itself."""
        for _ in range(40):
            if os.waitpid(self.process, os.WNOHANG)[0]:
                return
            time.sleep(0.05)
        os.killpg(self.process, signal.SIGKILL)
        os.waitpid(self.process, 0)

    def __enter__(self):
        return self

    def __exit__(self, *_):
        self.close()
