"""Headless Chromium, driven over its DevTools protocol by a pair of pipes, and the pages that it shows."""
import base64
import contextlib
import fcntl
import functools
import http.server
import json
import os
import shutil
import subprocess
import tempfile
import threading
import time

# How long a page may take to do what it is asked, in seconds.
PATIENCE = 20

# The phone and the desk: how wide and high a page is.
SIZES = {390: 844, 1280: 800}

# Keys, by what the protocol calls them: the code, the number, and the text.
KEYS = {
    "Enter": ("Enter", 13, "\r"), "Tab": ("Tab", 9, ""), "Escape": ("Escape", 27, ""), " ": ("Space", 32, " "),
    "ArrowUp": ("ArrowUp", 38, ""), "ArrowDown": ("ArrowDown", 40, ""), "PageUp": ("PageUp", 33, ""),
}
ALT, SHIFT = 1, 8


class Frozen(Exception):
    """The page, or the browser, didn't answer in time."""


class Browser:
    """A browser of its own, whose profile is thrown away."""

    def __init__(self):
        program = shutil.which("chromium")
        assert program, "there is no chromium: it is Debian's package of that name"
        self.room = tempfile.TemporaryDirectory(prefix="page-", ignore_cleanup_errors=True)
        theirs, self.to = self.pipe()
        self.come, mine = self.pipe(is_ours_first=True)
        words = [program, "--headless=new", "--remote-debugging-pipe", f"--user-data-dir={self.room.name}"]
        words += ["--no-first-run", "--mute-audio", "--disable-gpu", "--disable-extensions", "--hide-scrollbars"]
        words += ["--no-sandbox"] if os.geteuid() == 0 else []
        how = {"stdin": subprocess.DEVNULL, "stdout": subprocess.DEVNULL, "stderr": subprocess.DEVNULL}
        ends = lambda: (os.dup2(theirs, 3), os.dup2(mine, 4))
        self.process = subprocess.Popen(words, **how, preexec_fn=ends, close_fds=False, start_new_session=True)
        os.close(theirs)
        os.close(mine)
        self.answers, self.events, self.number = {}, [], 0
        self.told = threading.Condition()
        threading.Thread(target=self.listen, daemon=True).start()

    @staticmethod
    def pipe(is_ours_first=False):
        """A pipe whose end for the browser is none of the numbers 3 and 4."""
        ends = list(os.pipe())
        other = 1 if is_ours_first else 0
        high = fcntl.fcntl(ends[other], fcntl.F_DUPFD, 10)
        os.close(ends[other])
        ends[other] = high
        return ends

    def listen(self):
        left = b""
        with contextlib.suppress(OSError):
            for octets in iter(lambda: os.read(self.come, 1 << 16), b""):
                *whole, left = (left + octets).split(b"\0")
                with self.told:
                    for it in map(json.loads, whole):
                        if "id" in it:
                            self.answers[it["id"]] = it
                        else:
                            self.events.append(it)
                    self.told.notify_all()

    def ask(self, method, session=None, seconds=PATIENCE, **parameters):
        with self.told:
            self.number += 1
            number = self.number
        asked = {"id": number, "method": method, "params": parameters, **({"sessionId": session} if session else {})}
        octets = json.dumps(asked).encode() + b"\0"
        while octets:
            octets = octets[os.write(self.to, octets) :]
        with self.told:
            if not self.told.wait_for(lambda: number in self.answers, seconds):
                raise Frozen(f"no answer to {method} in {seconds} s")
            answer = self.answers.pop(number)
        assert "error" not in answer, f"{method}: {answer['error']}"
        return answer["result"]

    def close(self):
        if self.process.poll() is None:
            os.killpg(self.process.pid, 9)
            self.process.wait()
        for end in (self.to, self.come):
            with contextlib.suppress(OSError):
                os.close(end)
        self.room.cleanup()


class Page:
    """A tab in a context of its own, with no storage of another's; or in that of another tab."""

    def __init__(self, browser, width, before="", beside=None):
        self.browser, self.width = browser, width
        self.context = beside.context if beside else browser.ask("Target.createBrowserContext")["browserContextId"]
        found = browser.ask("Target.createTarget", url="about:blank", browserContextId=self.context)
        self.target = found["targetId"]
        self.session = browser.ask("Target.attachToTarget", targetId=self.target, flatten=True)["sessionId"]
        for domain in ("Page", "Runtime", "Log"):
            self.ask(f"{domain}.enable")
        is_phone = width < 700
        size = {"width": width, "height": SIZES[width], "deviceScaleFactor": 1, "mobile": is_phone}
        self.ask("Emulation.setDeviceMetricsOverride", **size)
        self.ask("Emulation.setTouchEmulationEnabled", enabled=is_phone)
        self.look(True)
        if before:
            self.ask("Page.addScriptToEvaluateOnNewDocument", source=before)

    def ask(self, method, seconds=PATIENCE, **parameters):
        return self.browser.ask(method, self.session, seconds, **parameters)

    def look(self, is_looking):
        """Whether the page is to believe that its user looks at it."""
        self.ask("Emulation.setFocusEmulationEnabled", enabled=is_looking)

    def scheme(self, name):
        self.ask("Emulation.setEmulatedMedia", features=[{"name": "prefers-color-scheme", "value": name}])

    def load(self, address):
        self.ask("Page.navigate", url=address)
        self.until("document.readyState == 'complete' && location.href != 'about:blank'")

    def reload(self):
        self.js("window.isOld = true")
        self.ask("Page.reload")
        self.until("!window.isOld && document.readyState == 'complete'")

    def js(self, text, seconds=PATIENCE):
        """What an expression is worth."""
        how = {"expression": text, "returnByValue": True, "awaitPromise": True}
        answer = self.ask("Runtime.evaluate", seconds, **how)
        fault = answer.get("exceptionDetails")
        assert not fault, f"{text[:80]}: {fault.get('exception', {}).get('description', fault['text'])[:200]}"
        return answer["result"].get("value")

    def settle(self):
        """Waits until what the page has heard and done is painted."""
        frame = "new Promise((done) => requestAnimationFrame(() => setTimeout(done)))"
        self.js(f"{frame}.then(() => {frame}).then(() => {frame}).then(() => 0)")

    def until(self, text, seconds=15, why=""):
        """What an expression is worth once that counts as true."""
        end = time.monotonic() + seconds
        while True:
            with contextlib.suppress(AssertionError):
                value = self.js(text)
                if value:
                    return value
            assert time.monotonic() < end, why or f"not in {seconds} s: {text[:160]}"
            time.sleep(0.03)

    def text(self, selector):
        """What is seen of an element."""
        return self.js(f"document.querySelector({json.dumps(selector)})?.innerText ?? ''")

    def reads(self, part, selector="#lines", seconds=15):
        """Waits until an element shows this part, and answers the line of it."""
        own = f"(document.querySelector({json.dumps(selector)})?.innerText ?? '')"
        line = f"{own}.split('\\n').find((it) => it.includes({json.dumps(part)}))"
        return self.until(line, seconds, f"{selector} doesn't show {part!r}")

    def has(self, part, selector="#lines"):
        return part in self.text(selector)

    def box(self, selector):
        box = f"(() => {{ const it = document.querySelector({json.dumps(selector)})?.getBoundingClientRect();"
        return self.js(box + " return it && { x: it.x, y: it.y, width: it.width, height: it.height }; })()")

    def is_seen(self, selector):
        """Whether an element has its place within the screen. (A phone shows a page that is wider in small.)"""
        seen = "it && b.width > 0 && b.height > 0 && getComputedStyle(it).visibility == 'visible' && "
        seen += f"b.left >= -1 && b.top >= -1 && b.right <= {self.width + 1} && b.bottom <= {SIZES[self.width] + 1}"
        own = f"const it = document.querySelector({json.dumps(selector)}), b = it?.getBoundingClientRect();"
        return bool(self.js(f"(() => {{ {own} return {seen}; }})()"))

    def mouse(self, kind, selector):
        """Presses or releases the mouse in the middle of an element."""
        box = self.box(selector)
        assert box and box["width"], f"there is no {selector} to click"
        place = {"x": box["x"] + box["width"] / 2, "y": box["y"] + box["height"] / 2}
        self.ask("Input.dispatchMouseEvent", type=f"mouse{kind}", button="left", clickCount=1, **place)

    def click(self, selector):
        self.mouse("Pressed", selector)
        self.mouse("Released", selector)

    def press(self, key, modifiers=0):
        code, number, text = KEYS[key]
        how = {"key": key, "code": code, "windowsVirtualKeyCode": number, "modifiers": modifiers}
        down = {"type": "keyDown", "text": text} if text else {"type": "rawKeyDown"}
        self.ask("Input.dispatchKeyEvent", **down, **how)
        self.ask("Input.dispatchKeyEvent", type="keyUp", **how)

    def type(self, text, selector="#text"):
        """Writes into a field, after what stands there."""
        self.js(f"document.querySelector({json.dumps(selector)}).focus()")
        self.ask("Input.insertText", text=text)

    def say(self, text):
        """Writes a text in the field in place of what stands there, and presses Enter."""
        self.js("document.querySelector('#text').focus(); document.querySelector('#text').select()")
        self.ask("Input.insertText", text=text)
        self.press("Enter")

    def field(self):
        return self.js("document.querySelector('#text').value")

    def work(self):
        """Seconds of the processor that the page took, once `Performance` is enabled."""
        return {it["name"]: it["value"] for it in self.ask("Performance.getMetrics")["metrics"]}["TaskDuration"]

    def picture(self, file):
        octets = base64.b64decode(self.ask("Page.captureScreenshot", format="png")["data"])
        with open(file, "wb") as it:
            it.write(octets)

    def faults(self):
        """The exceptions that nothing caught, and the errors that the page wrote to the console."""
        found, own = [], [it for it in self.browser.events if it.get("sessionId") == self.session]
        for it in own:
            if it["method"] == "Runtime.exceptionThrown":
                found.append(it["params"]["exceptionDetails"].get("exception", {}).get("description", "?"))
            elif it["method"] == "Runtime.consoleAPICalled" and it["params"]["type"] == "error":
                found.append(it["params"]["args"][0].get("description", "?"))
        return [it.split("\n")[0] for it in found]

    def close(self):
        self.browser.ask("Target.disposeBrowserContext", seconds=5, browserContextId=self.context)


class Quiet(http.server.SimpleHTTPRequestHandler):
    def log_message(self, *_):
        pass


@contextlib.contextmanager
def served_folder(folder):
    """A web server of a folder: its address."""
    handler = functools.partial(Quiet, directory=folder)
    server = http.server.ThreadingHTTPServer(("127.0.0.1", 0), handler)
    threading.Thread(target=server.serve_forever, daemon=True).start()
    yield f"http://127.0.0.1:{server.server_address[1]}"
    server.shutdown()
    server.server_close()
