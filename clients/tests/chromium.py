"""A Chromium without a window, steered by its remote protocol over two pipes."""

import base64
import contextlib
import itertools
import json
import os
import select
import shutil
import subprocess
import tempfile
import time

HAVE_CHROMIUM = shutil.which("chromium") is not None

# How long a reply is waited for, and what must come, in seconds: so long that it is there on a busy machine too.
GENEROUS = 120

WORDS = (
    "--headless=new", "--no-sandbox", "--disable-gpu", "--disable-dev-shm-usage", "--no-first-run", "--remote-debugging-pipe",
    "--force-device-scale-factor=1", "--disable-background-networking", "--disable-component-update", "--mute-audio",
)

# Windows' number of each key that is no letter.
KEYS = {"ArrowLeft": 37, "ArrowUp": 38, "ArrowRight": 39, "ArrowDown": 40, "Tab": 9, "Enter": 13}


class Chromium:
    """A browser with one page."""

    def __init__(self):
        self.folder = tempfile.TemporaryDirectory()
        commands, self.commands = os.pipe()
        self.replies, replies = os.pipe()
        words = [*WORDS, f"--user-data-dir={self.folder.name}", "about:blank"]
        self.process = subprocess.Popen(
            ["bash", "-c", f'exec chromium "$@" 3<&{commands} 4>&{replies}', "chromium", *words],
            pass_fds=(commands, replies), stderr=subprocess.DEVNULL, stdout=subprocess.DEVNULL, start_new_session=True,
        )
        os.close(commands)
        os.close(replies)
        self.numbers = itertools.count(1)
        self.rest = b""
        self.session = None
        target = next(each for each in self.send("Target.getTargets")["targetInfos"] if each["type"] == "page")
        self.session = self.send("Target.attachToTarget", targetId=target["targetId"], flatten=True)["sessionId"]
        self.log = []
        self.send("Runtime.enable")
        self.send("Log.enable")

    def close(self):
        with contextlib.suppress(OSError):
            self.send("Browser.close")
        self.process.wait(GENEROUS)
        os.close(self.commands)
        os.close(self.replies)
        self.folder.cleanup()

    def send(self, method, **words):
        """Sends a command, and returns its result."""
        number = next(self.numbers)
        command = {"id": number, "method": method, "params": words}
        if self.session is not None:
            command["sessionId"] = self.session
        os.write(self.commands, json.dumps(command).encode() + b"\0")
        while True:
            message = self.message()
            if message.get("id") == number:
                if "error" in message:
                    raise AssertionError(f"{method}: {message['error']}")
                return message["result"]
            entry = message.get("params", {}).get("entry", {})
            if message.get("method") == "Runtime.exceptionThrown" or entry.get("level") == "error":
                self.log.append(message["params"])

    def message(self):
        while b"\0" not in self.rest:
            if not select.select([self.replies], [], [], GENEROUS)[0]:
                raise AssertionError("chromium doesn't reply")
            part = os.read(self.replies, 1 << 16)
            if not part:
                raise OSError("chromium has ended")
            self.rest += part
        text, _, self.rest = self.rest.partition(b"\0")
        return json.loads(text)

    def resize(self, width, height):
        self.send("Emulation.setDeviceMetricsOverride", width=width, height=height, deviceScaleFactor=1, mobile=False)

    def open(self, address):
        self.send("Page.navigate", url=address)

    def value(self, expression):
        """Returns what an expression of the page is."""
        found = self.send("Runtime.evaluate", expression=expression, returnByValue=True, awaitPromise=True)
        if "exceptionDetails" in found:
            raise AssertionError(f"{expression}: {found['exceptionDetails']}")
        return found["result"].get("value")

    def until(self, expression, pause=0.1):
        """Waits until an expression is true; a page that isn't there yet is asked again."""
        end = time.monotonic() + GENEROUS
        while time.monotonic() < end:
            found = self.send("Runtime.evaluate", expression=f"Boolean({expression})", returnByValue=True)
            if found["result"].get("value") is True:
                return
            time.sleep(pause)
        raise AssertionError(f"{expression} isn't so: {self.value('document.body.innerText')}")

    def text(self, selector):
        """Returns what is seen of an element."""
        return self.value(f"document.querySelector({json.dumps(selector)})?.innerText")

    # ---- hands

    def mouse(self, kind, x, y, **words):
        self.send("Input.dispatchMouseEvent", type=kind, x=x, y=y, **words)

    def hover(self, x, y):
        self.mouse("mouseMoved", x, y)

    def drag(self, start, end):
        self.mouse("mousePressed", *start, button="left", buttons=1, clickCount=1)
        self.mouse("mouseMoved", *end, button="left", buttons=1)
        self.mouse("mouseReleased", *end, button="left", clickCount=1)

    def wheel(self, x, y, down):
        self.mouse("mouseWheel", x, y, deltaX=0, deltaY=down)

    def pinch(self, before, after):
        """Moves two fingers, from and to a pair of places."""
        self.send("Emulation.setTouchEmulationEnabled", enabled=True, maxTouchPoints=2)
        for kind, places in (("touchStart", before), ("touchMove", after), ("touchEnd", [])):
            points = [{"x": x, "y": y, "id": number} for number, (x, y) in enumerate(places)]
            self.send("Input.dispatchTouchEvent", type=kind, touchPoints=points)
        self.send("Emulation.setTouchEmulationEnabled", enabled=False)

    def click(self, selector):
        """Clicks in the middle of an element."""
        x, y = self.middle(selector)
        self.mouse("mousePressed", x, y, button="left", buttons=1, clickCount=1)
        self.mouse("mouseReleased", x, y, button="left", clickCount=1)

    def middle(self, selector):
        return self.value(
            f"(() => {{ const each = document.querySelector({json.dumps(selector)}); each.scrollIntoView({{block: 'nearest'}});"
            " const {x, y, width, height} = each.getBoundingClientRect(); return [x + width / 2, y + height / 2]; })()"
        )

    def press(self, key):
        text = {"text": "\r" if key == "Enter" else key} if len(key) == 1 or key == "Enter" else {}
        code = KEYS.get(key, ord(key[0].upper()))
        self.send("Input.dispatchKeyEvent", type="keyDown", key=key, windowsVirtualKeyCode=code, **text)
        self.send("Input.dispatchKeyEvent", type="keyUp", key=key, windowsVirtualKeyCode=code)

    # ---- eyes

    def picture(self, path):
        with open(path, "wb") as file:
            file.write(base64.b64decode(self.send("Page.captureScreenshot", format="png")["data"]))
