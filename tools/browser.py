"""A headless Chromium that is told what to do over a pipe."""

import base64
import json
import os
import shutil
import subprocess
import sys

PHONE = {"width": 390, "height": 844, "deviceScaleFactor": 2, "mobile": True}
DESK = {"width": 1280, "height": 900, "deviceScaleFactor": 1, "mobile": False}


class Browser:
    """A browser with one page of tools/view."""

    def __init__(self, folder):
        name = shutil.which("chromium") or shutil.which("chromium-browser")
        if name is None:
            sys.exit("check-view: chromium is missing (apt-get install chromium)")
        to_read, self.out = os.pipe()
        self.into, to_write = os.pipe()

        def place():
            # out of the way first: either end may be number 3 or 4
            reads, writes = os.dup(to_read), os.dup(to_write)
            os.dup2(reads, 3)
            os.dup2(writes, 4)

        words = ["--headless=new", "--no-sandbox", "--disable-gpu", "--remote-debugging-pipe"]
        words += ["--window-size=1280,900", f"--user-data-dir={folder}"]
        self.process = subprocess.Popen(
            [name, *words], preexec_fn=place, close_fds=False, stderr=subprocess.DEVNULL
        )
        os.close(to_read)
        os.close(to_write)
        self.rest, self.number, self.session = b"", 0, None
        targets = self.call("Target.getTargets")["targetInfos"]
        page = next(t["targetId"] for t in targets if t["type"] == "page")
        self.session = self.call("Target.attachToTarget", targetId=page, flatten=True)["sessionId"]

    def message(self):
        while b"\0" not in self.rest:
            more = os.read(self.into, 1 << 16)
            if not more:
                sys.exit("check-view: the browser ended")
            self.rest += more
        text, _, self.rest = self.rest.partition(b"\0")
        return json.loads(text)

    def call(self, method, **params):
        self.number += 1
        message = {"id": self.number, "method": method, "params": params}
        if self.session:
            message["sessionId"] = self.session
        os.write(self.out, json.dumps(message).encode() + b"\0")
        while True:
            answer = self.message()
            if answer.get("id") == self.number:
                if "error" in answer:
                    sys.exit(f"check-view: {method}: {answer['error']}")
                return answer["result"]

    def value(self, expression):
        """What an expression is in the page, once a promise of it is kept."""
        result = self.call(
            "Runtime.evaluate", expression=expression, awaitPromise=True, returnByValue=True
        )
        if "exceptionDetails" in result:
            sys.exit(f"check-view: {result['exceptionDetails']}")
        return result["result"].get("value")

    def open(self, path):
        self.call("Page.navigate", url=path.as_uri())
        self.value(
            "new Promise(done => { const look = () => document.body && document.body.dataset.ready"
            " ? done() : setTimeout(look, 20); look(); })"
        )
        self.screen(DESK)

    def move(self, x, y):
        self.call("Input.dispatchMouseEvent", type="mouseMoved", x=x, y=y)

    def wheel(self, x, y, by):
        self.call(
            "Input.dispatchMouseEvent", type="mouseWheel", x=x, y=y, deltaX=0, deltaY=by
        )

    def choose_reading(self, number):
        self.value(f"document.getElementsByName('reading')[{number}].click()")

    def drawn(self, expression):
        """The same, once what was asked for is drawn."""
        return self.value(f"Promise.resolve(drawing).then(() => {expression})")

    def text(self, name):
        return self.drawn(f"document.getElementById({name!r}).textContent")

    def screen(self, metrics):
        """A desk's screen with a mouse, or a phone's with fingers."""
        self.call("Emulation.setDeviceMetricsOverride", **metrics)
        self.call("Emulation.setTouchEmulationEnabled", enabled=metrics["mobile"])
        frame = "new Promise(requestAnimationFrame)"
        self.value(f"{frame}.then(() => {frame})")

    def touch(self, *ways):
        """Fingers go down, along their ways side by side, and up again."""
        for k, points in enumerate(zip(*ways)):
            kind = "touchMove" if k else "touchStart"
            fingers = [{"x": x, "y": y, "id": finger} for finger, (x, y) in enumerate(points)]
            self.call("Input.dispatchTouchEvent", type=kind, touchPoints=fingers)
        self.call("Input.dispatchTouchEvent", type="touchEnd", touchPoints=[])
        self.drawn("0")

    def move_slider(self, tick):
        self.value(
            f"slider.value = {tick}; slider.dispatchEvent(new Event('input', {{bubbles: true}}))"
        )

    def press(self, key):
        for kind in ("keyDown", "keyUp"):
            self.call("Input.dispatchKeyEvent", type=kind, key=key, code=key)

    def click(self, x, y):
        for kind in ("mousePressed", "mouseReleased"):
            self.call("Input.dispatchMouseEvent", type=kind, x=x, y=y, button="left", clickCount=1)

    def picture(self, path):
        data = self.call("Page.captureScreenshot", format="png")["data"]
        path.write_bytes(base64.b64decode(data))
