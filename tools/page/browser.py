"""Drives a headless Chromium by its DevTools protocol, over a pipe."""
import base64
import json
import os
import shutil
import subprocess
import tempfile


class Browser:
    """A Chromium with one page. It loads files alone."""

    def __init__(self, program=None):
        program = program or shutil.which("chromium") or shutil.which("chromium-browser")
        if not program:
            raise FileNotFoundError("no chromium")
        self.profile = tempfile.mkdtemp(prefix="mbe-page-")
        to_browser, self.out = os.pipe()
        self.back, from_browser = os.pipe()

        def connect():
            os.dup2(to_browser, 3)
            os.dup2(from_browser, 4)

        # The browser reads from file 3 and writes to file 4.
        for pipe in (to_browser, from_browser):
            os.set_inheritable(pipe, True)
        self.process = subprocess.Popen(
            [program, "--headless", "--no-sandbox", "--disable-gpu", "--hide-scrollbars",
             "--remote-debugging-pipe", f"--user-data-dir={self.profile}"],
            stdin=subprocess.DEVNULL, stdout=subprocess.DEVNULL, stderr=subprocess.DEVNULL,
            preexec_fn=connect, close_fds=False)
        os.close(to_browser)
        os.close(from_browser)
        self.number, self.buffer, self.events, self.session = 0, b"", [], None
        target = self.call("Target.createTarget", url="about:blank")["targetId"]
        attached = self.call("Target.attachToTarget", targetId=target, flatten=True)
        self.session = attached["sessionId"]
        for domain in ("Page", "Runtime", "Log"):
            self.call(f"{domain}.enable")

    def __enter__(self):
        return self

    def __exit__(self, *_):
        self.process.terminate()
        self.process.wait(20)
        os.close(self.out)
        os.close(self.back)
        shutil.rmtree(self.profile, ignore_errors=True)

    def message(self):
        """The next message of the browser."""
        while b"\0" not in self.buffer:
            part = os.read(self.back, 1 << 20)
            if not part:
                raise EOFError("chromium ended")
            self.buffer += part
        one, _, self.buffer = self.buffer.partition(b"\0")
        return json.loads(one)

    def call(self, method, **params):
        """The result of a call of the protocol."""
        self.number += 1
        asked = {"id": self.number, "method": method, "params": params}
        if self.session:
            asked["sessionId"] = self.session
        os.write(self.out, json.dumps(asked).encode() + b"\0")
        while True:
            answer = self.message()
            if answer.get("id") == self.number:
                if "error" in answer:
                    raise RuntimeError(f"{method}: {answer['error']}")
                return answer["result"]
            self.events.append(answer)

    def wait_for(self, event):
        """Waits for an event that comes after the last call of `open`."""
        while not any(it.get("method") == event for it in self.events):
            self.events.append(self.message())

    def open(self, path, width=1200, height=900, **media):
        """Opens a file in a window of that size."""
        self.events = []
        self.call("Emulation.setDeviceMetricsOverride", width=width, height=height,
                  deviceScaleFactor=1, mobile=False)
        features = [{"name": f"prefers-{name.replace('_', '-')}", "value": value}
                    for name, value in media.items()]
        self.call("Emulation.setEmulatedMedia", features=features)
        self.call("Page.navigate", url=f"file://{os.path.abspath(path)}")
        self.wait_for("Page.loadEventFired")

    def errors(self):
        """What the page reported since `open`: errors of scripts, and what its policy refused."""
        found = []
        self.run("1")
        for it in self.events:
            if it.get("method") == "Runtime.exceptionThrown":
                found.append(it["params"]["exceptionDetails"]["text"])
            if it.get("method") == "Log.entryAdded":
                found.append(it["params"]["entry"]["text"])
        return found

    def run(self, script):
        """The value of an expression in the page."""
        answer = self.call("Runtime.evaluate", expression=script, returnByValue=True)
        if "exceptionDetails" in answer:
            raise RuntimeError(answer["exceptionDetails"]["exception"].get("description"))
        return answer["result"].get("value")

    def scripts(self, are_on):
        self.call("Emulation.setScriptExecutionDisabled", value=not are_on)

    def mouse(self, kind, x, y, **how):
        self.call("Input.dispatchMouseEvent", type=kind, x=x, y=y, **how)

    def hover(self, selector):
        """Moves the mouse over the first element of that selector."""
        self.mouse("mouseMoved", *self.middle(selector))

    def click(self, selector):
        x, y = self.middle(selector)
        for kind in ("mousePressed", "mouseReleased"):
            self.mouse(kind, x, y, button="left", clickCount=1)

    def middle(self, selector):
        """The middle of the first rectangle of an element, which is scrolled into view."""
        return self.run(f"""(() => {{
            const it = document.querySelector({json.dumps(selector)});
            it.scrollIntoView({{ block: 'center' }});
            const box = it.getClientRects()[0];
            return [box.x + Math.min(box.width / 2, 20), box.y + Math.min(box.height / 2, 8)];
        }})()""")

    def press(self, key, code=0, text=""):
        for kind in ("keyDown", "keyUp"):
            more = {"text": text} if text and kind == "keyDown" else {}
            self.call("Input.dispatchKeyEvent", type=kind, key=key, code=key,
                      windowsVirtualKeyCode=code, **more)

    def picture(self, path, whole=False, clip=None):
        """Writes what the window shows, the whole page, or a part of the page, as a PNG."""
        how = {"captureBeyondViewport": True, "clip": clip} if clip else {}
        if whole:
            size = self.call("Page.getLayoutMetrics")["cssContentSize"]
            how = {"captureBeyondViewport": True,
                   "clip": {"x": 0, "y": 0, "width": size["width"],
                            "height": min(size["height"], 4000), "scale": 1}}
        made = self.call("Page.captureScreenshot", format="png", **how)
        with open(path, "wb") as it:
            it.write(base64.b64decode(made["data"]))
