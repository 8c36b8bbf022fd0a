"""Chromium without a window, which a pipe tells what to do (the DevTools protocol): one process for all pages."""
import base64
import fcntl
import json
import os
import subprocess
import tempfile

OPTIONS = ("--headless", "--no-sandbox", "--disable-gpu", "--hide-scrollbars", "--remote-debugging-pipe", "--no-first-run",
           "--disable-extensions", "--disable-background-networking", "--force-color-profile=srgb")
# Chromium reads what it is told at descriptor 3, and answers at 4.
STARTED = 'exec "$@" 3<&{0} 4>&{1}'


class Failed(Exception):
    """What Chromium says of a call that failed, or of a script that threw."""


def _above(descriptor):
    """The same file at a descriptor above those that Chromium is given."""
    found = fcntl.fcntl(descriptor, fcntl.F_DUPFD_CLOEXEC, 10)
    os.close(descriptor)
    return found


class Browser:
    """Within a `with` block, a page that is opened, looked at and clicked on."""

    def __init__(self, program):
        self._program, self._number, self._session = program, 0, None

    def __enter__(self):
        self._folder = tempfile.TemporaryDirectory(ignore_cleanup_errors=True)
        (theirs, to), (back, answers) = (map(_above, os.pipe()) for _ in range(2))
        command = [self._program, *OPTIONS, f"--user-data-dir={self._folder.name}", "about:blank"]
        shell = STARTED.format(theirs, answers)
        self._process = subprocess.Popen(["bash", "-c", shell, "bash", *command], pass_fds=(theirs, answers), stderr=subprocess.DEVNULL)
        for it in (theirs, answers):
            os.close(it)
        self._to, self._back = os.fdopen(to, "wb", 0), os.fdopen(back, "rb")
        target = self.call("Target.createTarget", url="about:blank")["targetId"]
        self._session = self.call("Target.attachToTarget", targetId=target, flatten=True)["sessionId"]
        for domain in ("Page", "Runtime", "Accessibility"):
            self.call(f"{domain}.enable")
        return self

    def __exit__(self, *_):
        self._to.close()
        self._back.close()
        self._process.terminate()
        self._process.wait()
        self._folder.cleanup()

    def _heard(self):
        """The next message of Chromium: what stands before a zero byte."""
        said = bytearray()
        while (byte := self._back.read(1)) != b"\0":
            if not byte:
                raise Failed("Chromium has ended")
            said += byte
        return json.loads(said)

    def call(self, method, **values):
        """Calls a method of the protocol, and answers what it gives."""
        self._number += 1
        said = {"id": self._number, "method": method, "params": values} | ({"sessionId": self._session} if self._session else {})
        self._to.write(json.dumps(said).encode() + b"\0")
        while True:
            heard = self._heard()
            if heard.get("id") == self._number:
                if "error" in heard:
                    raise Failed(f"{method}: {heard['error']['message']}")
                return heard["result"]

    def open(self, path, width=1280, height=900, theme="light"):
        """Opens the page of a file in a window of a size, as a system with a light or a dark theme shows it."""
        self.call("Emulation.setDeviceMetricsOverride", width=width, height=height, deviceScaleFactor=1, mobile=False)
        self.call("Emulation.setEmulatedMedia", features=[{"name": "prefers-color-scheme", "value": theme}])
        self.call("Page.navigate", url=f"file://{path}")
        self.run("new Promise(done => { const look = () => document.readyState === 'complete' && location.href !== 'about:blank'"
                 " ? requestAnimationFrame(() => setTimeout(done)) : setTimeout(look, 10); look(); })")

    def run(self, script):
        """What a script in the page comes to, once it is kept if it is a promise."""
        done = self.call("Runtime.evaluate", expression=script, awaitPromise=True, returnByValue=True)
        if "exceptionDetails" in done:
            raise Failed(done["exceptionDetails"].get("exception", {}).get("description", done["exceptionDetails"]["text"]))
        return done["result"].get("value")

    def press(self, key):
        """Presses a key, as Tab or ArrowRight."""
        for kind in ("keyDown", "keyUp"):
            self.call("Input.dispatchKeyEvent", type=kind, key=key, code=key, windowsVirtualKeyCode=KEYS.get(key, 0))

    def click(self, selector):
        """Clicks on the middle of the first element of a selector, where it is seen."""
        box = self.run(f"(() => {{ const it = document.querySelector({json.dumps(selector)}); it.scrollIntoView({{ block: 'center' }});"
                       " const box = it.getBoundingClientRect(); return [box.x + box.width / 2, box.y + box.height / 2]; })()")
        for kind in ("mousePressed", "mouseReleased"):
            self.call("Input.dispatchMouseEvent", type=kind, x=box[0], y=box[1], button="left", clickCount=1)

    def names(self):
        """The role and the name of each element that the keyboard comes to, as a screen reader has them."""
        nodes = self.call("Accessibility.getFullAXTree")["nodes"]
        is_focusable = [any(it["name"] == "focusable" and it["value"]["value"] for it in node.get("properties", ())) for node in nodes]
        return [(node["role"]["value"], node.get("name", {}).get("value", "")) for node, it in zip(nodes, is_focusable) if it]

    def picture(self, into, height=None):
        """A picture of the window, or of so much of the page."""
        more = {}
        if height:
            width = self.run("innerWidth")
            more = {"captureBeyondViewport": True, "clip": {"x": 0, "y": 0, "width": width, "height": height, "scale": 1}}
        with open(into, "wb") as file:
            file.write(base64.b64decode(self.call("Page.captureScreenshot", **more)["data"]))


KEYS = {"Tab": 9, "Enter": 13, "ArrowLeft": 37, "ArrowRight": 39}
