"""A headless Chromium that is driven through two pipes, with nothing but the standard library. Scripts are off in its pages."""

import base64
import json
import os
import shutil
import subprocess
import tempfile


def program():
    """Returns the name of the browser, or None if there is none."""
    return next(filter(shutil.which, ("chromium", "chromium-browser", "google-chrome")), None)


class Browser:
    """A page in a window of this size. `select` finds elements by CSS selectors."""

    def __init__(self, width, height):
        self.folder = tempfile.mkdtemp()
        theirs, self.out = os.pipe()
        ours, back = os.pipe()
        self.pipe = os.fdopen(ours, "rb")
        flags = ["--headless", "--no-sandbox", "--disable-gpu", "--hide-scrollbars", "--remote-debugging-pipe", f"--user-data-dir={self.folder}"]
        script = f'exec "$@" 3<&{theirs} 4>&{back}'
        words = ["bash", "-c", script, "browser", program(), *flags]
        self.process = subprocess.Popen(words, pass_fds=(theirs, back), stdin=subprocess.DEVNULL, stdout=subprocess.DEVNULL, stderr=subprocess.DEVNULL)
        os.close(theirs)
        os.close(back)
        self.number, self.session, self.loads = 0, None, 0
        target = self.call("Target.createTarget", url="about:blank")["targetId"]
        self.session = self.call("Target.attachToTarget", targetId=target, flatten=True)["sessionId"]
        self.call("Page.enable")
        self.call("Emulation.setScriptExecutionDisabled", value=True)
        self.resize(width, height)

    def call(self, method, **params):
        self.number += 1
        message = {"id": self.number, "method": method, "params": params}
        if self.session:
            message["sessionId"] = self.session
        os.write(self.out, json.dumps(message).encode() + b"\0")
        while (answer := self.read()).get("id") != self.number:
            pass
        if "error" in answer:
            raise RuntimeError(f"{method}: {answer['error']}")
        return answer["result"]

    def read(self):
        message = b""
        while not message.endswith(b"\0"):
            piece = self.pipe.read(1)
            if not piece:
                raise RuntimeError("the browser has ended")
            message += piece
        answer = json.loads(message[:-1])
        self.loads += answer.get("method") == "Page.loadEventFired"
        return answer

    def until_loaded(self, loads):
        while self.loads == loads:
            self.read()

    def resize(self, width, height):
        self.call("Emulation.setDeviceMetricsOverride", width=width, height=height, deviceScaleFactor=1, mobile=False)

    def go(self, address):
        loads = self.loads
        self.call("Page.navigate", url=address)
        self.until_loaded(loads)

    def select(self, selector):
        root = self.call("DOM.getDocument")["root"]["nodeId"]
        return self.call("DOM.querySelector", nodeId=root, selector=selector)["nodeId"]

    def markup(self, selector="html"):
        return self.call("DOM.getOuterHTML", nodeId=self.select(selector))["outerHTML"]

    def is_shown(self, selector):
        try:
            return self.call("DOM.getBoxModel", nodeId=self.select(selector))["model"]["height"] > 0
        except RuntimeError:
            return False

    def click(self, selector, loads_page=True):
        node, loads = self.select(selector), self.loads
        self.call("DOM.scrollIntoViewIfNeeded", nodeId=node)
        corners = self.call("DOM.getBoxModel", nodeId=node)["model"]["content"]
        place = {"x": sum(corners[0::2]) / 4, "y": sum(corners[1::2]) / 4}
        for kind in ("mousePressed", "mouseReleased"):
            self.call("Input.dispatchMouseEvent", type=kind, button="left", clickCount=1, **place)
        if loads_page:
            self.until_loaded(loads)

    def focus(self, selector):
        self.call("DOM.focus", nodeId=self.select(selector))

    def type(self, text):
        self.call("Input.insertText", text=text)

    def press(self, key, code, loads_page=False):
        loads = self.loads
        text = {"Enter": "\r", " ": " "}.get(key, "")
        self.call("Input.dispatchKeyEvent", type="keyDown" if text else "rawKeyDown", key=key, windowsVirtualKeyCode=code, text=text)
        self.call("Input.dispatchKeyEvent", type="keyUp", key=key, windowsVirtualKeyCode=code)
        if loads_page:
            self.until_loaded(loads)

    def screenshot(self, file):
        with open(file, "wb") as image:
            image.write(base64.b64decode(self.call("Page.captureScreenshot", format="png")["data"]))

    def close(self):
        self.process.terminate()
        self.process.wait()
        os.close(self.out)
        self.pipe.close()
        shutil.rmtree(self.folder, ignore_errors=True)
