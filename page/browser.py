"""Drives a headless Chromium by the DevTools protocol over two pipes: what page/test needs of it, no more."""

import base64
import json
import os
import pathlib
import select
import shutil
import subprocess
import tempfile
import time

KEYS = {"Enter": 13, "Tab": 9, "Escape": 27, "ArrowLeft": 37, "ArrowUp": 38, "ArrowRight": 39, "ArrowDown": 40, "End": 35}
# Before the page's own scripts: what a request that failed was answered is written to the console.
TELL_FAILED = """(() => {
  const ask = window.fetch;
  window.fetch = async (...words) => {
    const told = await ask(...words);
    if (!told.ok) told.clone().text().then((text) => console.error(`${told.status} ${words[0]}: ${text}`));
    return told;
  };
})()"""


class Browser:
    """One tab. Whatever the page writes to its console as an error is kept in `errors`, with the part that was tried."""

    def __init__(self, width=1280, height=800):
        self.folder = tempfile.mkdtemp(prefix="jps-chromium-")
        self.downloads = pathlib.Path(self.folder) / "downloads"
        self.downloads.mkdir()
        self.number = 0
        self.rest = b""
        self.errors = []
        self.part = ""
        self.dialogs = []
        self.start()
        target = self.call("Target.createTarget", url="about:blank", browser=True)["targetId"]
        self.session = self.call("Target.attachToTarget", targetId=target, flatten=True, browser=True)["sessionId"]
        for domain in ("Page", "Runtime", "Log"):
            self.call(domain + ".enable")
        self.call("Page.addScriptToEvaluateOnNewDocument", source=TELL_FAILED)
        self.call("Browser.setDownloadBehavior", behavior="allow", downloadPath=str(self.downloads), browser=True)
        self.size(width, height)

    def start(self):
        their_in, self.ours_out = os.pipe()
        self.ours_in, their_out = os.pipe()
        words = [shutil.which("chromium"), "--headless=new", "--no-sandbox", "--remote-debugging-pipe", "--disable-gpu"]
        words += ["--no-first-run", "--disable-dev-shm-usage", "--hide-scrollbars", "--disable-extensions"]
        words += ["--disable-background-networking", "--no-default-browser-check", f"--user-data-dir={self.folder}/user"]
        # The browser reads commands from 3 and writes answers to 4, whatever the pipes' numbers are here.
        self.process = subprocess.Popen(
            ["sh", "-c", f'exec "$@" 3<&{their_in} 4>&{their_out}', "sh", *words],
            pass_fds=(their_in, their_out),
            stdout=subprocess.DEVNULL,
            stderr=subprocess.DEVNULL,
        )
        os.close(their_in)
        os.close(their_out)

    def end(self):
        self.process.terminate()
        try:
            self.process.wait(10)
        except subprocess.TimeoutExpired:
            self.process.kill()
            self.process.wait()
        os.close(self.ours_in)
        os.close(self.ours_out)
        shutil.rmtree(self.folder, ignore_errors=True)

    # The protocol: JSON, each message ended by a zero byte

    def message(self, seconds):
        while b"\0" not in self.rest:
            if not select.select([self.ours_in], [], [], seconds)[0]:
                raise TimeoutError("the browser is silent")
            piece = os.read(self.ours_in, 1 << 20)
            if not piece:
                raise EOFError("the browser has ended")
            self.rest += piece
        told, _, self.rest = self.rest.partition(b"\0")
        told = json.loads(told)
        self.keep_errors(told)
        return told

    def keep_errors(self, told):
        parameters = told.get("params", {})
        if told.get("method") == "Page.javascriptDialogOpening":  # as before edits are lost: go on
            self.dialogs.append(parameters["type"])
            self.number += 1
            answer = {"id": self.number, "method": "Page.handleJavaScriptDialog", "params": {"accept": True}}
            os.write(self.ours_out, json.dumps({**answer, "sessionId": self.session}).encode() + b"\0")
        if told.get("method") == "Runtime.exceptionThrown":
            details = parameters["exceptionDetails"]
            self.keep_error(details.get("exception", {}).get("description") or details["text"])
        if told.get("method") == "Runtime.consoleAPICalled" and parameters["type"] == "error":
            self.keep_error(" ".join(str(it.get("value")) for it in parameters["args"]))
        if told.get("method") == "Log.entryAdded" and parameters["entry"]["level"] == "error":
            self.keep_error(parameters["entry"]["text"] + " " + parameters["entry"].get("url", ""))

    def keep_error(self, words):
        self.errors.append(f"{self.part}: {words}")

    def call(self, method, browser=False, seconds=120, **parameters):
        self.number += 1
        number = self.number
        told = {"id": number, "method": method, "params": parameters}
        if not browser:
            told["sessionId"] = self.session
        os.write(self.ours_out, json.dumps(told).encode() + b"\0")
        while True:
            answer = self.message(seconds)
            if answer.get("id") == number:
                if "error" in answer:
                    raise RuntimeError(f"{method}: {answer['error']['message']}")
                return answer["result"]

    # The page

    def size(self, width, height, scale=1, touch=False):
        self.call("Emulation.setDeviceMetricsOverride", width=width, height=height, deviceScaleFactor=scale, mobile=touch)
        self.call("Emulation.setTouchEmulationEnabled", enabled=touch)

    def theme(self, name):
        self.call("Emulation.setEmulatedMedia", features=[{"name": "prefers-color-scheme", "value": name}])

    def go(self, address):
        """Loads an address; on a busy machine the browser now and then forgets that it was asked to."""
        for seconds in (15, 15, 90):
            try:
                self.call("Page.navigate", url=address, seconds=seconds)
                return
            except TimeoutError:
                continue
        raise TimeoutError("the browser is silent")

    def run(self, script):
        """The value of an expression, which may be a promise."""
        told = self.call("Runtime.evaluate", expression=script, returnByValue=True, awaitPromise=True)
        if "exceptionDetails" in told:
            raise RuntimeError(f"{script}: {told['exceptionDetails']['exception'].get('description')}")
        return told["result"].get("value")

    def wait(self, script, seconds=30):
        """Waits until the expression holds; returns how long that took."""
        begun = time.monotonic()
        while not self.run(f"Boolean({script})"):
            if time.monotonic() - begun > seconds:
                raise TimeoutError(f"{script} does not hold; shown: {self.run('document.body.innerText')[:900]}")
            time.sleep(0.02)
        return time.monotonic() - begun

    def text(self, selector):
        return self.run(f"document.querySelector({json.dumps(selector)})?.innerText ?? null")

    def box(self, selector):
        """The middle of an element, after it was brought into sight."""
        return self.run(
            f"(() => {{ const it = document.querySelector({json.dumps(selector)}); it.scrollIntoView({{block: 'nearest'}});"
            " const b = it.getBoundingClientRect(); return [b.x + b.width / 2, b.y + b.height / 2]; })()"
        )

    def mouse(self, kind, x, y, button="left", **more):
        held = {"left": 1, "middle": 4, "none": 0}[button] if kind != "mouseReleased" else 0
        self.call("Input.dispatchMouseEvent", type=kind, x=x, y=y, button=button, buttons=held, clickCount=1, **more)

    def click(self, x, y, **more):
        self.mouse("mouseMoved", x, y, "none")
        self.mouse("mousePressed", x, y, **more)
        self.mouse("mouseReleased", x, y, **more)

    def press(self, selector):
        self.click(*self.box(selector))

    def drag(self, places, button="left"):
        self.mouse("mouseMoved", *places[0], "none")
        self.mouse("mousePressed", *places[0], button)
        for place in places[1:]:
            self.mouse("mouseMoved", *place, button)
        self.mouse("mouseReleased", *places[-1], button)

    def wheel(self, x, y, by):
        self.call("Input.dispatchMouseEvent", type="mouseWheel", x=x, y=y, deltaX=0, deltaY=by)

    def touch(self, kind, *points):
        self.call("Input.dispatchTouchEvent", type=kind, touchPoints=[{"x": x, "y": y} for x, y in points])

    def key(self, name):
        code = KEYS.get(name) or ord(name.upper())
        told = {"key": name, "windowsVirtualKeyCode": code}
        if len(name) == 1:
            told["text"] = name
        elif name == "Enter":
            told["text"] = "\r"
        self.call("Input.dispatchKeyEvent", type="keyDown", **told)
        self.call("Input.dispatchKeyEvent", type="keyUp", key=name, windowsVirtualKeyCode=code)

    def picture(self, path, **clip):
        told = {"clip": {**clip, "scale": 1}} if clip else {}
        data = self.call("Page.captureScreenshot", format="png", **told)["data"]
        pathlib.Path(path).write_bytes(base64.b64decode(data))

    def downloaded(self, name, seconds=30):
        """The bytes of a file that the page handed over."""
        path = self.downloads / name
        begun = time.monotonic()
        while not path.exists() or list(self.downloads.glob("*.crdownload")):
            if time.monotonic() - begun > seconds:
                raise TimeoutError(f"no file {name}: {os.listdir(self.downloads)}")
            time.sleep(0.05)
        data = path.read_bytes()
        path.unlink()
        return data
