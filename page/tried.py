"""A browser on a page of jps, and what is expected of it: for page/test."""

import functools
import http.server
import json
import math
import os
import pathlib
import signal
import subprocess
import threading
import time

import attacks
from browser import Browser

HERE = pathlib.Path(__file__).resolve().parent
TOP = HERE.parent
GAME = "maps/game49.map"
SECONDS = 40
faults = []


def expect(what, is_so):
    if not is_so:
        faults.append(what)
        print(f"page/test: {what}", flush=True)


def equal(what, seen, wanted):
    expect(f"{what}: {str(seen)[:300]!r} in place of {str(wanted)[:300]!r}", seen == wanted)


class Plain(http.server.SimpleHTTPRequestHandler):
    """Any web server: it knows files and nothing else."""

    extensions_map = {**http.server.SimpleHTTPRequestHandler.extensions_map, ".mjs": "text/javascript", ".wasm": "application/wasm"}

    def log_message(self, *_):
        pass


class Tried:
    """A browser, the program, and where pictures go."""

    def __init__(self, program, module, folder, pictures):
        self.program = program
        self.module = module
        self.folder = pathlib.Path(folder)
        self.pictures = pathlib.Path(pictures)
        self.server = self.plain = None
        self.browser = Browser()

    def jps(self, *words, lines=""):
        """What the program prints, to these lines where it reads any."""
        call = [self.program, *(str(it) for it in words)]
        return subprocess.run(call, input=lines, capture_output=True, text=True, cwd=TOP, timeout=600).stdout

    def serve(self, *named, hash_words="", program=None):
        """Another server, and its page in the browser."""
        self.end_server()
        call = [TOP / "jps-page", "--program", program or self.program, *(str(it) for it in named)]
        self.server = subprocess.Popen(call, stdout=subprocess.PIPE, stderr=subprocess.DEVNULL, text=True, cwd=TOP)
        self.address = self.server.stdout.readline().strip()
        self.load(hash_words)

    def load(self, hash_words=""):
        self.browser.go("about:blank")
        self.browser.go(self.address + hash_words)
        self.browser.wait("document.body?.dataset.tab", SECONDS)

    def site(self, *named, hash_words="", page=""):
        """The page as a folder of files behind any web server, and in the browser."""
        self.end_server()
        folder = self.folder / f"site-{time.monotonic_ns()}"
        call = [TOP / "jps-page", "--site", folder, "--module", self.module, *named]
        subprocess.run([str(it) for it in call], check=True, cwd=TOP)
        self.plain = http.server.ThreadingHTTPServer(("127.0.0.1", 0), functools.partial(Plain, directory=str(folder)))
        threading.Thread(target=self.plain.serve_forever, daemon=True).start()
        self.address = f"http://127.0.0.1:{self.plain.server_address[1]}/"
        if page:
            self.browser.go(self.address + page)
        else:
            self.load(hash_words)
        return folder

    def drop(self, path, name=None):
        """Drops a file on the page."""
        text = pathlib.Path(path).read_text()
        self.browser.run(
            "(() => { const it = new DataTransfer(); it.items.add(new File([" + json.dumps(text) + "], "
            + json.dumps(name or pathlib.Path(path).name) + ")); document.body.dispatchEvent(new DragEvent('drop',"
            " {dataTransfer: it, bubbles: true, cancelable: true})); })()"
        )

    def type(self, field, words):
        self.browser.run(f"(() => {{ const it = document.querySelector('{field}'); it.value = '{words}'; it.onchange(); }})()")

    def held(self, key, shift=False):
        """A key with Ctrl."""
        for kind in ("keyDown", "keyUp"):
            told = {"type": kind, "key": key, "windowsVirtualKeyCode": ord(key.upper()), "modifiers": 2 + 8 * shift}
            self.browser.call("Input.dispatchKeyEvent", **told)

    def shown(self):
        """How many milliseconds after it was asked for the map was on the screen."""
        self.browser.wait("document.body.dataset.shown", SECONDS)
        return int(self.browser.run("document.body.dataset.shown"))

    def kill(self, child):
        """Kills a program of the server, and waits until it is gone."""
        os.kill(child, signal.SIGKILL)
        begun = time.monotonic()
        stat = pathlib.Path(f"/proc/{child}/stat")
        while stat.exists() and ") Z " not in stat.read_text() and time.monotonic() - begun < SECONDS:
            time.sleep(0.01)

    def children(self):
        """The programs that the server has running."""
        return attacks.children(self.server.pid)

    def end_server(self):
        if self.server:
            self.server.terminate()
            self.server.wait(20)
            self.server.stdout.close()
            self.server = None
        if self.plain:
            self.plain.shutdown()
            self.plain.server_close()
            self.plain = None

    def printed(self, wanted, what):
        """Waits until the page has the line that the program prints."""
        try:
            self.browser.wait(f"document.querySelector('#printed').textContent === {wanted!r}", SECONDS)
        except TimeoutError:
            equal(what, self.browser.text("#printed"), wanted)

    def cell(self, x, y):
        """Where a cell is on the screen."""
        return self.browser.run(
            "import('./stage.js').then(({views: [view]}) => { const b = view.canvas.getBoundingClientRect();"
            f" const [x, y] = view.place({x} + .5, {y} + .5); return [b.x + x, b.y + y]; }})"
        )

    def colour(self, x, y):
        """The colour on the screen in the middle of a cell, as red, green and blue."""
        return self.browser.run(
            "import('./stage.js').then(({views: [view]}) => { view.draw(); const r = view.ratio;"
            f" const [x, y] = view.place({x} + .5, {y} + .5).map((it) => Math.round(it * r));"
            " return [...view.context.getImageData(x, y, 1, 1).data].slice(0, 3); })"
        )

    def is_ringed(self, x, y):
        """Whether a ring in the goal's colour is seen round a cell: at three of eight places, as the goal may lie over
        the others."""
        far = self.browser.run("import('./stage.js').then(({views: [view]}) => (view.endRadius() + 5) / view.camera.scale)")
        goal = self.browser.run("getComputedStyle(document.documentElement).getPropertyValue('--goal').trim()")
        wanted = [int(goal[at : at + 2], 16) for at in (1, 3, 5)]
        ways = [it * math.pi / 4 for it in range(8)]
        seen = [self.colour(x + far * math.cos(it), y + far * math.sin(it)) for it in ways]
        return seen.count(wanted) >= 3

    def keep(self, name):
        time.sleep(0.25)
        self.browser.picture(self.pictures / f"{name}.png")
