"""Tries the page's server where it cannot write, and where it is ended before it has begun."""

import json
import os
import pathlib
import re
import signal
import subprocess
import time

import attacks

ENDS = {"sx": 5, "sy": 5, "gx": 30, "gy": 30}  # (of a long certificate)
# A module of Python that takes its time.
SLOW = "import pathlib, time\npathlib.Path(__file__).with_name('begun').touch()\ntime.sleep(2)\n"


def told(answer):
    """The fault in an answer; of one that came in pieces its last line."""
    head, _, body = answer.partition(b"\r\n\r\n")
    if b"chunked" in head:
        return body.split(b"\r\n")[-4].decode() if body.endswith(b"0\r\n\r\n") else ""
    return json.loads(body).get("fault", "") if body else ""


def try_full_disk(program, top, room):
    """What cannot be written is answered with a fault, and nothing half made is left; what needs no file goes on."""
    place = attacks.Place(program, top, room, before="ulimit -f 1")
    try:
        page = place.open()
        asked = {"page": page, "engine": "plain", "rule": "none", **ENDS}
        made = {"page": page, "seed": 1, "w": 99, "h": 99, "p": 20}
        closed = "Connection: close\r\n"
        take = place.post(f"take?page={page}&kind=map&name=x", (top / "maps/game49.map").read_bytes())
        answers = {"take": take, "make": place.post("make", made)}
        answers["small"] = place.post("small", {"page": page, "rows": ["." * 64] * 64, "calls": []})
        answers["problems"] = place.post("problems", {**asked, "seed": 1, "n": 999})
        answers["prove"] = place.post("run", {**asked, "command": "prove"}, more=closed)
        yield from attacks.wrong([("an edit", place.post("edit", {**asked, "edits": [["free", 24, 3]]}), 200)])
        answers["draw"] = place.post("run", {**asked, "command": "draw", "show": "trace"}, more=closed)
        answers["a query"] = place.post("query", {**asked, "engine": "block"})
        for what, answer in answers.items():
            if "jps-page: File too large" not in told(answer):
                yield f"{what} where a file is refused: {answer[:40]!r} .. {answer[-80:]!r}"
        if left := [it for it in pathlib.Path(room).rglob("*") if it.is_file() and it.name != "said"]:
            yield f"refused files leave {left}"
        yield from attacks.wrong([("a query", place.post("query", asked), 200)])
    finally:
        yield from place.end()


def try_early(program, top, room):
    """Ctrl-C while Python begins, or the server's modules are read: it ends by the signal, and says nothing."""
    signal.signal(signal.SIGINT, signal.SIG_DFL)  # (a shell may have begun this with it left out)
    names = ["hmac.py"]
    if subprocess.run(["env", "--block-signal=INT", "true"], capture_output=True, check=False).returncode == 0:
        names.append("sitecustomize.py")
    for name in names:
        slow = pathlib.Path(room) / name[:-3]
        slow.mkdir()
        (slow / name).write_text(SLOW, encoding="ascii")
        call = ["env", f"PYTHONPATH={slow}", top / "jps-page", top / "maps/pillar.map", "--program", program]
        with subprocess.Popen(call, stdout=subprocess.PIPE, stderr=subprocess.PIPE) as page:
            begun = time.monotonic()
            while not (slow / "begun").exists() and time.monotonic() - begun < 20:
                time.sleep(0.01)
            page.send_signal(signal.SIGINT)
            said = page.communicate()
        if page.returncode != -signal.SIGINT or said != (b"", b""):
            yield f"Ctrl-C while {name} is read: status {page.returncode}, {said}"


def try_start(_program, top, room):
    """A signal while the program is still being built: a status, no traceback, and nothing that goes on."""
    slow, told = pathlib.Path(f"{room}/slow"), pathlib.Path(f"{room}/number")
    slow.write_text(f"#!/bin/sh\necho $$ >{told}\nexec sleep 60\n", encoding="ascii")
    slow.chmod(0o755)
    for it in (signal.SIGINT, signal.SIGTERM, signal.SIGHUP):
        signal.signal(it, signal.SIG_DFL)  # (a shell may have begun this with it left out)
        call = [top / "jps-page", top / "maps/pillar.map", "--program", slow]
        with subprocess.Popen(call, stderr=subprocess.PIPE) as page:
            begun = time.monotonic()
            while not attacks.read(told).endswith("\n") and time.monotonic() - begun < 20:
                time.sleep(0.01)
            child = int(attacks.read(told))
            page.send_signal(it)
            page.wait(20)
            begun = time.monotonic()
            while (goes_on := attacks.runs(child)) and time.monotonic() - begun < 5:
                time.sleep(0.01)
            if goes_on:
                os.kill(child, signal.SIGKILL)
            said = page.stderr.read()
        if page.returncode != 130 or said or goes_on:
            yield f"{it.name} before the page is there: status {page.returncode}, {said[-200:]!r}, {goes_on}"
        told.unlink()


def try_full(program, top, room):
    """An address that cannot be printed: a line, a status, and nothing is left."""
    for unbuffered in ("", "1"):
        call, env = [top / "jps-page", top / "maps/pillar.map", "--program", program], {**os.environ, "TMPDIR": room}
        with open("/dev/full", "wb") as full:
            env["PYTHONUNBUFFERED"] = unbuffered
            done = subprocess.run(call, stdout=full, stderr=subprocess.PIPE, env=env, timeout=60, check=False)
        told = re.fullmatch(rb"jps-page: .*\n", done.stderr)
        if done.returncode != 1 or not told or os.listdir(room):
            yield f"an address to /dev/full: status {done.returncode}, {done.stderr[-200:]!r}, {os.listdir(room)}"


PARTS = (try_start, try_early, try_full, try_full_disk)
