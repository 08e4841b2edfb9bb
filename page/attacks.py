"""Tries the server of the page without a browser: what it must not answer, and what must not end it."""

import contextlib
import json
import os
import pathlib
import random
import re
import signal
import socket
import subprocess
import tempfile
import threading
import time
import urllib.parse
from itertools import product

import site_attacks

MANY, ROUNDS, ROUNDS_OF_GIVING_UP, STRANGERS = 1000, 40, 5, 200
SECONDS_OF_DRIPPING, SECONDS_OF_CHANGING = 8, 5
# What the program may be called with, and what lines it may be sent.
KNOWN = re.compile(
    r"(serve|live) \S+( engine=(plain|jps|block|plus)| rule=(none|one|both)| states=(arrival|cell)| show=trace)*"
    r"|(query|near)( \d{1,9}){4}|(block|free|flood)( \d{1,9}){2}|make( \d{1,9}){4}|--version|--help"
)


def children(process):
    """The programs that any thread of a process has started and that still run."""
    lists = pathlib.Path(f"/proc/{process}/task").glob("*/children")
    return [int(it) for numbers in lists for it in read(numbers).split()]


def runs(process):
    """Whether a process has not ended, be it taken note of or not."""
    return read(pathlib.Path(f"/proc/{process}/stat")).rpartition(")")[2][:3] not in ("", " Z ", " X ")


def read(path):
    try:
        return path.read_text()
    except OSError:  # the thread has ended meanwhile
        return ""


def at_once(calls):
    """Makes these calls, each in a thread, and waits for all."""
    threads = [threading.Thread(target=it) for it in calls]
    for it in threads:
        it.start()
    for it in threads:
        it.join()


class Place:
    """A server, and plain requests to it."""

    def __init__(self, program, top, room, map_file="maps/game49.map", before=":"):
        self.top, self.room = top, room
        call = ["sh", "-c", f'{before} && exec "$@"', "-", top / "jps-page", map_file, "--program", program]
        self.said = open(f"{room}/said", "w+", encoding="utf-8")
        env = {**os.environ, "TMPDIR": room}
        self.server = subprocess.Popen(call, stdout=subprocess.PIPE, stderr=self.said, text=True, cwd=top, env=env)
        told = urllib.parse.urlsplit(self.server.stdout.readline().strip())
        self.host, self.port, self.home = told.netloc, told.port, told.path

    def send(self, text, seconds=30):
        """What is answered to these bytes, up to the end of the connection or of the first answer."""
        with socket.create_connection(("127.0.0.1", self.port), timeout=seconds) as connection:
            connection.sendall(text)
            told = b""
            try:
                while piece := connection.recv(65536):
                    told += piece
                    head, _, body = told.partition(b"\r\n\r\n")
                    length = [it for it in head.split(b"\r\n") if it.lower().startswith(b"content-length:")]
                    if length and len(body) >= int(length[0].split(b":")[1]):
                        break
            except ConnectionResetError:
                pass
        return told

    def get(self, path, host=None, more=""):
        host = self.host if host is None else host
        return self.send(f"GET {path} HTTP/1.1\r\nHost: {host}\r\nConnection: close\r\n{more}\r\n".encode("latin-1"))

    def post(self, name, words, length=None, more=""):
        body = words if isinstance(words, bytes) else json.dumps(words).encode()
        size = len(body) if length is None else length
        head = f"POST {self.home}{name} HTTP/1.1\r\nHost: {self.host}\r\nContent-Length: {size}\r\n{more}\r\n"
        return self.send(head.encode() + body)

    def open(self):
        return json.loads(self.post("open", {}).partition(b"\r\n\r\n")[2])["page"]

    def is_free(self, x, y):
        """Whether the cell of the map that it was called with is land."""
        return (self.top / "maps/game49.map").read_bytes().split(b"\n")[4 + y][x : x + 1] == b"."

    def children(self):
        return children(self.server.pid)

    def end(self, again=()):
        """Ends the server by a signal, and more of them so many seconds later; yields what is wrong behind it."""
        left = self.children()
        for seconds in (0, *again):
            time.sleep(seconds)
            self.server.send_signal(signal.SIGINT)
        status = self.server.wait(20)
        self.server.stdout.close()
        if status != 0 or any(os.path.exists(f"/proc/{it}") for it in left):
            yield f"Ctrl-C: status {status}, programs {left}"
        if folders := [it for it in os.listdir(self.room) if it != "said"]:
            yield f"Ctrl-C leaves {folders}"
        self.said.seek(0)
        if "Traceback" in (said := self.said.read()):
            yield f"the server has a traceback: {said[-300:]}"
        self.said.close()


def status(answer):
    return int(answer.split(b" ", 2)[1]) if answer.startswith(b"HTTP/") else None


def strangers(place):
    """Whoever has not the address, or not its Host, is answered nothing; no other file is served."""
    secret = place.home.strip("/")
    yield "the page", place.get(place.home), 200
    yield "its script", place.get(place.home + "main.js"), 200
    yield "another Host", place.get(place.home, "evil.example"), 421
    yield "localhost", place.get(place.home, f"localhost:{place.port}"), 421
    yield "no Host", place.send(f"GET {place.home} HTTP/1.1\r\nConnection: close\r\n\r\n".encode()), 421
    yield "two Hosts", place.get(place.home, more=f"Host: {place.host}\r\n"), 421
    yield "another Origin", place.get(place.home, more="Origin: http://evil.example\r\n"), 403
    yield "no secret", place.get("/"), 404
    yield "a wrong secret", place.get(f"/{'x' * len(secret)}/"), 404
    yield "a secret of other letters", place.get("/\xff/"), 404
    for path in ("../server.py", "..", "%2e%2e/server.py", "server.py", "page/server.py", "/etc/passwd", "../../etc/passwd"):
        yield path, place.get(place.home + path), 404
    yield "a way with .. before the secret", place.get(f"/../{secret}/"), 404
    yield "another method", place.send(f"PUT {place.home} HTTP/1.1\r\nHost: {place.host}\r\nConnection: close\r\n\r\n".encode()), 501
    yield "no request", place.send(b"\x00\xff nonsense\r\n\r\n"), None


def words(place):
    """Words that are none of the page's are refused; none of them comes to a shell or to a file's name."""
    page = place.open()
    asked = {"page": page, "engine": "plain", "rule": "none", "sx": 5, "sy": 5, "gx": 9, "gy": 9}
    yield "a query", place.post("query", asked), 200
    for name, value in [("engine", "plain; touch /tmp/x"), ("rule", "none show=trace"), ("sx", "5"), ("sx", -1), ("sx", 1.5),
                        ("sx", True), ("gy", 10**12), ("show", "$(id)"), ("engine", ["plain"]), ("states", "cell\nnear")]:
        for near in (False, True):
            yield f"{name} {value}", place.post("query", {**asked, name: value, "near": near}), 400
    yield "near with states", place.post("query", {**asked, "near": True, "show": "trace"}), 400
    for command in ("live", "drill", "--help", "../jps", None):
        yield f"the command {command}", place.post("run", {**asked, "command": command}), 400
    for edits in ("x", [["rm", 1, 1]], [["free", 1]], [["free", "1", 1]], [["free", 1, 1, 1, 1]], [["free", 1, 1, 256]], [["free", 1, 1]] * 20001):
        yield f"edits {str(edits)[:30]}", place.post("edit", {**asked, "edits": edits}), 400
    yield "another page", place.post("query", {**asked, "page": "x"}), 410
    yield "a page that is a list", place.post("query", {**asked, "page": [1]}), 410
    yield "no object", place.post("open", [1]), 400
    yield "no JSON", place.post("open", b"{"), 400
    yield "deep JSON", place.post("open", b"[" * 100_000), 400
    yield "a scenario that was not named", place.get(f"{place.home}scen?page={page}"), 404
    yield "a body of a gigabyte", place.post("open", b"{}", length=1 << 30), 413
    yield "a body without a length", place.post("open", b"", length="x"), 411
    yield "a body in pieces", place.post("open", b"2\r\n{}\r\n0\r\n\r\n", more="Transfer-Encoding: chunked\r\n"), 411


def many(place):
    """A thousand requests at once: each is answered or turned away, and the server goes on."""
    told = []

    def one():
        try:
            told.append(status(place.get(place.home + "style.css")))
        except OSError:
            told.append("no connection")

    at_once([one] * MANY)
    if told.count(200) == 0 or not set(told) <= {200, 503, None, "no connection"}:
        yield f"of {MANY} requests at once: { {it: told.count(it) for it in set(told)} }"
    if status(place.get(place.home)) != 200:
        yield f"the server is gone behind {MANY} requests"


def gone(place):
    """Whoever goes away in the midst of a query takes the program with him."""
    page, before = place.open(), set(place.children())
    asked = {"page": page, "seed": 1, "w": 4096, "h": 4096, "p": 30}
    body = json.dumps(asked).encode()
    with socket.create_connection(("127.0.0.1", place.port)) as connection:
        head = f"POST {place.home}make HTTP/1.1\r\nHost: {place.host}\r\nContent-Length: {len(body)}\r\n\r\n"
        connection.sendall(head.encode() + body)
        begun = time.monotonic()
        while set(place.children()) <= before and time.monotonic() - begun < 10:
            time.sleep(0.001)
    begun = time.monotonic()
    while set(place.children()) > before and time.monotonic() - begun < 20:
        time.sleep(0.05)
    if set(place.children()) > before:
        yield "a program goes on though nobody waits for it"


def long_query(place, side):
    """The words of a query across a map of this side."""
    page = place.open()
    place.post("make", {"page": page, "seed": 3, "w": side, "h": side, "p": 15})
    cells = place.get(f"{place.home}cells?page={page}").partition(b"\r\n\r\n")[2]
    first, last = cells.find(b"."), cells.rfind(b".")
    ends = {"sx": first % side, "sy": first // side, "gx": last % side, "gy": last // side}
    return json.dumps({"page": page, "engine": "plain", "rule": "none", **ends}).encode()


def given_up(place):
    """Whoever asks what another one asks at the moment is answered, though that one goes away and its program ends."""
    body, told = long_query(place, 999), []
    for _ in range(ROUNDS_OF_GIVING_UP):
        with socket.create_connection(("127.0.0.1", place.port)) as connection:
            head = f"POST {place.home}query HTTP/1.1\r\nHost: {place.host}\r\nContent-Length: {len(body)}\r\n\r\n"
            connection.sendall(head.encode() + body)
            time.sleep(0.02)
            after = threading.Thread(target=lambda: told.append(status(place.post("query", body))))
            after.start()
            time.sleep(0.01)
        after.join()
    if set(told) != {200}:
        yield f"queries behind one that was given up: { {it: told.count(it) for it in set(told)} }"


def together(place):
    """Two engines that edit at once: behind it all know one map, the one that is saved."""
    page = place.open()
    cells = [(x, y) for x, y in product(range(1, 48), repeat=2) if place.is_free(x, y)][:40]
    told = {it: {"page": page, "engine": it, "rule": "none"} for it in ("jps", "block")}
    for number in range(ROUNDS):
        verbs = ("block", "free") if number % 2 else ("free", "block")
        at_once([
            lambda engine=engine, verb=verb: place.post("edit", {**told[engine], "edits": [[verb, *it] for it in cells]})
            for engine, verb in zip(told, verbs)
        ])
        saved = place.get(f"{place.home}saved-map?page={page}").partition(b"\r\n\r\n")[2].split(b"\n")[4:]
        for engine, (x, y) in product(told, cells[:: len(cells) - 1]):
            ends = {"sx": x, "sy": y, "gx": x, "gy": y}
            said = place.post("query", {**told[engine], **ends}).partition(b"\r\n\r\n")[2]
            wanted = b"blocked" if saved[y][x : x + 1] == b"@" else b"walk 0 0 %d,%d" % (x, y)
            if said != wanted:
                yield f"round {number} of two edits at once: {engine} says {said!r} in place of {wanted!r}"
                return


def names(place):
    """A map, a scenario and walks may have the names of what the page makes: none takes the place of another."""
    page = place.open()
    map_file, ends = (place.top / "maps/pillar.map").read_bytes(), {"sx": 0, "sy": 0, "gx": 2, "gy": 2}
    asked = {"page": page, "rule": "none", **ends}
    for name in ("walk.cert", "edited.map"):
        place.post(f"take?page={page}&kind=map&name={name}", map_file)
        place.post(f"take?page={page}&kind=scen&name={name}", b"version 1\n0 m 3 3 0 0 2 2 4\n")
        place.post("edit", {**asked, "engine": "plain", "edits": [["block", 2, 0]]})
        yield f"a certificate of a map {name}", place.post("run", {**asked, "command": "prove"}, more="Connection: close\r\n"), 200
        for engine in ("jps", "plus"):
            yield f"a query on a map {name} by {engine}", place.post("query", {**asked, "engine": engine}), 200
        said = place.get(f"{place.home}scen?page={page}").partition(b"\r\n\r\n")[2]
        if not said.startswith(b"version 1"):
            yield f"a scenario {name}", said, 200


def alike(place):
    """What is a map for the program is one for the page, and nothing else."""
    page, text = place.open(), b"type octile\nheight 1\nwidth 2\nmap\n..\n"
    ways = [(text, True), (text.replace(b"1", b"1\r\r"), False), (text.replace(b"1", b"\f1"), False)]
    for text, is_map in (*ways, (text[:-1] + b"\r", True), (text.replace(b" ", b"\t "), True)):
        told = place.post(f"take?page={page}&kind=map&name=x", text).partition(b"\r\n\r\n")[2]
        if ("width" in json.loads(told)) != is_map:
            yield f"the map {text}: {told}"


def changing(place):
    """Other maps, edits and queries at once: each is answered, or told that the map is another one."""
    page, told, until = place.open(), [], time.monotonic() + SECONDS_OF_CHANGING
    asked = {"page": page, "rule": "none"}

    def one(number):
        by_chance = random.Random(number)
        below = lambda: by_chance.randrange(99)
        while time.monotonic() < until:
            words = {**asked, "engine": by_chance.choice(("plain", "jps", "block", "plus"))}
            if (kind := below()) < 15:
                answer = place.post("make", {"page": page, "seed": kind, "w": 99, "h": 1 + below(), "p": 20})
            elif kind < 60:
                answer = place.post("edit", {**words, "edits": [["block", below(), below()] for _ in range(60)]})
            else:
                words["near"] = kind < 80
                answer = place.post("query", {**words, **{it: below() for it in ("sx", "sy", "gx", "gy")}})
            told.append(status(answer))

    at_once([lambda number=number: one(number) for number in range(6)])
    if not set(told) <= {200, 422} or 200 not in told:
        yield f"maps, edits and queries at once: { {it: told.count(it) for it in set(told)} }"


def no_map(place):
    """Where the program refuses the map nothing can be asked of it."""
    page = place.open()
    asked = {"page": page, "engine": "plain", "rule": "none", "sx": 0, "sy": 0, "gx": 0, "gy": 0}
    yield "a query without a map", place.post("query", asked), 404
    yield "an edit without a map", place.post("edit", {**asked, "edits": [["free", 0, 0]]}), 404
    yield "cells without a map", place.get(f"{place.home}cells?page={page}"), 404
    yield "a saved map without a map", place.get(f"{place.home}saved-map?page={page}"), 404
    yield "a saved script without a map", place.get(f"{place.home}saved-script?page={page}"), 404


def heads(place):
    """A head has at most 16 KB."""
    yield "a head of 15 KB", place.get(place.home, more=f"X: {'x' * 15000}\r\n"), 200
    yield "a head of 17 KB", place.get(place.home, more=f"X: {'x' * 17000}\r\n"), 431
    yield "a head of 90 lines of 200 bytes", place.get(place.home, more=f"X: {'x' * 195}\r\n" * 90), 431
    yield "a first line of 17 KB", place.get(f"{place.home}{'x' * 17000}"), None


def dripping(place):
    """Strangers that send a byte now and then keep nobody out, and are closed in time."""
    with contextlib.ExitStack() as stack:
        connect = lambda: stack.enter_context(socket.create_connection(("127.0.0.1", place.port)))
        held = [connect() for _ in range(STRANGERS)]
        begun, slowest = time.monotonic(), 0
        while time.monotonic() - begun < SECONDS_OF_DRIPPING:
            for it in held:
                with contextlib.suppress(OSError):
                    it.sendall(b"G")
            asked = time.monotonic()
            if status(place.get(place.home)) != 200:
                yield f"{STRANGERS} connections that drip keep the page out"
                return
            slowest = max(slowest, time.monotonic() - asked)
            time.sleep(0.2)
        if slowest > SECONDS_OF_DRIPPING / 2:
            yield f"{STRANGERS} connections that drip keep the page waiting for {slowest:.1f} s"
        if open_ones := [it for it in held if not is_closed(it)]:
            yield f"{len(open_ones)} connections that drip are open after {SECONDS_OF_DRIPPING} s"


def is_closed(connection):
    connection.settimeout(1)
    try:
        while connection.recv(65536):
            pass
    except TimeoutError:
        return False
    except OSError:
        pass
    return True


def try_one_map(program, top, room):
    place = Place(program, top, room)
    try:
        for part in (strangers, words, names, heads):
            yield from wrong(part(place))
        for part in (alike, many, gone, given_up, together, changing, dripping):
            yield from part(place)
        if os.path.exists("/tmp/x"):
            yield "a shell was called"
    finally:
        yield from place.end()


def try_words(program, top, room):
    """Known words alone come to the program: `live` where states are wanted, else `serve`; a script has no `near`."""
    with tempfile.TemporaryDirectory() as spying:
        spy, sent = pathlib.Path(f"{spying}/spy"), pathlib.Path(f"{spying}/sent")
        spy.write_text(
            f'#!/bin/sh\nkeep() {{ printf "%s\\n" "$*" >>{sent}; }}\nkeep "$*"\ncase $1 in\n'
            f'serve | live) while IFS= read -r line; do keep "$line"; echo "$line"; done | {program} "$@" ;;\n'
            f'*) exec {program} "$@" ;;\nesac\n'
        )
        spy.chmod(0o755)
        place = Place(spy, top, room)
        try:
            yield from wrong(words(place))
            page = place.open()
            asked = {"page": page, "engine": "jps", "rule": "one", "sx": 5, "sy": 5, "gx": 24, "gy": 3}
            before = len(sent.read_text().splitlines())
            for told in ({"show": "trace"}, {"near": True}, {"states": "cell", "near": "near 1 1 2 2\nfree 1 1"}):
                answer = place.post("query", {**asked, **told, "keep": True})
                yield from wrong([(f"a query with {told}", answer, 200)])
            yield from wrong([("an edit", place.post("edit", {**asked, "edits": [["free", 24, 3, 83]]}), 200)])
            lines, settings = sent.read_text().splitlines(), "maps/game49.map engine=jps rule=one"
            wanted = [f"live {settings} show=trace", "query 5 5 24 3", f"serve {settings}", "near 5 5 24 3"]
            wanted += [f"serve {settings} states=cell", "query 5 5 24 3", "free 24 3"]
            if lines[before:] != wanted:
                yield f"the program is sent {lines[before:]} in place of {wanted}"
            if odd := [it for it in lines if not KNOWN.fullmatch(it)]:
                yield f"the program is sent {odd}"
            script = place.get(f"{place.home}saved-script?page={page}").partition(b"\r\n\r\n")[2]
            if script != b"query 5 5 24 3\nquery 5 5 24 3\nfree 24 3\n":
                yield f"a script: {script!r}"
        finally:
            yield from place.end()


def try_signals(program, top, room):
    """Ctrl-C, and again while the server ends: nothing is left."""
    for seconds in (0.0, 0.01, 0.05, 0.2):
        place = Place(program, top, room)
        page = place.open()
        ends = {"sx": 5, "sy": 5, "gx": 9, "gy": 9}
        for engine in ("plain", "jps", "block", "plus"):
            place.post("query", {"page": page, "engine": engine, "rule": "none", **ends})
        yield from place.end(again=[seconds] * 3)


def try_end(program, top, room):
    """Whoever waits for an answer when the server ends is told of no program that failed."""
    place, told = Place(program, top, room), []
    body = long_query(place, 1999)
    waiting = threading.Thread(target=lambda: told.append(place.post("query", body)))
    waiting.start()
    time.sleep(0.2)
    yield from place.end()
    waiting.join()
    # (The answer may have come before the end.)
    if told != [b""] and not told[0].startswith(b"HTTP/1.1 200 "):
        yield f"what is told when the server ends: {told[0][:200]!r}"


def try_no_map(program, top, room):
    pathlib.Path(f"{room}/said.map").write_text("type octile\nheight 2\nwidth 3\nmap\n...\n.x.\n", encoding="ascii")
    place = Place(program, top, room, f"{room}/said.map")
    try:
        yield from wrong(no_map(place))
    finally:
        os.remove(f"{room}/said.map")
        yield from place.end()


def try_pipe(program, top, room):
    """A pipe that takes the place of the map is not waited for, by who asks for it or by whoever comes later."""
    path = f"{room}/said.map"
    pathlib.Path(path).write_text("type octile\nheight 1\nwidth 1\nmap\n.\n", encoding="ascii")
    place = Place(program, top, room, path)
    try:
        os.remove(path)
        os.mkfifo(path)
        yield from wrong([("a page of a pipe", place.send(open_request(place), 5), 200)])
    except TimeoutError:
        yield "a pipe in place of the map is waited for"
        place.server.kill()
    finally:
        os.remove(path)
        yield from place.end()


def open_request(place):
    return f"POST {place.home}open HTTP/1.1\r\nHost: {place.host}\r\nContent-Length: 2\r\n\r\n{{}}".encode()


def wrong(answers):
    """Those answers that have another status than the wanted one."""
    for what, answer, wanted in answers:
        if status(answer) != wanted:
            yield f"{what}: {answer[:80]!r} in place of {wanted}"


def try_all(program, top, more):
    """Each fault in words, of these parts and of more."""
    parts = [try_one_map, try_words, try_signals, try_end, try_no_map, try_pipe]
    for part in (*parts, *more, *site_attacks.PARTS):
        with tempfile.TemporaryDirectory() as room:
            yield from part(program, top, room)
