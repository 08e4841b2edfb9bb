#!/usr/bin/env python3
"""Serves one page on 127.0.0.1 that shows what `jps` printed.

    jps-page MAP [SCEN [WALKS]] [--program PATH] [--port N]
    jps-page --site FOLDER      writes the page as files that any web server serves (site_files.py)

The page's address has a secret in it, and is answered only where the request's Host is its own. No file is served
but the page's own ones and those that were named; words go to the program as a list.
"""

import signal

if signal.getsignal(signal.SIGINT) is signal.default_int_handler:
    signal.signal(signal.SIGINT, signal.SIG_DFL)  # until there is something to end: it has to say nothing
signal.pthread_sigmask(signal.SIG_UNBLOCK, {signal.SIGINT})

import argparse
import hmac
import http.server
import json
import os
import pathlib
import re
import secrets
import subprocess
import sys
import threading
import time
import urllib.parse

sys.dont_write_bytecode = True  # the folder stays as it is
sys.path.insert(0, str(pathlib.Path(__file__).resolve().parent))
import connections  # noqa: E402
from connections import LOST, Refused  # noqa: E402
from programs import Fault, Gone, Program, TooMuch, end_all, is_closed  # noqa: E402
from sessions import Session  # noqa: E402
import given  # noqa: E402
import maps  # noqa: E402
import site_files  # noqa: E402

HERE = pathlib.Path(__file__).resolve().parent
KINDS = {".html": "text/html", ".css": "text/css", ".js": "text/javascript", ".svg": "image/svg+xml"}
ENGINES = ("plain", "jps", "block", "plus")
RULES = ("none", "one", "both")
VERBS = ("free", "flood", "block")
MOST_BODY = 1 << 20
MOST_PAGES = 5  # a browser keeps six connections to one address, and each open page holds one of them
MOST_SIDE = 4096
MOST_NUMBER = 999_999_999
POLICY = (
    "default-src 'none'; script-src 'self'; style-src 'self'; connect-src 'self'; img-src 'self' blob: data:; "
    "base-uri 'none'; form-action 'none'; frame-ancestors 'none'"
)


class Request:
    """The words of a request, each looked at before it is used."""

    def __init__(self, words):
        if not isinstance(words, dict):
            raise Refused(400, "the request is no object")
        self.words = words

    def number(self, name, least=0, most=MOST_NUMBER):
        value = self.words.get(name)
        if type(value) is not int or not least <= value <= most:
            raise Refused(400, f"{name} is no number from {least} to {most}")
        return value

    def choice(self, name, choices):
        value = self.words.get(name)
        if value not in choices:
            raise Refused(400, f"{name} is none of {', '.join(choices)}")
        return value

    def settings(self, shows=()):
        """The settings that are named, as words of the program."""
        words = ["engine=" + self.choice("engine", ENGINES), "rule=" + self.choice("rule", RULES)]
        if self.words.get("show") is not None:
            words.append("show=" + self.choice("show", shows))
        if self.words.get("states") is not None:
            words.append("states=" + self.choice("states", ("arrival", "cell")))
        return words

    def rule(self):
        return ["rule=" + self.choice("rule", RULES)]

    def ends(self):
        return [str(self.number(name)) for name in ("sx", "sy", "gx", "gy")]

    def edits(self):
        """The edits as (verb, x, y, byte); the byte is what a cell had before, where an edit is undone."""
        told = self.words.get("edits")
        if not isinstance(told, list) or len(told) > 20_000:
            raise Refused(400, "edits is no list of at most 20000")
        edits = []
        for it in told:
            if not isinstance(it, list) or len(it) not in (3, 4) or it[0] not in VERBS:
                raise Refused(400, "an edit has another form")
            if any(type(part) is not int or not 0 <= part <= MOST_NUMBER for part in it[1:]):
                raise Refused(400, "an edit has no numbers")
            if len(it) == 4 and it[3] > 255:
                raise Refused(400, "an edit's byte is none")
            edits.append((it[0], it[1], it[2], it[3] if len(it) == 4 else None))
        return edits


class Handler(http.server.BaseHTTPRequestHandler):
    """Answers one connection."""

    protocol_version = "HTTP/1.1"
    server_version = "jps-page"
    sys_version = ""
    timeout = connections.SECONDS_OF_SILENCE
    disable_nagle_algorithm = True

    def log_message(self, *_):
        pass

    def setup(self):
        super().setup()
        self.rfile.close()
        self.rfile = connections.Incoming(connections.Timed(self.connection))

    def handle_one_request(self):
        self.rfile.begin(self.server.seconds_for(self.connection))
        super().handle_one_request()

    # What is let in

    def path_within(self):
        """The path behind the secret, and the words behind `?`."""
        if self.headers.get_all("Host") != [self.server.own_host]:
            raise Refused(421, "another Host")
        origin = self.headers.get("Origin")
        if origin not in (None, "http://" + self.server.own_host):
            raise Refused(403, "another Origin")
        path, _, words = self.path.partition("?")
        parts = path.split("/")
        if len(parts) != 3 or not hmac.compare_digest(parts[1].encode(), self.server.secret.encode()):
            raise Refused(404, "no such page")
        self.server.let_in(self.connection)
        return parts[2], urllib.parse.parse_qs(words)

    def body(self):
        length = self.headers.get("Content-Length", "")
        if self.headers.get("Transfer-Encoding") or not re.fullmatch("[0-9]{1,12}", length):
            raise Refused(411, "the length is not told")
        if int(length) > MOST_BODY:
            raise Refused(413, "the request is too long")
        try:
            return Request(json.loads(self.rfile.read(int(length))))
        except (ValueError, RecursionError):
            raise Refused(400, "the request is no JSON") from None

    def session(self, key):
        session = self.server.sessions.get(key) if isinstance(key, str) else None
        if session is None:
            raise Refused(410, "this page is over; load it again")
        session.seen = time.monotonic()
        return session

    def session_with_map(self, key):
        session = self.session(key)
        if session.map is None:
            raise Refused(404, "there is no map")
        return session

    # How it is answered

    def head(self, status, kind, length=None, name=None):
        self.send_response(status)
        self.send_header("Content-Type", kind)
        self.send_header("Cache-Control", "no-store")
        self.send_header("Content-Security-Policy", POLICY)
        self.send_header("Cross-Origin-Resource-Policy", "same-origin")
        self.send_header("Referrer-Policy", "no-referrer")
        self.send_header("X-Content-Type-Options", "nosniff")
        if name:
            self.send_header("Content-Disposition", f'attachment; filename="{name}"')
        if length is None:
            self.send_header("Transfer-Encoding", "chunked")
        else:
            self.send_header("Content-Length", str(length))

    def answer(self, data, kind="application/octet-stream", status=200, name=None, seconds=None):
        self.head(status, kind, len(data), name)
        if seconds is not None:
            self.send_header("X-Seconds", f"{seconds:.6f}")
        if status >= 400:
            self.send_header("Connection", "close")
        self.end_headers()
        if self.command != "HEAD":
            self.wfile.write(data)

    def tell(self, words, status=200):
        self.answer(json.dumps(words).encode(), "application/json", status)

    def piece(self, data):
        self.wfile.write(b"%x\r\n%b\r\n" % (len(data), data))

    def answer_safely(self, routes):
        """Looks at the request, answers it, and tells in words where that fails."""
        try:
            name, words = self.path_within()
            if name not in routes:
                raise Refused(404, "no such page")
            routes[name](self, words)
        except Refused as refused:
            self.close_connection = True
            self.tell({"refused": refused.words}, refused.status)
        except Fault as fault:
            if self.server.ending.is_set():  # it has ended its programs
                self.close_connection = True
            else:
                self.tell({"fault": fault.line, "status": fault.status}, 422)
        except TooMuch:
            self.tell({"fault": "", "much": True}, 422)
        except (Gone, *LOST):
            self.close_connection = True
        except OSError as fault:  # of a file, as on a full disk, or of a program that cannot be started
            self.tell({"fault": f"jps-page: {fault.strerror}", "status": -1}, 422)

    def do_GET(self):
        self.answer_safely(GETS)

    def do_POST(self):
        self.answer_safely(POSTS)

    # Pages and files

    def own_file(self, name):
        self.answer((HERE / name).read_bytes(), KINDS[os.path.splitext(name)[1]] + "; charset=utf-8")

    def alive(self, words):
        """A stream that stays open as long as the page does; where it ends the page's programs are ended."""
        key = words.get("page", [""])[0]
        session = self.session(key)
        self.close_connection = True
        session.streams += 1
        try:
            self.head(200, "text/event-stream")
            self.end_headers()
            while not is_closed(self.connection) and key in self.server.sessions and not self.server.ending.is_set():
                self.piece(b": still here\n\n")
                self.server.ending.wait(1.0)
            self.wfile.write(b"0\r\n\r\n")
        finally:
            session.streams -= 1
            session.seen = time.monotonic()
            if session.streams == 0:
                session.end_lives()

    def cells(self, words):
        session = self.session_with_map(words.get("page", [""])[0])
        self.answer(bytes(session.map.cells))

    def named_file(self, words, name):
        session = self.session(words.get("page", [""])[0])
        path = session.scen_path if name == "scen" else session.walks_path
        if path is None:
            raise Refused(404, "no such file was named")
        try:
            data = maps.read_file(path, 1 << 28)
        except OSError:
            raise Fault(4, "jps: read") from None
        self.answer(data)

    def saved(self, words, name):
        session = self.session_with_map(words.get("page", [""])[0])
        data = session.map.text() if name == "map" else session.script()
        self.answer(data, name="edited.map" if name == "map" else "edited.script")

    # What the program is asked

    def described(self, session, key):
        """What a page is told of its map; a fault where the program refuses it."""
        told = {"page": key, "map": session.map_path, "scen": session.scen_path, "walks": session.walks_path}
        told.update(version=self.server.program.version, program=self.server.program.path)
        told.update(made=session.map_words, madeScen=session.scen_words)
        if session.map is None:
            told["status"], told["fault"] = session.fault_of_map(self.connection)
        else:
            told.update(width=session.map.width, height=session.map.height)
        self.tell(told)

    def open(self, _):
        self.body()
        key, session = self.server.new_session()
        self.described(session, key)

    def query(self, _):
        request = self.body()
        session = self.session_with_map(request.words.get("page"))
        is_near = request.words.get("near") is True
        settings = request.settings(() if is_near else ("trace",))
        line = " ".join(["near" if is_near else "query", *request.ends()])
        is_kept = request.words.get("keep") is True and not is_near  # a script has no `near`
        answer, seconds = session.ask(settings, line, self.connection, is_kept)
        self.answer(answer, "text/plain", seconds=seconds)

    def edit(self, _):
        request = self.body()
        session = self.session_with_map(request.words.get("page"))
        settings = request.settings(("trace",))
        answers = session.edit(settings, request.edits(), self.connection)
        self.tell({"answers": b" ".join(answers).decode(), "edits": len(session.edits)})

    def words_of(self, request, session):
        """The words of a single call, by its name."""
        name = request.choice("command", ("scen", "judge", "prove", "check", "draw"))
        path = session.edited_path()
        if name == "scen":
            return name, [name, path, session.scen_path, *request.settings(("taken",))]
        if name == "judge":
            return name, [name, path, session.scen_path, session.walks_path, *request.rule()]
        if name == "draw":
            settings = request.settings(("trace",))
            return name, [name, path, *request.ends(), *settings]
        if name == "check":
            return name, [name, path, session.file("walk.cert"), *request.rule()]
        return name, [name, path, *request.ends(), *request.rule()]

    def run(self, _):
        """The output of a call, piece by piece; its last line is `= STATUS` and the line of a fault."""
        request = self.body()
        session = self.session(request.words.get("page"))
        name, words = self.words_of(request, session)
        if None in words:
            raise Refused(404, "no such file was named")
        self.head(200, "text/plain")
        self.end_headers()
        try:
            caller = session.prove if name == "prove" else session.call
            status, line = caller(words, self.connection, self.piece)
        except TooMuch:
            status, line = -1, "more was printed than a page takes"
        except LOST:
            raise
        except OSError as fault:
            status, line = -2, f"jps-page: {fault.strerror}"
        self.piece(f"= {status} {line}\n".encode())
        self.wfile.write(b"0\r\n\r\n")

    def make(self, _):
        request = self.body()
        session = self.session(request.words.get("page"))
        seed = str(request.number("seed"))
        sides = [str(request.number(name, 1, MOST_SIDE)) for name in ("w", "h")]
        words = ["make", seed, *sides, str(request.number("p", 0, 100))]
        path = session.write(words, "-".join(words) + ".map", self.connection)
        session.take_map(path)
        session.map_words = words
        session.scen_path = session.walks_path = session.scen_words = None
        self.described(session, request.words["page"])

    def problems(self, _):
        request = self.body()
        session = self.session(request.words.get("page"))
        path = session.edited_path()
        numbers = [str(request.number("seed")), str(request.number("n", 1, 100_000))]
        words = ["problems", path, *numbers, *request.rule()]
        session.scen_path = session.write(words, "-".join(["problems", *numbers]) + ".scen", self.connection)
        session.scen_words = ["problems", *numbers, *request.rule()]
        session.walks_path = None
        self.described(session, request.words["page"])


def of_file(name):
    return lambda handler, words: handler.own_file(name)


OWN = ["style.css", "jump.css", "icon.svg"] + sorted(it.name for it in HERE.glob("*.js"))
GETS = {name: of_file(name) for name in OWN}
GETS.update({
    "": of_file("index.html"),
    "jump.html": of_file("jump.html"),
    "alive": Handler.alive,
    "cells": Handler.cells,
    "scen": lambda handler, words: handler.named_file(words, "scen"),
    "walks": lambda handler, words: handler.named_file(words, "walks"),
    "saved-map": lambda handler, words: handler.saved(words, "map"),
    "saved-script": lambda handler, words: handler.saved(words, "script"),
})
POSTS = {
    "open": Handler.open,
    "query": Handler.query,
    "edit": Handler.edit,
    "run": Handler.run,
    "make": Handler.make,
    "problems": Handler.problems,
    "take": given.take,
    "small": given.small,
}


class Server(connections.Server):
    """The open pages, and what each was called with."""

    def __init__(self, port, program, named):
        super().__init__(port, Handler)
        self.program = program
        self.named = named
        self.sessions = {}
        self.lock = threading.Lock()
        self.ending = threading.Event()
        self.sweeper = threading.Thread(target=self.end_left_sessions, daemon=True)
        self.sweeper.start()

    def new_session(self):
        with self.lock:
            if self.ending.is_set():
                raise Gone
            if len(self.sessions) >= MOST_PAGES:
                left = [it for it, session in self.sessions.items() if session.streams == 0]
                if not left:
                    raise Refused(503, "too many pages are open")
                self.sessions.pop(left[0]).end()
            key = secrets.token_urlsafe(12)
            self.sessions[key] = session = Session(self.program, *self.named)
        return key, session

    def end_left_sessions(self):
        while not self.ending.wait(1.0):
            for key, session in list(self.sessions.items()):
                if session.is_left():
                    self.sessions.pop(key, None)
                    session.end()

    def end(self):
        with self.lock:
            self.ending.set()
            left = list(self.sessions.values())
            self.sessions.clear()
        self.program.finish_all()
        for session in left:
            session.end()
        self.sweeper.join()


def arguments():
    parser = argparse.ArgumentParser(prog="jps-page", description="Serves a page that shows what jps printed.")
    parser.add_argument("map", metavar="MAP", nargs="?", help="a map file")
    parser.add_argument("scen", metavar="SCEN", nargs="?", help="a scenario for it")
    parser.add_argument("walks", metavar="WALKS", nargs="?", help="what another program tells of the scenario")
    own = os.environ.get("JPS") or str(HERE.parent / "jps")
    parser.add_argument("--program", metavar="PATH", default=own, help="the program jps (else $JPS, else ./jps)")
    parser.add_argument("--port", metavar="N", type=int, default=0, help="the port (else a free one)")
    parser.add_argument("--site", metavar="FOLDER", help="write the page as files that need no server of their own")
    module = str(HERE.parent / "dist" / "wasm64")
    parser.add_argument("--module", metavar="FOLDER", default=module, help="of a site: where jps.wasm and jps.mjs are")
    told = parser.parse_args()
    if told.map is None and told.site is None:
        parser.error("a map is wanted, or --site FOLDER")
    return told


def main():
    told = arguments()
    for path in filter(None, (told.map, told.scen, told.walks)):
        if not os.path.isfile(path):
            sys.exit(f"jps-page: there is no file {path}")
    site_files.take_signals(signal.default_int_handler)
    try:
        if told.site is not None:
            sys.exit(site_files.write(told.site, told.module, told.map, told.scen))
        program = Program(told.program)
        server = Server(told.port, program, (told.map, told.scen, told.walks))
    except (OSError, OverflowError, subprocess.CalledProcessError) as fault:
        sys.exit(f"jps-page: {fault}")
    except KeyboardInterrupt:
        end_all()
        sys.exit(130)

    # (A signal interrupts nothing, and a second one not the end.)
    signals = []
    for it in site_files.ENDS:
        signal.signal(it, lambda *told: signals.append(told))
    try:
        print(f"http://{server.own_host}/{server.secret}/", flush=True)
        print("Open this address in a browser. Ctrl-C ends the page and its programs.", file=sys.stderr, flush=True)
    except OSError as fault:
        os.dup2(os.open(os.devnull, os.O_WRONLY), 1)  # (what could not be printed is not tried again at the end)
        server.end()
        sys.exit(f"jps-page: the address was not printed: {fault}")
    server.timeout = 0.2
    while not signals:
        server.handle_request()
    server.end()
    for it in site_files.ENDS:
        signal.signal(it, signal.SIG_IGN)


if __name__ == "__main__":
    main()
