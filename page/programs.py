"""The programs behind the page: `jps serve` and `jps live`, asked line by line, and single calls of `jps`.

Words go to the program as a list, never through a shell. Each wait for a program also looks at the browser's
connection: where that is closed nobody waits for the answer any more, and the program is ended.
"""

import contextlib
import os
import pathlib
import select
import signal
import socket
import subprocess
import threading
import time

# Edits go to a process in pieces whose answers fit into a pipe.
MOST_LINES_AT_ONCE = 2000
# `live` reads at most 2^26 bytes in all; a process that has read nearly as many is replaced.
MOST_SENT = 60_000_000
# A line of this many bytes tells some ten million states.
MOST_LINE = 1 << 28
PIECE = 1 << 20
SECONDS_TO_END = 2


class Fault(Exception):
    """A program's status and its line on standard error."""

    def __init__(self, status, line):
        super().__init__(line)
        self.status = status
        self.line = line


class Gone(Exception):
    """The browser has closed the connection that waits for the answer."""


class TooMuch(Exception):
    """The program printed more than the page takes."""


def is_closed(connection):
    """Whether the other side has closed the connection."""
    try:
        # A socket with a limit of time would wait in `recv`, whatever its flags.
        return bool(select.select([connection], [], [], 0)[0]) and connection.recv(1, socket.MSG_PEEK) == b""
    except (OSError, ValueError):
        return True


def wait_for(pipe, connection):
    """Waits until there is something to read in the pipe, or raises `Gone` where the connection is closed first."""
    watched = [pipe, connection]
    while True:
        ready, _, _ = select.select(watched, [], [], 1.0)
        if pipe in ready:
            return
        if connection in ready:
            if is_closed(connection):
                raise Gone
            # Something else was sent before its time: it waits for its turn, and is not looked at again.
            watched = [pipe]


def end(process):
    """Ends a process. (Its pipes are closed with the last thread that has them: what is read by a number that was
    closed meanwhile may be another's.)"""
    if process.poll() is None:
        process.terminate()
        try:
            process.wait(SECONDS_TO_END)
        except subprocess.TimeoutExpired:
            process.kill()
            process.wait()


def end_all():
    """Ends all that this process has started, also where a signal came before it was noted."""
    for it in pathlib.Path("/proc/self/task").glob("*/children"):
        for child in it.read_text().split():
            with contextlib.suppress(ProcessLookupError):
                os.kill(int(child), signal.SIGKILL)


def fault_of(process):
    """What a process that printed no more has to say: its status and its line on standard error."""
    status = process.wait()
    said = process.stderr.read().decode(errors="replace").strip().splitlines()
    line = said[-1] if said else ""
    if status < 0:
        line = f"the program was ended by signal {-status}"
    return status, line


class Program:
    """The program `jps`, by its path, and the processes that were started of it."""

    def __init__(self, path):
        self.path = path
        self.running = set()
        self.is_over = False  # nothing more is started
        self.lock = threading.Lock()
        # Where the launcher has to build the program first, it says on standard error how long that takes.
        subprocess.run([path, "make", "1", "1", "1", "0"], stdout=subprocess.DEVNULL, check=True)
        self.version = self.text("--version").strip()
        if "serve MAP" not in self.text("--help"):
            raise OSError(f"{path} has no serve: a program of version 1.3.0 or later is wanted")

    def text(self, word):
        call = [self.path, word]
        return subprocess.run(call, stdin=subprocess.DEVNULL, stdout=subprocess.PIPE, check=True).stdout.decode()

    def start(self, words, stdin=subprocess.DEVNULL):
        """Starts the program with these words."""
        with self.lock:
            if self.is_over:
                raise Gone
            process = subprocess.Popen(
                [self.path, *words], stdin=stdin, stdout=subprocess.PIPE, stderr=subprocess.PIPE, bufsize=0
            )
            self.running.add(process)
        return process

    def finish(self, process):
        end(process)
        with self.lock:
            self.running.discard(process)

    def finish_all(self):
        with self.lock:
            self.is_over = True
            left = list(self.running)
        for process in left:
            self.finish(process)

    def call(self, words, connection, take, most=MOST_LINE):
        """Runs one call and hands each piece of its output to `take`; returns its status and its line of a fault."""
        process = self.start(words)
        size = 0
        try:
            while True:
                wait_for(process.stdout, connection)
                piece = os.read(process.stdout.fileno(), PIECE)
                if not piece:
                    return fault_of(process)
                size += len(piece)
                if size > most:
                    raise TooMuch
                take(piece)
        finally:
            self.finish(process)


class Live:
    """One process of `jps serve`, or of `jps live` where states are wanted; `serve` tells none. It is asked one line,
    or one piece of edits, at a time."""

    def __init__(self, program, words):
        self.program = program
        command = "live" if "show=trace" in words else "serve"
        self.process = program.start([command, *words], stdin=subprocess.PIPE)
        self.lock = threading.Lock()
        self.users = 0  # who asks it, or is about to
        self.edits = 0  # how many of the page's edits it knows
        self.sent = 0
        self.kept = b""  # what was read behind the last whole line

    def is_usable(self):
        return self.process.poll() is None and self.sent < MOST_SENT

    def end(self):
        self.program.finish(self.process)

    def ask(self, lines, connection):
        """Sends these lines; returns the answers and how many seconds they took. Ends the process on any fault."""
        answers = []
        begun = time.monotonic()
        try:
            for at in range(0, len(lines), MOST_LINES_AT_ONCE):
                part = lines[at : at + MOST_LINES_AT_ONCE]
                self.send(b"".join(line.encode() + b"\n" for line in part))
                answers += self.read(len(part), connection)
        except BaseException:
            self.end()
            raise
        return answers, time.monotonic() - begun

    def send(self, data):
        self.sent += len(data)
        try:
            while data:
                data = data[os.write(self.process.stdin.fileno(), data) :]
        except BrokenPipeError:
            raise Fault(*fault_of(self.process)) from None

    def read(self, count, connection):
        """The next lines of the program."""
        answers = []
        pieces, size = [self.kept], len(self.kept)
        while len(answers) < count:
            wait_for(self.process.stdout, connection)
            piece = os.read(self.process.stdout.fileno(), PIECE)
            if not piece:
                raise Fault(*fault_of(self.process))
            size += len(piece)
            if size > MOST_LINE:
                raise TooMuch
            pieces.append(piece)
            if b"\n" in piece:
                *whole, rest = b"".join(pieces).split(b"\n")
                answers += whole
                pieces, size = [rest], len(rest)
        self.kept = pieces[0]
        return answers
