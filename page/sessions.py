"""What one open page has on this side: its map, its edits, its programs and its files."""

import contextlib
import os
import shutil
import tempfile
import threading
import time

import maps
from programs import Fault, Gone, Live

# A page that is closed is known by its stream; one that never opened the stream, or lost it, is given this long: a busy
# browser takes its time.
SECONDS_WITHOUT_STREAM = 60
MOST_EDITS = 4_000_000
MOST_CERTIFICATE = 1 << 28
# Tables of `plus` are mended at each edit; behind this many a process that makes them anew is quicker.
MOST_MENDED = 40


def most_lives(cells):
    """How many processes of `serve` and `live` a page keeps: each has a map and a search in memory."""
    if cells > 1 << 22:
        return 2
    return 4 if cells > 1 << 20 else 8


@contextlib.contextmanager
def whole(made, path):
    """Gives what is made this name once it is whole; where that fails it goes."""
    try:
        yield
        os.replace(made, path)
    except BaseException:
        with contextlib.suppress(OSError):
            os.unlink(made)
        raise


class Session:
    """One page: `map_path` is what the program is called on, as long as no edit was made."""

    def __init__(self, program, map_path, scen_path=None, walks_path=None):
        self.program = program
        self.folder = tempfile.mkdtemp(prefix="jps-page-")
        self.scen_path = scen_path
        self.walks_path = walks_path
        self.map_words = self.scen_words = None  # the words of the program that made them, where they were made
        self.lock = threading.Lock()
        self.editing = threading.Lock()  # who changes the map, by edits or by another map; never taken within `lock`
        self.is_over = False  # no program is started any more
        self.streams = 0
        self.seen = time.monotonic()
        self.lives = {}
        self.take_map(map_path)

    def take_map(self, path):
        """Begins with this map. Its cells are None where the program has to say what is wrong with it."""
        try:
            read = maps.read(path)
        except (maps.NoMap, OSError):
            read = None
        with self.editing:
            with self.lock:
                self.map = read
                self.map_path = path
                self.edits = []  # (verb, x, y), of those that the program answered with `ok`
                self.journal = []  # what was done, as the lines of a script
                self.written = 0  # how many of the edits the file of the edited map has
            self.end_lives()

    def fault_of_map(self, connection):
        """What the program says of its map."""
        said = []
        status, line = self.program.call(["query", self.map_path, "0", "0", "0", "0"], connection, said.append)
        return status, line or b"".join(said).decode(errors="replace").strip()

    # The file that single calls of the program are given

    def file(self, name):
        return os.path.join(self.folder, name)

    @contextlib.contextmanager
    def made(self, name):
        """A file to be written, which takes this name as a whole. (None is made while the folder is taken away.)"""
        path = self.file(f"{name}.{threading.get_ident()}")
        with self.lock:
            if not self.is_over:
                os.makedirs(os.path.dirname(path), exist_ok=True)
            file = open(path, "wb")
        with whole(path, self.file(name)), file:
            yield file

    def edited_path(self):
        """The file of the map as it now is, its own or one with the edits in it."""
        return self.edited()[0]

    def edited(self):
        """The same, how many edits that has, and the map."""
        with self.lock:
            if not self.edits:
                return self.map_path, 0, self.map
            path = self.file("edited.map")
            if self.written != len(self.edits):
                with whole(path + ".new", path), open(path + ".new", "wb") as file:
                    file.write(self.map.text())  # a program that reads the one before keeps it
                self.written = len(self.edits)
            return path, self.written, self.map

    def script(self):
        return "".join(line + "\n" for line in self.journal).encode()

    # Queries and edits

    @contextlib.contextmanager
    def live(self, settings):
        """A process for these settings, the one that is there or a new one; nobody else asks it meanwhile."""
        asked = self.map
        while True:
            live = self.taken(tuple(settings))
            try:
                with live.lock:
                    # Whoever had it before may have gone away in the midst of an answer, and the process with him.
                    if live.is_usable():
                        yield live
                        return
            except Fault:
                self.look_at_map(asked)  # a process ends with its map
                raise
            finally:
                self.let_go(live)
            self.look_at_map(asked)

    def look_at_map(self, asked):
        if self.map is not asked:
            raise Fault(0, "the page has another map now") from None

    def let_go(self, live):
        with self.lock:
            live.users -= 1
            is_left = live.users == 0 and live not in self.lives.values()
        if is_left:
            live.end()

    def taken(self, key):
        with self.lock:
            live = self.lives.pop(key, None)
            late = live and len(self.edits) - live.edits > MOST_MENDED and "engine=plus" in key
            if live and live.is_usable() and (live.users or not late):
                self.lives[key] = live  # the last one in the order is the one that was used last
                live.users += 1
                return live
            is_left = live and live.users == 0  # else who asks it ends it
        if is_left:
            live.end()
        path, known, read = self.edited()
        live = Live(self.program, [path, *key])
        live.edits = known
        with self.lock:
            # Another request may have been quicker, or have brought another map.
            there = self.lives.setdefault(key, live) if self.map is read and not self.is_over else None
            if there:
                there.users += 1
            self.end_idle(len(self.lives) - most_lives(len(read.cells)))
        if there is not live:
            live.end()
        if self.is_over:
            raise Gone
        if there is None:
            raise Fault(0, "the page has another map now")
        return there

    def end_idle(self, count):
        """Ends so many processes, those that were used longest ago; never one that is at work."""
        for key, live in list(self.lives.items()):
            if count > 0 and live.users == 0:
                del self.lives[key]
                live.end()
                count -= 1

    def ask(self, settings, line, connection, keep):
        """The answer to one query on the map as it now is, and how long it took."""
        with self.live(settings) as live:
            self.catch_up(live, connection)
            (answer,), seconds = live.ask([line], connection)
        if keep:
            self.journal.append(line)
        return answer, seconds

    def catch_up(self, live, connection):
        """Tells a process the edits that it does not know yet: those behind as many as it was told."""
        behind = self.edits[live.edits :]
        if behind:
            live.ask(["%s %d %d" % it for it in behind], connection)
            live.edits += len(behind)

    def edit(self, settings, wanted, connection):
        """Works edits (verb, x, y, byte) by the process of these settings; returns its answers, one for each. One call
        after the other, so that each process is told all edits in one order."""
        if len(self.edits) + len(wanted) > MOST_EDITS:
            raise Fault(0, f"a page takes {MOST_EDITS} edits: save the map, and begin with that one")
        if len(wanted) > MOST_MENDED:
            settings = ["engine=block" if it == "engine=plus" else it for it in settings]
        with self.editing, self.live(settings) as live:
            self.catch_up(live, connection)
            lines = ["%s %d %d" % it[:3] for it in wanted]
            answers, _ = live.ask(lines, connection)
            with self.lock:
                for (verb, x, y, byte), line, answer in zip(wanted, lines, answers):
                    self.journal.append(line)
                    if answer == b"ok":
                        self.edits.append((verb, x, y))
                        self.map.edit(verb, x, y, byte)
                        live.edits += 1
        return answers

    # Single calls

    def call(self, words, connection, take):
        return self.program.call(words, connection, take)

    def prove(self, words, connection, take):
        """Calls `prove`, and keeps what it prints for `check`."""
        with self.made("walk.cert") as file:

            def take_both(piece):
                file.write(piece)
                take(piece)

            return self.program.call(words, connection, take_both, MOST_CERTIFICATE)

    def write(self, words, name, connection):
        """Calls the program and keeps what it prints in a file of its own; returns the path."""
        with self.made(name) as file:
            status, line = self.program.call(words, connection, file.write)
            if status > 1:
                raise Fault(status, line)
        return self.file(name)

    # The end

    def end_lives(self):
        with self.lock:
            lives, self.lives = self.lives, {}
        for live in lives.values():
            live.end()

    def is_left(self):
        return self.streams == 0 and time.monotonic() - self.seen > SECONDS_WITHOUT_STREAM

    def end(self):
        with self.lock:
            self.is_over = True
        self.end_lives()
        with self.lock:
            shutil.rmtree(self.folder, ignore_errors=True)
