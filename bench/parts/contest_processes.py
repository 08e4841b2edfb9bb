"""The processes of a contest: each is ended with all that it started, when its time is over or it prints too much."""

import contextlib
import ctypes
import itertools
import os
import pathlib
import re
import resource
import signal
import subprocess
import tempfile
import threading
import time

MOST_BYTES = 1 << 30                     # of what a program prints
MOST_ERRORS = 1 << 26                    # the same, to standard error
PR_SET_CHILD_SUBREAPER = 36
SECONDS_TO_END = 10


def adopt():
    """Makes processes whose parent has ended children of this one, so that they can be ended too."""
    with contextlib.suppress(OSError, AttributeError):
        ctypes.CDLL(None).prctl(PR_SET_CHILD_SUBREAPER, 1, 0, 0, 0)


def read(path):
    try:
        return path.read_bytes()
    except OSError:                      # the process has ended meanwhile
        return b""


def children(pid):
    """The processes that a process has started, and those that these have."""
    for tasks in pathlib.Path(f"/proc/{pid}/task").glob("*/children"):
        for child in map(int, read(tasks).split()):
            yield child
            yield from children(child)


def is_over(pid):
    return read(pathlib.Path(f"/proc/{pid}/stat")).rpartition(b")")[2][:3] in (b"", b" Z ", b" X ")


def end(child):
    """Ends a process and all that it started, also what has left its group."""
    with contextlib.suppress(ProcessLookupError):
        os.killpg(child.pid, signal.SIGKILL)
    end_all()


def end_all():
    """Ends all that this process has started, also what it has not noted yet."""
    stop = time.monotonic() + SECONDS_TO_END
    while left := [pid for pid in children(os.getpid()) if not is_over(pid)]:
        for pid in left:
            with contextlib.suppress(ProcessLookupError, PermissionError):
                os.kill(pid, signal.SIGKILL)
        if time.monotonic() > stop:
            break
        time.sleep(0.002)


def reap():
    """Takes note of the end of processes that were adopted. (Behind the child's own, which has to be known.)"""
    with contextlib.suppress(ChildProcessError):
        while os.waitpid(-1, os.WNOHANG)[0]:
            pass


def start(words, **ways):
    """A process, or why it cannot be started."""
    try:
        return subprocess.Popen(words, start_new_session=True, **ways), ""
    except (OSError, ValueError) as fault:
        return None, f"cannot be started: {getattr(fault, 'strerror', None) or fault}"


def peak_of(pid):
    """The most bytes of memory that a process has had so far, where the system tells it."""
    found = re.search(rb"VmHWM:\s*(\d+) kB", read(pathlib.Path(f"/proc/{pid}/status")))
    return int(found[1]) * 1024 if found else None


def size_of(file):
    return os.fstat(file.fileno()).st_size


def last_line(errors):
    """The end of what was written to standard error, without what is no letter."""
    errors.seek(max(0, size_of(errors) - (1 << 16)))
    lines = errors.read().decode(errors="replace").strip().splitlines() or [""]
    return "".join(it if it.isprintable() else "?" for it in lines[-1][:120])


def how_it_ended(status, errors):
    """A line on a process that failed: its status or signal, and its last line on standard error."""
    if status == 0:
        return ""
    last = last_line(errors)
    told = f"ended by signal {-status}" if status < 0 else f"ended with status {status}"
    return f"{told}: {last}" if last else told


def too_much(out, errors):
    if out and size_of(out) > MOST_BYTES:
        return "prints more than 2^30 bytes"
    return "prints more than 2^26 bytes to standard error" if size_of(errors) > MOST_ERRORS else ""


class Done:
    """A process that was run to its end: so many lines of output, processor seconds, memory, and how it failed."""

    def __init__(self, words, limit, most=0):
        self.lines, self.seconds, self.peak = [], None, None
        with tempfile.TemporaryFile() as out, tempfile.TemporaryFile() as errors:
            child, self.fault = start(words, stdin=subprocess.DEVNULL, stdout=out, stderr=errors)
            if not child:
                return
            try:
                self.wait(child, limit, out, errors)
            finally:
                end(child)
                reap()
            self.fault = self.fault or too_much(out, errors) or how_it_ended(self.status, errors)
            if size_of(out) <= MOST_BYTES:
                out.seek(0)
                lines = (it.decode(errors="replace") for it in out if it.strip())
                self.lines = list(itertools.islice(lines, most))

    def wait(self, child, limit, out, errors):
        stop, pause, samples = time.monotonic() + limit, 0.001, 0
        while True:
            samples += 1
            self.peak = max(peak_of(child.pid) or 0, self.peak or 0)
            pid, status, usage = os.wait4(child.pid, os.WNOHANG)
            if pid:
                break
            fault = f"no end in {limit:g} s" if time.monotonic() > stop else too_much(out, errors)
            if fault:
                self.fault = self.fault or fault
                end(child)
            time.sleep(pause)
            pause = min(2 * pause, 0.05)
        child.returncode = self.status = os.waitstatus_to_exitcode(status)
        self.seconds = usage.ru_utime + usage.ru_stime
        most = usage.ru_maxrss * 1024    # it counts who started the process too, and is right above that
        if most > 1024 * resource.getrusage(resource.RUSAGE_SELF).ru_maxrss:
            self.peak = most
        elif samples < 5:                # too short to be looked at
            self.peak = None


class Watch(threading.Thread):
    """Ends a process that is asked when its time is over, or it writes too much to standard error; tells which."""

    def __init__(self, child, limit, errors):
        super().__init__(daemon=True)
        self.child, self.limit, self.errors = child, limit, errors
        self.fault, self.over = "", threading.Event()
        self.start()

    def run(self):
        stop = time.monotonic() + self.limit
        while not self.over.wait(max(0.0, min(0.2, stop - time.monotonic()))):
            self.fault = f"no end in {self.limit:g} s" if time.monotonic() >= stop else too_much(None, self.errors)
            if self.fault:
                end(self.child)
                return

    def finish(self):
        self.over.set()
        self.join()
