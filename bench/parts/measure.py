"""How things are measured: processor time of children, counts, peak memory, answers through a pipe."""

import os
import pathlib
import re
import shutil
import subprocess
import tempfile
import time


class Fault(Exception):
    """A program that is measured did not do what it should."""


def pin():
    """Binds this process, and the children that it starts, to one processor; its number."""
    if not hasattr(os, "sched_setaffinity"):
        return None
    processor = max(os.sched_getaffinity(0))                 # the first ones are asked most by the system
    os.sched_setaffinity(0, {processor})
    return processor


def unpin(processors):
    if processors:
        os.sched_setaffinity(0, processors)


def seconds_of(words, keep=None, statuses=(0, 1), stdin=None):
    """Processor time and time by the clock of one call; its output goes to the file `keep`, or nowhere.

    `scen` ends with 1 where a row has no verdict, which is no fault here.
    """
    before = time.perf_counter()
    with open(keep or os.devnull, "wb") as out:
        child = subprocess.Popen(words, stdin=stdin or subprocess.DEVNULL, stdout=out, stderr=subprocess.PIPE)
        fault = child.stderr.read()
        _, status, usage = os.wait4(child.pid, 0)
    clock = time.perf_counter() - before
    child.returncode = os.waitstatus_to_exitcode(status)
    child.stderr.close()
    if child.returncode not in statuses:
        told = fault.decode(errors="replace").strip()[-200:]
        raise Fault(f"`{' '.join(map(str, words))}` ended with {child.returncode}: {told}")
    return usage.ru_utime + usage.ru_stime, clock


def load():
    """The load of the last minute; and the ticks since the start, in all and those that other machines took."""
    told = {"load": round(os.getloadavg()[0], 2), "ticks": 0, "stolen": 0}
    stat = pathlib.Path("/proc/stat")
    if stat.exists():
        ticks = [int(it) for it in stat.read_text().split("\n")[0].split()[1:9]]
        told["ticks"], told["stolen"] = sum(ticks), ticks[7] if len(ticks) > 7 else 0
    return told


def stolen_share(before, after):
    """Which share of the time other machines took in between."""
    return (after["stolen"] - before["stolen"]) / max(1, after["ticks"] - before["ticks"])


# ---------------------------------------------------------------- counts

CALLGRIND = ["valgrind", "--tool=callgrind", "--cache-sim=yes", "--branch-sim=yes", "--callgrind-out-file=/dev/null"]
PERF_EVENTS = ("instructions:u", "branch-misses:u", "cache-misses:u")
PERF = ["perf", "stat", "-x,", "-e", ",".join(PERF_EVENTS)]


def counts_of_perf(text):
    """Instructions, wrong branches and misses of the last cache, as perf tells them; None where it may not count."""
    found = {}
    for line in text.splitlines():
        fields = line.split(",")
        if len(fields) > 2 and fields[0].isdigit():
            found[fields[2]] = int(fields[0])
    if any(event not in found for event in PERF_EVENTS):
        return None
    return dict(zip(("instructions", "wrong branches", "misses"), (found[event] for event in PERF_EVENTS)))


def counts_of_callgrind(text):
    """The same of callgrind, whose caches and guesses are a model; `near misses` are those of the first cache."""
    names = re.search(r"Events\s*: (.*)", text)
    numbers = re.search(r"Collected\s*: (.*)", text)
    if not names or not numbers:
        return None
    found = dict(zip(names[1].split(), map(int, numbers[1].split())))
    return {
        "instructions": found["Ir"],
        "wrong branches": found.get("Bcm", 0) + found.get("Bim", 0),
        "near misses": found.get("D1mr", 0) + found.get("D1mw", 0),
        "misses": found.get("DLmr", 0) + found.get("DLmw", 0),
    }


def counted(counter, words):
    """The counts of one call by `perf` or `callgrind`; None where it cannot count."""
    calm = {name: value for name, value in os.environ.items() if name != "VALGRIND_OPTS"}
    tool, read = (PERF, counts_of_perf) if counter == "perf" else (CALLGRIND, counts_of_callgrind)
    done = subprocess.run([*tool, *words], stdout=subprocess.DEVNULL, stderr=subprocess.PIPE, env=calm, check=False)
    return read(done.stderr.decode(errors="replace"))


def counter():
    """`perf` where it may count, else `callgrind`, else None."""
    for name, tool in (("perf", "perf"), ("callgrind", "valgrind")):
        if shutil.which(tool) and counted(name, ["true"]):
            return name
    return None


# ---------------------------------------------------------------- a pipe

class Pipe:
    """A child that answers a line for each line."""

    def __init__(self, words):
        self.child = subprocess.Popen(words, stdin=subprocess.PIPE, stdout=subprocess.PIPE)

    def ask(self, line):
        self.child.stdin.write(line)
        self.child.stdin.flush()
        answer = self.child.stdout.readline()
        if not answer:
            raise Fault(f"{self.child.args} ended after {line!r}")
        return answer

    def peak(self):
        """The most bytes of memory that the child has had so far, where the system tells it."""
        told = pathlib.Path(f"/proc/{self.child.pid}/status")
        found = re.search(r"VmHWM:\s*(\d+) kB", told.read_text()) if told.exists() else None
        return int(found[1]) * 1024 if found else None

    def close(self):
        self.child.stdin.close()
        self.child.stdout.close()
        if self.child.wait() != 0:
            raise Fault(f"{self.child.args} ended with {self.child.returncode}")


def answer_times(words, questions, before):
    """The seconds that each question takes through a pipe, after those lines, by the first of which the map is read."""
    pipe = Pipe(words)
    for line in before:
        pipe.ask(line)
    times = []
    for question in questions:
        begun = time.perf_counter_ns()
        pipe.ask(question)
        times.append((time.perf_counter_ns() - begun) / 1e9)
    pipe.close()
    return times


def peak_memory(words, question):
    """The peak of a `live` that has answered one question. `ru_maxrss` would count the process that started it too."""
    pipe = Pipe(words)
    pipe.ask(question)
    peak = pipe.peak()
    pipe.close()
    return peak


class Scratch:
    """A folder for files that only a run needs."""

    def __init__(self):
        self.folder = tempfile.TemporaryDirectory(prefix="jps-bench-")

    def path(self, name):
        return pathlib.Path(self.folder.name) / name

    def write(self, name, text):
        path = self.path(name)
        path.write_text(text)
        return path
