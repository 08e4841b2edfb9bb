"""One call of a contest: a program answers a scenario, in one of three forms, and each walk is judged."""

import contextlib
import pathlib
import re
import shutil
import subprocess
import tempfile
import time

import contest_inputs
from contest_processes import MOST_BYTES, Done, Watch, end, how_it_ended, peak_of, reap, start

# So many points at once, as a line may have millions.
POINTS = re.compile(r"(?:[0-9]{1,4},[0-9]{1,4}(?:[ \t]+|$)){1,1000}")
NUMBER = re.compile(r"[0-9]{1,18}")
PREPARED = re.compile(r"prepared ([0-9]{1,18})(?: ([0-9]{1,18}))?\s*$")


class Told:
    """What a program told of a scenario."""

    def __init__(self):
        self.lines = []                  # (walk or None where it cannot be read, nanoseconds, taken states)
        self.fault = ""                  # how it failed, if it did
        self.ready = self.whole = self.peak = self.made_seconds = self.made_bytes = None

    def add(self, line, numbers):
        """Takes a line: a walk, with so many numbers behind it at most."""
        walk, behind = line.strip(), []
        if walk.startswith("walk "):     # what our own program puts before the points
            walk = (walk.split(None, 3) + [""] * 3)[3]
        while len(behind) < numbers and len(parts := walk.rsplit(None, 1)) == 2 and NUMBER.fullmatch(parts[1]):
            walk = parts[0]
            behind.insert(0, int(parts[1]))
        if walk in ("outside", "blocked"):
            walk = "none"
        is_walk = walk == "none" or are_points(walk)
        self.lines.append((walk if is_walk else None, *behind, *[None] * (2 - len(behind))))


def are_points(walk):
    at = 0
    while found := POINTS.match(walk, at):
        at = found.end()
    return 0 < at == len(walk)


# ---------------------------------------------------------------- the three forms

def take_lines(told, lines, numbers):
    for line in lines:
        found = PREPARED.match(line) if numbers and not told.lines else None
        if found:
            told.ready = int(found[1]) / 1e9
            told.made_bytes = int(found[2]) if found[2] else told.made_bytes
        else:
            told.add(line, numbers)


def walks(told, files, words, limit):
    """A process with all entries, and one with the first alone: the time of a further query is the difference."""
    done = Done(files.filled(words), limit, files.most)
    take_lines(told, done.lines, 0)
    told.fault, told.peak, told.whole = done.fault, done.peak, done.seconds
    first = Done(files.filled(words, first=True), limit) if not done.fault else None
    told.ready = first.seconds if first and not first.fault else None


def timed(told, files, words, limit):
    """The program tells its own times."""
    done = Done(files.filled(words), limit, files.most)
    take_lines(told, done.lines, 2)
    told.fault, told.peak, told.whole = done.fault, done.peak, done.seconds
    if not told.fault and any(it[0] and it[1] is None for it in told.lines):
        told.fault = "tells no time behind some lines"


def asked(told, files, words, limit):
    """Each question is asked when the one before it is answered, and timed by the clock from outside."""
    begun = time.perf_counter()
    with tempfile.TemporaryFile() as errors:
        pipes = {"stdin": subprocess.PIPE, "stdout": subprocess.PIPE, "stderr": errors}
        child, told.fault = start(files.filled(words), **pipes)
        if not child:
            return
        watch = Watch(child, limit, errors)
        try:
            fault = ask_all(told, child, files.contest.entries, begun)
            told.peak = peak_of(child.pid)
            finish(child)
        finally:
            watch.finish()
            end(child)
            child.wait()
            child.stdout.close()
            reap()
        told.fault = watch.fault or fault or how_it_ended(child.returncode, errors)


def ask_all(told, child, entries, begun):
    """The first entry is asked once before, by which the map is read and made ready. Returns how it failed."""
    room = MOST_BYTES
    for place, entry in enumerate([entries[0], *entries]):
        line = contest_inputs.question(entry).encode()
        before = time.perf_counter_ns()
        try:
            child.stdin.write(line)
            child.stdin.flush()
        except OSError:
            return ""
        answer = child.stdout.readline(room)
        spent = time.perf_counter_ns() - before
        room -= len(answer)
        if room <= 0:
            end(child)
            return "prints more than 2^30 bytes"
        if not answer.endswith(b"\n"):
            return ""
        if place == 0:
            told.ready = time.perf_counter() - begun
            continue
        told.add(answer.decode(errors="replace"), 0)
        told.lines[-1] = (told.lines[-1][0], spent, None)
    return ""


def finish(child):
    """The end of its input ends a program that is asked."""
    with contextlib.suppress(OSError):
        child.stdin.close()
    child.wait()


FORMS = {"walks": walks, "timed": timed, "asked": asked}


# ---------------------------------------------------------------- a call

class Files:
    """The files of a call, and what stands for them in a command."""

    def __init__(self, contest, folder, known):
        self.contest, self.most = contest, len(contest.entries) + 2     # lines: `prepared`, and one too many
        self.words = {**known, "map": str(contest.map_path.resolve()), "made": f"{folder}/made"}
        self.first = {"scen": f"{folder}/first.scen", "script": f"{folder}/first.script"}
        self.all = {"scen": f"{folder}/all.scen", "script": f"{folder}/all.script"}
        for paths, count in ((self.all, None), (self.first, 1)):
            pathlib.Path(paths["scen"]).write_text(contest.text(count), encoding="utf-8")
            pathlib.Path(paths["script"]).write_text(contest.script(count), encoding="utf-8")

    def filled(self, words, first=False):
        values = {**self.words, **(self.first if first else self.all)}
        return [fill(word, values) for word in words]


def fill(word, values):
    """A word of a command with the values for what stands in braces."""
    return re.sub(r"\{(\w+)\}", lambda it: values.get(it[1], it[0]), word)


def prepare(told, program, files, limit):
    """What the program makes of the map before it is asked; whether it could."""
    done = Done(files.filled(program.more["prepare"]), limit)
    told.made_seconds, told.fault = done.seconds, done.fault and f"prepare: {done.fault}"
    made = pathlib.Path(files.words["made"])
    parts = [it for it in [made, *made.rglob("*")] if it.is_file()]
    told.made_bytes = sum(it.stat().st_size for it in parts) if parts else None
    return not done.fault


def taken(told, program, files, limit):
    """How many states each search took: the last field of the n-th line of a command of its own."""
    done = Done(files.filled(program.more["taken"]), limit, len(told.lines))
    for place, line in enumerate(done.lines):
        last = (line.split() or [""])[-1]
        walk, spent, _ = told.lines[place]
        told.lines[place] = (walk, spent, int(last) if NUMBER.fullmatch(last) else None)


def call(program, contest, known, limit):
    """Runs a program on a scenario."""
    told = Told()
    folder = tempfile.mkdtemp(prefix="jps-contest-")
    try:
        files = Files(contest, folder, known)
        if "prepare" not in program.more or prepare(told, program, files, limit):
            FORMS[program.form](told, files, program.words, limit)
        if "taken" in program.more and not told.fault:
            taken(told, program, files, limit)
    finally:
        shutil.rmtree(folder, ignore_errors=True)
    wanted, had = len(contest.entries), len(told.lines)
    if had != wanted:
        counts = f"{had} lines for {wanted} entries"
        told.fault = f"{told.fault}; {counts}" if told.fault else counts
    return told


# ---------------------------------------------------------------- the judge

def verdicts(jps, contest, rule, told, limit):
    """A row for each entry, of what `judge` says; `absent` and `unread` are those without a walk to judge."""
    lines = told.lines[: len(contest.entries)]
    walks_of = [it[0] or "none" for it in lines] + ["none"] * (len(contest.entries) - len(lines))
    with tempfile.NamedTemporaryFile("w", suffix=".walks") as file:
        file.write("\n".join(walks_of) + "\n")
        file.flush()
        words = [jps, "judge", str(contest.map_path), str(contest.scenario_path), file.name, f"rule={rule}"]
        try:
            done = subprocess.run(words, stdout=subprocess.PIPE, stderr=subprocess.PIPE, text=True, check=False, timeout=limit)
        except subprocess.TimeoutExpired:
            raise contest_inputs.Wrong(f"`judge` comes to no end in {limit:g} s, as the walks are long") from None
    if done.returncode > 1:
        raise contest_inputs.Wrong(f"`judge` refuses it: {done.stderr.strip()}")
    rows = [line.split()[2:] for line in done.stdout.splitlines() if line.startswith("row ")]
    if len(rows) != len(contest.entries):
        counts = f"{len(rows)} rows for {len(contest.entries)} entries"
        raise contest_inputs.Wrong(f"`judge` of {jps} prints {counts}")
    return [row_of(row, lines[place] if place < len(lines) else None) for place, row in enumerate(rows)]


def row_of(words, line):
    """A row: status, cost as a pair, ratio to the least cost, moves, nanoseconds, taken states, point."""
    row = {"status": "other", "ns": line[1] if line else None, "taken": line[2] if line else None}
    kind = words[1] if words[0] == "refused" else words[0]
    numbers = [int(it) for it in words[1:] if it.isdigit()]
    if kind in ("scale", "outside", "blocked"):
        return row
    if line is None or line[0] is None:
        row["status"] = "absent" if line is None else "unread"
    elif kind == "walk":
        row |= {"status": "illegal", "point": numbers[0]}
    elif words == ["accepted", "none"] or kind == "none":
        row["status"] = "none" if words[0] == "accepted" else "missed"
    else:
        cost, least = numbers[:2], numbers[2:] or numbers[:2]
        row |= {"status": kind, "straight": cost[0], "diagonal": cost[1], "moves": sum(cost)}
        row["ratio"] = value_of(cost) / value_of(least) if any(least) else 1.0
    return row


def value_of(pair):
    return pair[0] + pair[1] * 2**0.5
