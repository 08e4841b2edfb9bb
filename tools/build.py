#!/usr/bin/env python3
"""Proves the crates below a program side by side, each once those that it uses are done, and then builds the
program.

    tools/build.py PROGRAM LOG LANES [--keep]

Each crate is proved by the compiler with the words that rt gives it for a verdict: a library is kept as its
statements alone, and not its proofs, so that the crates above it have little to read. What is kept lies in
the program's folder `out/libs`, with a sum of all that it was made from beside it; what has not changed since
is not proved again.

With --keep rt proves each crate below the program, and keeps its proofs in the crate's folder `out`, so that
after a change rt check proves what changed alone. This is for who works on the crates; the program is left to
rt run.

With more than two processors, the crate with the longest chain of others behind it comes first: it waits for
no lane, gives way to none, and gets the processors that are free. The others get one each while all
processors are busy, since several jobs of one check take more time in all.
"""
import contextlib
import hashlib
import os
import shutil
import signal
import subprocess
import sys
import threading
import time

TOP = os.path.dirname(os.path.dirname(os.path.abspath(__file__)))

# The processor seconds that the check of a crate takes, a line each: taken from a build from nothing, by
# `tools/first-answer --store`.
SECONDS = f"{TOP}/tools/check_seconds.txt"

# What a check takes whatever stands in the crate, and for each line of its code, where the file has no line
# for it.
SECONDS_OF_ANY, SECONDS_OF_LINE = 15, 0.15

# A check gains little by more jobs than this.
MOST_JOBS = 4

# The priorities of the check with the longest chain behind it, and of the others.
FIRST_NICE, OTHER_NICE = 0, 10

# The status where all went well, but a source was changed while it was read.
CHANGED = 3

# The system that the program is for.
TARGET = "x86_64-unknown-linux-gnu"


def kit_folder():
    """The folder of the toolchain whose rt is on the PATH."""
    return os.path.dirname(os.path.dirname(os.path.realpath(shutil.which("rt"))))


def read_crates():
    """What each crate uses, by its name, as crates.txt tells it."""
    uses = {}
    with open(f"{TOP}/crates.txt", encoding="utf-8") as file:
        for line in file:
            name, colon, deps = line.partition("#")[0].partition(":")
            if colon:
                uses[name.split()[0]] = deps.split()
    return uses


def told_seconds():
    """The seconds that are stored, by crate."""
    told = {}
    with open(SECONDS, encoding="utf-8") as file:
        for line in file:
            name, _, seconds = line.partition("#")[0].partition(" ")
            if seconds:
                told[name] = float(seconds)
    return told


def files_of(name):
    """The files that the check of a crate reads."""
    for part in ("src", "specs", "proofs"):
        for at, folders, names in os.walk(f"{TOP}/crates/{name}/{part}"):
            folders.sort()
            yield from (f"{at}/{it}" for it in sorted(names) if it.endswith((".rt", ".antt")))


def times_of(name):
    """What changes with each change of a crate's files, whatever time they are given."""
    told = [(path, os.stat(path)) for path in files_of(name)]
    return [(path, it.st_ino, it.st_size, it.st_mtime_ns, it.st_ctime_ns) for path, it in told]


def into_group(pid):
    """The words by which Popen puts a new process into the group of this one (0: one of its own) before all
    else."""
    if sys.version_info >= (3, 11):
        return {"process_group": pid}
    return {"preexec_fn": lambda: os.setpgid(0, pid)}


class Group:
    """The compilers as a group of processes, which ends with this one, however that ends."""

    def __init__(self):
        # The shell's read ends when this process does, or asks for it; then the shell kills all of the group.
        self.shell = subprocess.Popen(
            ["sh", "-c", "read told || kill -s KILL 0"],
            stdin=subprocess.PIPE,
            stdout=subprocess.DEVNULL,
            stderr=subprocess.DEVNULL,
            **into_group(0),
        )

    def kill(self):
        """Ends all that runs."""
        with contextlib.suppress(ProcessLookupError):
            os.killpg(self.shell.pid, signal.SIGKILL)

    def leave(self):
        """Ends the shell, where nothing runs."""
        with contextlib.suppress(OSError):
            self.shell.stdin.write(b"done\n")
            self.shell.stdin.close()
        self.shell.wait()


def guessed_seconds(name):
    """About how many seconds the check of a crate takes, by the lines of its code."""
    count = 0
    for path in files_of(name):
        if path.endswith(".rt"):
            with open(path, "rb") as file:
                count += file.read().count(b"\n")
    return SECONDS_OF_ANY + SECONDS_OF_LINE * count


def end_of(status):
    """How a command ended that failed, as a line: what was killed may have told nothing."""
    if status > 0:
        return f"(ended with status {status})\n".encode()
    return f"(ended by signal {-status}, {signal.strsignal(-status)})\n".encode()


class Build:
    """What is done, what runs, and what waits."""

    def __init__(self, program, log, lanes):
        self.program, self.log, self.lanes = program, log, lanes
        self.kit = kit_folder()
        self.out = f"{TOP}/crates/{program}/out"
        self.all_uses = read_crates()
        self.uses = {name: [it for it in deps if it in self.all_uses] for name, deps in self.all_uses.items()}
        self.names = [*self.below(program), program]
        told = told_seconds()
        self.seconds = {it: told[it] if it in told else guessed_seconds(it) for it in self.names}
        self.chain = self.chains()
        self.sums = {}
        self.waiting, self.running, self.done = list(self.names), {}, set()
        self.took, self.wanted, self.began, self.said = {}, 0, time.monotonic(), 0
        self.failed, self.why = None, b""
        self.changed = threading.Condition()
        self.group, self.starting, self.ends = None, threading.Lock(), False
        self.is_changed = False

    def below(self, name):
        """All crates that a crate stands on, lowest first, without itself."""
        found = []
        for dep in self.uses[name]:
            found += [it for it in [*self.below(dep), dep] if it not in found]
        return found

    def chains(self):
        """For each crate the seconds of the longest chain that begins with it."""
        chain = {name: 0 for name in self.names}
        for name in reversed(self.names):
            chain[name] += self.seconds[name]
            for dep in self.uses[name]:
                chain[dep] = max(chain[dep], chain[name])
        return chain

    def sum_of(self, name):
        """A sum of all that a crate's library is made from."""
        if name not in self.sums:
            told = hashlib.sha256()
            with open(f"{self.kit}/KIT-ID", "rb") as file:
                told.update(file.read())
            for path in files_of(name):
                with open(path, "rb") as file:
                    told.update(repr((path[len(TOP) :], file.read())).encode())
            told.update(repr((self.all_uses[name], [self.sum_of(it) for it in self.uses[name]])).encode())
            self.sums[name] = told.hexdigest()
        return self.sums[name]

    def is_kept(self, name):
        """Whether the crate's library, or the program, is there as its sources stand."""
        try:
            with open(f"{self.out}/libs/{name}.sum", encoding="ascii") as file:
                return file.read() == self.sum_of(name)
        except OSError:
            return False

    def words(self, name, jobs):
        """The words of the compiler for a crate."""
        is_program = name == self.program
        words = ["--crate-name", name, f"src/{'main' if is_program else 'lib'}.rt"]
        for it in ["std", *(it for it in self.all_uses[name] if it not in self.all_uses)]:
            words += ["--extern", f"{it}={self.kit}/rlibs/{it}.rlib"]
        for it in self.uses[name]:
            words += ["--extern", f"{it}={self.out}/libs/{it}.rlib"]
        words += ["-L", f"dependency={self.kit}/rlibs", "-L", f"dependency={self.out}/libs"]
        words += ["--antt-project", f"{self.kit}/rattle/logic/antt-project.json"]
        words += ["--logic-built", f"{self.kit}/logic_built", "--jobs", str(jobs), "--links", f"{name}="]
        if is_program:
            return [*words, "--toolchain", f"{self.kit}/toolchain", "-o", f"{self.out}/{name}.o"]
        return [*words, "--statements", "-o", f"{self.out}/libs/{name}.rlib"]

    def links(self):
        """The words that link the program."""
        words = [f"{self.kit}/bin/rattle-link", "--target", TARGET, "--toolchain", f"{self.kit}/toolchain"]
        words += ["-o", f"{self.out}/{self.program}", f"{self.out}/{self.program}.o"]
        return [*words, f"{self.kit}/c/libos_c.a", f"{self.kit}/c/liblibc_c.a"]

    def begin(self, words, nice, folder):
        """Starts a command, unless the build ends: none may start behind the others' end."""
        with self.starting:
            if self.ends:
                return None
            return subprocess.Popen(
                ["nice", "-n", str(nice), *words],
                cwd=folder,
                stdin=subprocess.DEVNULL,
                stdout=subprocess.PIPE,
                stderr=subprocess.STDOUT,
                **into_group(self.group.shell.pid),
            )

    def call(self, name, words, nice, folder):
        """Runs a command for a crate, and puts what it tells into the log. Returns whether it went well."""
        started = self.begin(words, nice, folder)
        if not started:
            return False
        with started as ran:
            told = ran.stdout.read()
            # (not ran.wait(), which tells no times)
            _, status, usage = os.wait4(ran.pid, 0)
            ran.returncode = os.waitstatus_to_exitcode(status)
        if ran.returncode != 0:
            told += end_of(ran.returncode)
        with self.changed:
            self.took[name] = self.took.get(name, 0) + usage.ru_utime + usage.ru_stime
            told = f"== {name}\n".encode() + told
            with open(self.log, "ab") as log:
                log.write(told + f"{name} {round(self.took[name])}\n".encode())
            if ran.returncode != 0:
                self.why = self.why or told
        return ran.returncode == 0

    def make(self, name, jobs, nice):
        """Proves one crate, and links it where it is the program. Returns whether it went well."""
        kept = f"{self.out}/libs/{name}.sum"
        if os.path.exists(kept):
            os.remove(kept)
        times = times_of(name)
        self.sums.pop(name, None)
        stood = self.sum_of(name)
        folder = f"{TOP}/crates/{name}"
        if not self.call(name, [f"{self.kit}/bin/rattle", "build", *self.words(name, jobs)], nice, folder):
            return False
        if name == self.program and not self.call(name, self.links(), nice, folder):
            return False
        if times != times_of(name):
            # What was read is not known: no sum stands for it, here and in the crates above.
            self.sums[name], self.is_changed = os.urandom(32).hex(), True
            return True
        with open(kept, "w", encoding="ascii") as file:
            file.write(stood)
        return True

    def work(self, name, jobs, nice):
        """Makes one crate, and notes what came of it."""
        went_well = False
        try:
            went_well = self.make(name, jobs, nice)
        except OSError as error:
            # (as where a source is taken away while it is read)
            self.why = self.why or f"{name}: {error}\n".encode()
        finally:
            with self.changed:
                self.running.pop(name, None)
                if went_well:
                    self.done.add(name)
                else:
                    self.failed = self.failed or name
                self.changed.notify()

    def left(self):
        """About how many seconds are left, by what the crates took that are done."""
        done = sum(self.seconds[it] for it in self.took if it in self.done)
        pace = sum(self.took[it] for it in self.took if it in self.done) / done if done else 1
        todo = [it for it in self.names if it not in self.done]
        spent = {it: time.monotonic() - began for it, (_, began) in self.running.items()}
        chain = max((self.chain[it] * pace - spent.get(it, 0) for it in todo), default=0)
        work = sum(self.seconds[it] * pace for it in todo) - sum(spent.values())
        return max(chain, work / self.lanes, 0)

    def tell(self):
        """Tells on standard error how far it is: on a terminal over the line before, elsewhere each half a
        minute."""
        is_terminal = is_on_terminal()
        now = time.monotonic()
        if not is_terminal and now < self.said + 30:
            return
        self.said = now
        minutes = round(self.left() / 60)
        left = f"about {minutes} minute{'s' * (minutes != 1)} left" if minutes else "less than a minute left"
        begin, end = ("\r", "  ") if is_terminal else ("", "\n")
        write(f"{begin}jps: {len(self.done)} of {len(self.names)} crates proved, {left}{end}")

    def start(self):
        """Starts what can be started: one crate a lane, and the one with the longest chain behind it at
        once."""
        ready = [it for it in self.waiting if self.done.issuperset(self.uses[it])]
        ready.sort(key=lambda it: -self.chain[it])
        for at, name in enumerate(ready):
            # (With two processors no check runs beside those that have one.)
            is_first = self.lanes > 2 and all(
                self.chain[it] <= self.chain[name] for it in [*self.running, *ready]
            )
            if len(self.running) >= self.lanes and not is_first:
                break
            free, others = self.lanes - sum(it[0] for it in self.running.values()), len(ready[at + 1 :])
            # Where few are left, they share the processors.
            share = min(MOST_JOBS, (free + others) // (others + 1))
            jobs = max(2 if is_first else 1, share)
            self.waiting.remove(name)
            self.running[name] = (jobs, time.monotonic())
            nice = FIRST_NICE if is_first or share > 1 else OTHER_NICE
            threading.Thread(target=self.work, args=(name, jobs, nice), daemon=True).start()

    def run(self):
        """Proves all, and builds the program. Returns whether it went well."""
        os.makedirs(f"{self.out}/libs", exist_ok=True)
        self.group = Group()
        self.done = {it for it in self.names if self.is_kept(it)}
        self.waiting = [it for it in self.waiting if it not in self.done]
        try:
            with self.changed:
                while not self.failed and (self.waiting or self.running):
                    self.start()
                    self.tell()
                    self.changed.wait(1)
        finally:
            with self.starting:
                self.ends = True
            if self.running:
                self.group.kill()
            with self.changed:
                while self.running:
                    self.changed.wait(1)
            self.group.leave()
        # The log ends with what stopped the build, whatever ended behind it.
        with open(self.log, "ab") as log:
            log.write(self.why)
        if is_on_terminal():
            write("\n")
        return not self.failed


def is_on_terminal():
    return sys.stderr is not None and sys.stderr.isatty()


def write(text):
    """Writes to standard error, if it takes it."""
    with contextlib.suppress(OSError, ValueError, AttributeError):
        sys.stderr.write(text)
        sys.stderr.flush()


def link_crate(crate, to, with_rlib):
    """Links a crate's sources, and the library that was built of it, into another tree."""
    for part in ["src", "specs", "proofs"] + ["out/rlib"] * with_rlib:
        if os.path.isdir(f"{crate}/{part}"):
            shutil.copytree(f"{crate}/{part}", f"{to}/{part}", copy_function=os.link)


class KeptBuild(Build):
    """The same by rt lib, which keeps all that a later check needs, for the crates below the program.

    rt takes the folders of a crate and of all below it for itself. So each is proved in a tree of links to
    what it needs, and what rt keeps of it (`out`) is then put beside the crate's sources.
    """

    def __init__(self, program, log, lanes):
        super().__init__(program, log, lanes)
        self.names.remove(program)
        self.waiting.remove(program)

    def is_kept(self, name):
        """What is there is looked at again by rt, which takes a few seconds a crate."""
        return False

    def make(self, name, jobs, nice):
        """Proves one crate in a tree of its own. Returns whether it went well."""
        tree, crate = f"{self.out}/trees/{name}", f"{TOP}/crates/{name}"
        shutil.rmtree(tree, ignore_errors=True)
        below = self.below(name)
        for it in below:
            link_crate(f"{TOP}/crates/{it}", f"{tree}/crates/{it}", True)
        link_crate(crate, f"{tree}/crates/{name}", False)
        if os.path.isdir(f"{crate}/out"):
            shutil.move(f"{crate}/out", f"{tree}/crates/{name}/out")
        with open(f"{tree}/crates.txt", "w", encoding="utf-8") as file:
            file.writelines(f"{it}: {' '.join(self.all_uses[it])}\n" for it in [*below, name])
        shutil.copy(f"{TOP}/HANDLES", tree)
        went_well = self.call(name, ["rt", "lib", "--jobs", str(jobs)], nice, f"{tree}/crates/{name}")
        if os.path.isdir(f"{tree}/crates/{name}/out"):
            shutil.move(f"{tree}/crates/{name}/out", f"{crate}/out")
        shutil.rmtree(tree)
        return went_well


if __name__ == "__main__":
    for it in (signal.SIGTERM, signal.SIGHUP):
        if signal.getsignal(it) != signal.SIG_IGN:
            signal.signal(it, lambda *_: sys.exit(1))
    KEEPS = sys.argv[4:] == ["--keep"]
    PROGRAM, LOG, LANES = sys.argv[1:4] if KEEPS else sys.argv[1:]
    BUILD = (KeptBuild if KEEPS else Build)(PROGRAM, LOG, int(LANES))
    IS_BUILT = BUILD.run()
    sys.exit(CHANGED if IS_BUILT and BUILD.is_changed else not IS_BUILT)
