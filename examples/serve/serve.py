#!/usr/bin/env python3
"""A game over `jps serve`: 200 units that go through a gate, towers that may not close it, and a process that is killed.

    serve.py PROGRAM MAP
"""

import os
import subprocess
import sys

GOAL, STEPS = (23, 4), [(0, -1), (1, -1), (1, 0), (1, 1), (0, 1), (-1, 1), (-1, 0), (-1, -1)]


class Server:
    """`jps serve` on a map, begun anew where it ended, with the last edit of each cell."""

    def __init__(self, *words):
        self.words, self.edits = words, {}
        self.begin()

    def begin(self):
        self.jps = subprocess.Popen(self.words, stdin=subprocess.PIPE, stdout=subprocess.PIPE)
        edits = list(self.edits.values())
        for k in range(0, len(edits), 1000):
            self.told(edits[k : k + 1000])

    def line(self):
        line = self.jps.stdout.readline()
        if not line.endswith(b"\n"):
            raise BrokenPipeError
        return line[:-1].decode()

    def answer(self):
        line = self.line()
        count = int(line.split()[2]) if line.startswith(("field ", "costs ")) else 0
        return [self.line() for _ in range(count)] or line

    def told(self, lines):
        self.jps.stdin.write("".join(f"{line}\n" for line in lines).encode())
        self.jps.stdin.flush()
        return [self.answer() for _ in lines]

    def ask(self, *lines):
        """The answer to each line, where all lines have at most 32 KiB: a line, or the rows of a field or of costs."""
        try:
            answers = self.told(lines)
        except BrokenPipeError:
            self.begin()
            answers = self.told(lines)
        done = [line for line, answer in zip(lines, answers) if answer == "ok"]
        self.edits.update((line.split(" ", 1)[1], line) for line in done)
        return answers


def stands(server, x, y):
    """Builds a tower, unless that closes the way."""
    _, answer = server.ask(f"block {x} {y}", "query 0 0 %d %d" % GOAL)
    if not answer.startswith("walk "):
        server.ask(f"free {x} {y}")
    return answer.startswith("walk ")


def moved(at, answer):
    """The next cell towards the second point of a walk; where there is none, or no walk, the unit stays."""
    second = answer.split()[4:5]
    to = map(int, second[0].split(",")) if second else at
    return tuple(a + (b > a) - (b < a) for a, b in zip(at, to))


def led(at, field):
    """The next cell by a field."""
    letter = field[at[1]][at[0]]
    return tuple(map(sum, zip(at, STEPS[int(letter)]))) if letter.isdigit() else at


def gone_on(before, after):
    """The units after a tick; where none has gone on the game ends."""
    if before == after:
        sys.exit("serve.py: some units have no way")
    return after


def main():
    if len(sys.argv) != 3:
        sys.exit(__doc__)
    server = Server(sys.argv[1], "serve", sys.argv[2])
    for tower in [(20, 4), (22, 4)]:
        print("tower at %d,%d:" % tower, "stands" if stands(server, *tower) else "would close the way")
    home = [(x, y) for x in range(20) for y in range(10)]
    units, ticks = home, 0
    while set(units) != {GOAL}:
        if ticks == 10:
            server.jps.kill()
        answers = server.ask(*("near %d %d %d %d" % (*it, *GOAL) for it in units))
        units, ticks = gone_on(units, [moved(*pair) for pair in zip(units, answers)]), ticks + 1
    print("each by its walk: all", len(units), "are there after", ticks, "ticks")
    (field,) = server.ask("field %d %d" % GOAL)
    if isinstance(field, str):
        sys.exit(f"serve.py: the field is {field}")
    units, ticks = home, 0
    while set(units) != {GOAL}:
        units, ticks = gone_on(units, [led(it, field) for it in units]), ticks + 1
    print("by the field: all", len(units), "are there after", ticks, "ticks")
    server.jps.stdin.close()  # the end of its input ends it
    sys.exit(server.jps.wait())


try:
    try:
        main()
    finally:
        print(end="", flush=True)
except (OSError, ValueError, LookupError) as fault:
    os.dup2(os.open(os.devnull, os.O_WRONLY), 1)  # what could not be printed is not tried again at the end
    sys.exit(f"serve.py: {str(fault) or 'jps ended'}")
