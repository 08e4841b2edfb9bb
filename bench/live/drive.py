#!/usr/bin/env python3
"""Asks `jps live` one question after the other through a pipe, and prints what one takes.

    python3 drive.py PROGRAM MAP [QUESTIONS]

The map has to be open along its first row: each question is between two neighbours of that row, and
each answer is compared with the walk of one straight move. The same lines go through `cat` and back,
which is the least that a pipe takes.
"""

import subprocess
import sys
import time


class Live:
    """A child process that answers one line for each line that it is sent."""

    def __init__(self, *words):
        self.child = subprocess.Popen(words, stdin=subprocess.PIPE, stdout=subprocess.PIPE)

    def ask(self, line):
        self.child.stdin.write(line + b"\n")
        self.child.stdin.flush()            # the answer comes once the line feed is there
        return self.child.stdout.readline()[:-1]

    def close(self):
        self.child.stdin.close()            # the end of its input ends it
        return self.child.wait()


def timed(live, questions, answers):
    """The seconds for each question, all asked in turn."""
    start = time.perf_counter()
    for question, answer in zip(questions, answers):
        came = live.ask(question)
        if came != answer:
            sys.exit(f"{question!r}: expected {answer!r}, came {came!r}")
    seconds = time.perf_counter() - start
    if live.close() != 0:
        sys.exit("the status is not 0")
    return seconds / len(questions)


def main():
    program, name = sys.argv[1:3]
    count = int(sys.argv[3]) if len(sys.argv) > 3 else 100_000
    with open(name, "rb") as file:
        width = int(file.read(40).split()[5])
    places = [i * 7919 % (width - 1) for i in range(count)]
    questions = [b"query %d 0 %d 0" % (x, x + 1) for x in places]
    answers = [b"walk 1 0 %d,0 %d,0" % (x, x + 1) for x in places]
    live = Live(program, "live", name)
    live.ask(questions[0])                  # the map is read by then
    asked = timed(live, questions, answers)
    echoed = timed(Live("cat"), questions, questions)
    print(f"{count} questions: {asked * 1e6:.1f} us each, {echoed * 1e6:.1f} us through a pipe and back alone")


main()
