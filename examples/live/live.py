#!/usr/bin/env python3
"""Asks `jps live` through two pipes.

    live.py PROGRAM MAP
"""

import io
import os
import subprocess
import sys

if len(sys.argv) != 3:
    sys.exit(__doc__)
try:
    jps = subprocess.Popen([sys.argv[1], "live", sys.argv[2]], stdin=subprocess.PIPE, stdout=subprocess.PIPE, bufsize=0)
except OSError as fault:
    sys.exit(f"live.py: {fault}")
answers = io.BufferedReader(jps.stdout)


def ask(line):
    """Sends one command and returns the line that answers it."""
    try:
        jps.stdin.write(line.encode() + b"\n")
        answer = answers.readline().decode()
    except BrokenPipeError:
        answer = ""
    if not answer:
        sys.exit("jps ended")  # its own line on standard error says why
    return answer.rstrip("\n")


try:
    for line in ("query 0 0 2 2", "block 2 1", "query 0 0 2 2"):
        print(ask(line), flush=True)
except OSError as fault:
    os.dup2(os.open(os.devnull, os.O_WRONLY), 1)  # what could not be printed is not tried again at the end
    sys.exit(f"live.py: {fault}")
jps.stdin.close()  # the end of its input ends it
sys.exit(jps.wait())
