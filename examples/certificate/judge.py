#!/usr/bin/env python3
"""Judges a certificate of jps as docs/FORMATS.md shows under "A certificate beside its map, checked by hand".

    judge.py MAP CERT

It knows walks over land where no diagonal move passes a blocked cell. Costs (a, b) are a + b·√2, exactly.
"""

import os
import sys

STEPS = [(dx, dy) for dx in (-1, 0, 1) for dy in (-1, 0, 1) if (dx, dy) != (0, 0)]


def is_above_zero(a, b):
    """Whether a + b·√2 > 0, by squares."""
    if a > 0 > b or a < 0 < b:
        return (a * a > 2 * b * b) == (a > 0)
    return a + b > 0


def octile(u, v):
    far, near = sorted((abs(u[0] - v[0]), abs(u[1] - v[1])), reverse=True)
    return far - near, near


def need(fact, what):
    if not fact:
        print("fails:", what)
        sys.exit(1)


def main():
    if len(sys.argv) != 3:
        sys.exit(__doc__)
    rows = open(sys.argv[1]).read().split("\n")[4:]
    free = {(x, y) for y, row in enumerate(rows) for x, byte in enumerate(row) if byte in ".GS"}
    told, listed = {}, {}
    for word, *rest in (line.split() for line in open(sys.argv[2])):
        if word in ("value", "in"):
            x, y, *cost = map(int, rest)
            listed[x, y] = cost
        else:
            told[word] = rest
    sx, sy, gx, gy = map(int, told["ends"])
    start, goal = (sx, sy), (gx, gy)

    def moves():
        """The legal moves: the box between the two cells is free."""
        for x, y in free:
            for dx, dy in STEPS:
                if {(x + dx, y), (x, y + dy), (x + dx, y + dy)} <= free:
                    yield (x, y), (x + dx, y + dy), (0, 1) if dx and dy else (1, 0)

    legal = {(u, v): cost for u, v, cost in moves()}
    if "none" in told:
        need(start in listed and goal not in listed, "the start is listed and the goal is not")
        need(all(v in listed for u, v in legal if u in listed), "no move leads out of the listed cells")
        print("holds: none")
        return
    least = tuple(map(int, told["least"]))
    points = [tuple(map(int, it.split(","))) for it in told["points"]]
    at, cost, walks = points[0], (0, 0), points[0] == start and points[-1] == goal
    for point in points[1:]:
        while walks and at != point:
            after = tuple(a + (b > a) - (b < a) for a, b in zip(at, point))
            walks = (at, after) in legal
            more = legal.get((at, after), (0, 0))
            at, cost = after, (cost[0] + more[0], cost[1] + more[1])
    need(walks and cost == least, "the points are no walk from start to goal of that cost")
    value = {u: tuple(listed.get(u, [least[k] - octile(u, goal)[k] for k in (0, 1)])) for u in free}
    need(value[start] == (0, 0) and value[goal] == least, "the start has 0 and the goal the cost")
    above = [[value[v][k] - value[u][k] - cost[k] for k in (0, 1)] for (u, v), cost in legal.items()]
    need(not any(is_above_zero(*it) for it in above), "no move raises the value by more than it costs")
    print("holds: least", *least)


try:
    try:
        main()
    finally:
        print(end="", flush=True)
except (OSError, ValueError, LookupError) as fault:
    os.dup2(os.open(os.devnull, os.O_WRONLY), 1)  # what could not be printed is not tried again at the end
    sys.exit(f"judge.py: {fault}" if isinstance(fault, OSError) else f"judge.py: not read: {fault}")
