#!/usr/bin/env python3
"""Least walks for the entries of a scenario, by Dijkstra's algorithm: the lines that `jps judge` reads.
No diagonal move cuts a corner: they are right by `rule=none` alone.

  python3 examples/judge/walks.py MAP SCEN > WALKS
"""
import heapq
import math
import os
import sys

MOVES = [(1, 0), (0, 1), (-1, 0), (0, -1), (1, 1), (-1, 1), (-1, -1), (1, -1)]


def walk(free, start, goal):
    """The cells of a least walk, none where no walk leads from start to goal."""
    heap, parents = [(0.0, start, None)], {}
    while heap and goal not in parents:
        cost, (x, y), parent = heapq.heappop(heap)
        if (x, y) in parents:
            continue
        parents[x, y] = parent
        for dx, dy in MOVES:
            # A diagonal move cuts no corner: both cells beside it have to be free.
            if {(x + dx, y), (x, y + dy), (x + dx, y + dy)} <= free:
                heapq.heappush(heap, (cost + math.hypot(dx, dy), (x + dx, y + dy), (x, y)))
    cells, cell = [], goal if goal in parents else None
    while cell:
        cells.append(cell)
        cell = parents[cell]
    return cells[::-1]


def main():
    if len(sys.argv) != 3:
        sys.exit(__doc__)
    rows = open(sys.argv[1]).read().splitlines()[4:]
    free = {(x, y) for y, row in enumerate(rows) for x, byte in enumerate(row) if byte in ".GS"}
    for entry in open(sys.argv[2]).read().splitlines()[1:]:
        if entry.strip():
            sx, sy, gx, gy = map(int, entry.split()[-5:-1])
            cells = walk(free, (sx, sy), (gx, gy)) if (sx, sy) in free else []
            print(" ".join(f"{x},{y}" for x, y in cells) or "none")


if __name__ == "__main__":
    try:
        try:
            main()
        finally:
            print(end="", flush=True)
    except (OSError, ValueError) as fault:
        os.dup2(os.open(os.devnull, os.O_WRONLY), 1)  # what could not be printed is not tried again at the end
        sys.exit(f"walks.py: {fault}")
