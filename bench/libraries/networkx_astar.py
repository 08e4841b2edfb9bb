#!/usr/bin/python3
"""networkx: astar_path_length on a built graph.    networkx_astar.py MAP SCEN

It runs by the Python of the system, whose packages Debian installs.
"""

import json
import sys
import time

import networkx

SQRT2 = 2**0.5


def free_cells(name):
    with open(name, encoding="ascii") as file:
        rows = file.read().split("\n")[4:]
    return {(x, y) for y, row in enumerate(rows) for x, byte in enumerate(row) if byte in ".GS"}


def graph_of(cells):
    graph = networkx.Graph()
    graph.add_nodes_from(cells)
    for x, y in cells:
        right, below = (x + 1, y) in cells, (x, y + 1) in cells
        if right:
            graph.add_edge((x, y), (x + 1, y), weight=1.0)
        if below:
            graph.add_edge((x, y), (x, y + 1), weight=1.0)
        if right and below and (x + 1, y + 1) in cells:
            graph.add_edge((x, y), (x + 1, y + 1), weight=SQRT2)
        if below and (x - 1, y) in cells and (x - 1, y + 1) in cells:
            graph.add_edge((x, y), (x - 1, y + 1), weight=SQRT2)
    return graph


def octile(one, other):
    columns, rows = abs(one[0] - other[0]), abs(one[1] - other[1])
    return max(columns, rows) - min(columns, rows) + min(columns, rows) * SQRT2


def main():
    began = time.process_time()
    graph = graph_of(free_cells(sys.argv[1]))
    with open(sys.argv[2], encoding="utf-8") as file:
        entries = [line.split("\t") for line in file.read().splitlines()[1:]]
    prepared, spent, wrong = time.process_time() - began, 0.0, 0
    for fields in entries:
        start_x, start_y, goal_x, goal_y = (int(it) for it in fields[4:8])
        before = time.process_time()
        length = networkx.astar_path_length(graph, (start_x, start_y), (goal_x, goal_y), heuristic=octile)
        spent += time.process_time() - before
        wrong += abs(length - float(fields[8])) > 1e-6 * (1 + float(fields[8]))
    print(json.dumps({"queries": len(entries), "prepared": prepared, "mean": spent / len(entries), "wrong": wrong}))


main()
