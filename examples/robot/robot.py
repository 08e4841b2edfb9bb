#!/usr/bin/env python3
"""A robot's occupancy map, as ROS's map_server writes it, made a map for jps, and the walk marked on it.

    robot.py MAP.yaml X Y X Y [--radius R] [--jps PROGRAM] [--map OUT.map] [--picture OUT.ppm] [--draw]

X Y are start and goal in metres in the frame of the map, R the robot's radius in metres (0): a cell is free
where the map says so and no cell that is not free lies R or nearer to it, from centre to centre; what lies
outside the picture is not free. MAP.yaml names a picture in PGM (P5), whose first row is the uppermost, that
of the greatest y. PROGRAM is `jps-path` where that is on the PATH (not `jps`, which a JDK has too), else the
`jps` of this checkout.

Prints the least cost in metres and the points of the walk in metres, with --draw also the map with the walk
as `*`. The picture has the map, the walk in red, and cells too near to a wall in yellow; where there is no
walk it is written too, with both ends in red.
"""

import argparse
import math
import os
import pathlib
import re
import shutil
import subprocess
import sys
import tempfile

# What map savers write for a cell of which nothing is known, whatever the thresholds are.
UNKNOWN = 205 / 255
# A map for jps has sides of at most so many cells.
MOST = 4096
# So much, in cells, a radius in metres may lose when it is divided by the size of a cell.
ROUNDED = 1e-9


def default_program():
    return shutil.which("jps-path") or str(pathlib.Path(__file__).resolve().parents[2] / "jps")


def read_yaml(path):
    """The keys of a map_server's file: one `key: value` a line."""
    lines = (line.split("#")[0].split(":", 1) for line in path.read_text().splitlines())
    return {pair[0].strip(): pair[1].strip() for pair in lines if len(pair) == 2}


def read_pgm(path):
    """Rows of grey values from 0 to 1. The header's fields are parted by blanks and comments."""
    data = path.read_bytes()
    found = re.match(rb"P5" + rb"(?:\s|#[^\n]*\n)+(\d+)" * 3 + rb"\s", data)
    if not found:
        sys.exit(f"{path}: no PGM of the form P5")
    width, height, most = map(int, found.groups())
    if not (1 <= width <= MOST and 1 <= height <= MOST and 1 <= most < 65536):
        sys.exit(f"{path}: sides of 1 to {MOST} are read, and grey values below 65536")
    size = 1 if most < 256 else 2
    pixels = data[found.end() : found.end() + width * height * size]
    if len(pixels) != width * height * size:
        sys.exit(f"{path}: the picture is cut off")
    grey = [int.from_bytes(pixels[k : k + size], "big") / most for k in range(0, len(pixels), size)]
    return [grey[y * width : (y + 1) * width] for y in range(height)]


def free_rows(told, grey):
    """Which cells are free: their chance to be occupied lies below free_thresh. Unknown ones are not."""
    if told.get("mode", "trinary") != "trinary":
        sys.exit(f"a map of mode {told['mode']} is not read, but trinary alone")
    dark_is_free = told.get("negate", "0") not in ("0", "false")
    limit = float(told["free_thresh"])
    return [[it != UNKNOWN and (it if dark_is_free else 1 - it) < limit for it in row] for row in grey]


def with_room(free, radius):
    """The cells round which no cell that is not free lies at the radius, in cells, or nearer.

    Of such cells those beside a free one suffice: on the way from any other to a free cell, step by step
    along columns and rows, one of them comes before it and lies nearer.
    """
    width, height = len(free[0]), len(free)
    if 2 * radius > min(width, height) + 1:
        return [[False] * width for _ in free]
    reach = math.floor(radius + ROUNDED)
    across = range(-reach, reach + 1)
    disk = [(dx, dy) for dx in across for dy in across if math.hypot(dx, dy) <= radius + ROUNDED]
    inner = lambda k, side: min(k + 1, side - k) > radius + ROUNDED or not reach
    kept = [[it and inner(x, width) and inner(y, height) for x, it in enumerate(row)] for y, row in enumerate(free)]
    for y, row in enumerate(free):
        near = [free[v] for v in (y - 1, y, y + 1) if 0 <= v < len(free)]
        for x in (x for x, is_free in enumerate(row) if not is_free):
            if not any(any(it[max(x - 1, 0) : x + 2]) for it in near):
                continue
            for dx, dy in disk:
                if 0 <= y + dy < len(free) and 0 <= x + dx < len(row):
                    kept[y + dy][x + dx] = False
    return kept


class Frame:
    """Between metres and cells: the origin is the lower left corner of the lowest row."""

    def __init__(self, told, height):
        self.size, self.height = float(told["resolution"]), height
        self.x, self.y, turned = map(float, told["origin"].strip("[]").split(","))
        if turned:
            sys.exit("a map whose origin is turned is not read")
        if not (0 < self.size < math.inf and math.isfinite(self.x) and math.isfinite(self.y)):
            sys.exit("resolution and origin have to be numbers, and the resolution above 0")

    def cell(self, x, y):
        column = math.floor((x - self.x) / self.size + ROUNDED)
        return column, self.height - 1 - math.floor((y - self.y) / self.size + ROUNDED)

    def metres(self, x, y):
        """The centre of a cell."""
        return self.x + (x + 0.5) * self.size, self.y + (self.height - y - 0.5) * self.size


def map_text(free):
    rows = "\n".join("".join("." if it else "@" for it in row) for row in free)
    return f"type octile\nheight {len(free)}\nwidth {len(free[0])}\nmap\n{rows}\n"


def ask(program, map_file, ends, show):
    """The fields of the line that answers the query where it is a walk, else the line."""
    words = [program, "query", str(map_file), *map(str, ends), f"show={show}"]
    call = subprocess.run(words, stdout=subprocess.PIPE, text=True)
    fields = call.stdout.split()
    if call.returncode:
        sys.exit(f"{program} failed: status {call.returncode}")
    if fields[0] != "walk":
        return call.stdout.strip()
    return int(fields[1]), int(fields[2]), [tuple(map(int, it.split(","))) for it in fields[3:]]


def picture(grey, free, kept, cells):
    """The map in grey, free cells without room in yellow, and these cells in red, as PPM (P6)."""
    on_walk = set(cells)

    def pixel(x, y):
        if (x, y) in on_walk:
            return b"\xd0\x20\x20"
        return b"\xf0\xe0\xa0" if free[y][x] and not kept[y][x] else bytes([round(grey[y][x] * 255)]) * 3

    pixels = (pixel(x, y) for y in range(len(grey)) for x in range(len(grey[0])))
    return b"P6\n%d %d\n255\n" % (len(grey[0]), len(grey)) + b"".join(pixels)


def drawn(free, kept, cells):
    """The map as text: `#` is not free, `:` too near to that, `*` the walk."""
    on_walk = set(cells)
    mark = lambda x, y: "*" if (x, y) in on_walk else "." if kept[y][x] else ":" if free[y][x] else "#"
    return "\n".join("".join(mark(x, y) for x in range(len(row))) for y, row in enumerate(free))


def number(word):
    """A number of metres: no NaN, and not without end."""
    value = float(word)
    if not math.isfinite(value):
        raise argparse.ArgumentTypeError(f"{word} is no number of metres")
    return value


def main():
    words = argparse.ArgumentParser(description=__doc__, formatter_class=argparse.RawDescriptionHelpFormatter)
    words.add_argument("yaml", type=pathlib.Path)
    words.add_argument("ends", type=number, nargs=4)
    words.add_argument("--radius", type=number, default=0.0)
    words.add_argument("--jps", default=default_program())
    words.add_argument("--map", type=pathlib.Path)
    words.add_argument("--picture", type=pathlib.Path)
    words.add_argument("--draw", action="store_true")
    given = words.parse_args()
    if given.radius < 0:
        words.error("a radius is not below 0")
    told = read_yaml(given.yaml)
    lacking = [it for it in ("image", "resolution", "origin", "free_thresh") if it not in told]
    if lacking:
        sys.exit(f"{given.yaml}: lacks {', '.join(lacking)}")
    grey = read_pgm(given.yaml.parent / told["image"].strip("\"'"))
    frame, free = Frame(told, len(grey)), free_rows(told, grey)
    kept = with_room(free, given.radius / frame.size)
    ends = [*frame.cell(*given.ends[:2]), *frame.cell(*given.ends[2:])]
    sides = [len(grey[0]), len(grey)] * 2
    if not all(0 <= it < side for it, side in zip(ends, sides)):
        sys.exit("no walk: outside")
    with tempfile.TemporaryDirectory() as folder:
        map_file = given.map or pathlib.Path(folder) / "robot.map"
        map_file.write_text(map_text(kept))
        told_points = ask(given.jps, map_file, ends, "points")
        is_walk = not isinstance(told_points, str)
        cells = ask(given.jps, map_file, ends, "cells")[2] if is_walk else [tuple(ends[:2]), tuple(ends[2:])]
    if given.picture:
        given.picture.write_bytes(picture(grey, free, kept, cells))
    if not is_walk:
        sys.exit(f"no walk: {told_points}")
    straight, diagonal, points = told_points
    print(f"{(straight + diagonal * math.sqrt(2)) * frame.size:.3f} m")
    for point in points:
        print("%.3f %.3f" % frame.metres(*point))
    if given.draw:
        print(drawn(free, kept, cells))


try:
    try:
        main()
    finally:
        print(end="", flush=True)
except (OSError, ValueError, OverflowError) as fault:
    os.dup2(os.open(os.devnull, os.O_WRONLY), 1)  # what could not be printed is not tried again at the end
    sys.exit(f"robot.py: {fault}")
