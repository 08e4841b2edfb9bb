"""read.py FILE land|water X Y DIRECTION: looks one entry of a table file up."""

import os
import struct
import sys

LAYERS, DIRECTIONS = ["land", "water"], "N NE E SE S SW W NW".split()

try:
    name, layer, x, y, direction = sys.argv[1:]
    with open(name, "rb") as file:
        data = file.read()
    magic, rule, width, height = struct.unpack_from("<8sBHH", data)
    layer, direction, x, y = LAYERS.index(layer), DIRECTIONS.index(direction), int(x), int(y)
    if not (0 <= x < width and 0 <= y < height):
        sys.exit("read.py: the cell lies outside the map")
    cell = y * width + x + width * height * layer
    print(*struct.unpack_from("<h", data, 13 + 16 * cell + 2 * direction), flush=True)
except OSError as fault:
    os.dup2(os.open(os.devnull, os.O_WRONLY), 1)  # what could not be printed is not tried again at the end
    sys.exit(f"read.py: {fault}")
except (ValueError, struct.error) as fault:
    sys.exit(f"{__doc__}\n{fault}")
