"""Maps as bytes: one byte for each cell, row by row from the upper left.

The program alone says what is wrong with a map. What is read here is only what the page draws, and what is
written is a map with the page's edits in it.
"""

import os
import re
import stat

MOST_BYTES = 1 << 26
MOST_SIDE = 4096
GROUNDS = b".GS@OTW"
# What an edit makes of a cell's byte, and which bytes are of that ground already.
MADE = {"free": (b".", b".GS"), "flood": (b"W", b"W"), "block": (b"@", b"@OT")}


class NoMap(Exception):
    """The text is no map; the program's own line says why."""


class Map:
    """The sides of a map and its cells."""

    def __init__(self, width, height, cells):
        self.width = width
        self.height = height
        self.cells = bytearray(cells)

    def holds(self, x, y):
        return 0 <= x < self.width and 0 <= y < self.height

    def edit(self, verb, x, y, byte=None):
        """Makes the cell of the ground that the edit asks for; `byte` picks one of the bytes of that ground."""
        made, same = MADE[verb]
        place = y * self.width + x
        if byte is not None and byte in same:
            self.cells[place] = byte
        elif self.cells[place] not in same:
            self.cells[place] = made[0]

    def text(self):
        """The map as a file."""
        rows = (bytes(self.cells[at : at + self.width]) for at in range(0, len(self.cells), self.width))
        head = f"type octile\nheight {self.height}\nwidth {self.width}\nmap\n".encode()
        return head + b"\n".join(rows) + b"\n"


def fields_of(line):
    """The fields of a line, as the program parts them."""
    return re.findall(rb"[^ \t]+", line)


def side(line, name):
    """The number of a line such as `height 49`."""
    fields = fields_of(line)
    if len(fields) != 2 or fields[0] != name or not fields[1].isdigit() or len(fields[1]) > 9:
        raise NoMap
    number = int(fields[1])
    if not 1 <= number <= MOST_SIDE:
        raise NoMap
    return number


def read_file(path, most):
    """What a file has, up to so many bytes. A pipe that has taken its place is not waited for."""
    with open(path, "rb", opener=lambda name, flags: os.open(name, flags | os.O_NONBLOCK)) as file:
        if not stat.S_ISREG(os.fstat(file.fileno()).st_mode):
            raise OSError(f"{path} is no regular file")
        return file.read(most)


def read(path):
    """The map in a file."""
    text = read_file(path, MOST_BYTES + 1)
    if len(text) > MOST_BYTES:
        raise NoMap
    lines = [it.removesuffix(b"\r") for it in text.split(b"\n")]
    if len(lines) < 5 or fields_of(lines[0]) != [b"type", b"octile"] or fields_of(lines[3]) != [b"map"]:
        raise NoMap
    height, width = side(lines[1], b"height"), side(lines[2], b"width")
    rows = lines[4 : 4 + height]
    if len(rows) < height or any(len(row) != width for row in rows) or any(lines[4 + height :]):
        raise NoMap
    cells = b"".join(rows)
    if cells.translate(None, GROUNDS):
        raise NoMap
    return Map(width, height, cells)
