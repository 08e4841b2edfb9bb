"""Maps made from seeds: the kinds of the benchmark, none of its files.

A map is a list of rows, a row a bytearray with one byte for each cell. The same seed gives the same map with each
Python from 3.9 on; bench/inputs.json has the sums that tell if not.
"""

import math
import random

FREE, WALL, TREE, WATER = b".@TW"


def blank(width, height, byte=FREE):
    return [bytearray([byte]) * width for _ in range(height)]


def fill(rows, left, top, right, bottom, byte):
    """Sets the cells of a box, its right and lower end left out."""
    for y in range(top, bottom):
        rows[y][left:right] = bytes([byte]) * max(0, right - left)


def noise(source, width, height, share):
    """Rows of 1 and 0, 1 with the share in 65536 parts."""
    for _ in range(height):
        drawn = source.getrandbits(16 * width).to_bytes(2 * width, "little")
        yield [int((low | high << 8) < share) for low, high in zip(drawn[::2], drawn[1::2])]


def scatter(width, height, percent, seed):
    """Walls that stand anywhere."""
    least = -(-percent * 65536 // 100)
    return [bytearray(WALL if it else FREE for it in row) for row in noise(random.Random(seed), width, height, least)]


def towers(width, height, pitch, seed):
    """Open land with towers of 2 by 2, one in each square of this side."""
    source, rows = random.Random(seed), blank(width, height)
    for top in range(0, height - pitch + 1, pitch):
        for left in range(0, width - pitch + 1, pitch):
            x, y = left + source.randrange(pitch - 1), top + source.randrange(pitch - 1)
            fill(rows, x, y, x + 2, y + 2, WALL)
    return rows


def maze(width, height, corridor, seed):
    """A perfect maze by a walk that goes back where it cannot go on."""
    source = random.Random(seed)
    pitch = corridor + 1
    across, down = (width - 1) // pitch, (height - 1) // pitch
    rows = blank(width, height, WALL)
    stack = [(source.randrange(across), source.randrange(down))]
    seen = set(stack)
    while stack:
        x, y = stack[-1]
        left, top = 1 + x * pitch, 1 + y * pitch
        fill(rows, left, top, left + corridor, top + corridor, FREE)
        ways = [
            (dx, dy)
            for dx, dy in ((1, 0), (-1, 0), (0, 1), (0, -1))
            if 0 <= x + dx < across and 0 <= y + dy < down and (x + dx, y + dy) not in seen
        ]
        if not ways:
            stack.pop()
            continue
        dx, dy = source.choice(ways)
        wall_left = left + corridor if dx > 0 else left - 1 if dx < 0 else left
        wall_top = top + corridor if dy > 0 else top - 1 if dy < 0 else top
        fill(rows, wall_left, wall_top, wall_left + (1 if dx else corridor), wall_top + (1 if dy else corridor), FREE)
        seen.add((x + dx, y + dy))
        stack.append((x + dx, y + dy))
    return rows


def rooms(width, height, size, seed, door=0.75):
    """Square rooms, most with a door to the right and one below."""
    source = random.Random(seed)
    pitch = size + 1
    rows = blank(width, height)
    for y in range(height):
        if y % pitch == 0 or y == height - 1:
            fill(rows, 0, y, width, y + 1, WALL)
        else:
            for x in [*range(0, width, pitch), width - 1]:
                rows[y][x] = WALL
    for top in range(0, height - 1, pitch):
        for left in range(0, width - 1, pitch):
            right, bottom = min(left + pitch, width - 1), min(top + pitch, height - 1)
            if left + pitch < width - 1 and bottom - top > 1 and source.random() < door:
                rows[source.randrange(top + 1, bottom)][left + pitch] = FREE
            if top + pitch < height - 1 and right - left > 1 and source.random() < door:
                rows[top + pitch][source.randrange(left + 1, right)] = FREE
    return rows


def draw_polygon(rows, points, byte):
    """Sets the cells whose centres lie in a polygon."""
    height, width = len(rows), len(rows[0])
    heights = [y for _, y in points]
    for y in range(max(0, math.ceil(min(heights))), min(height - 1, math.floor(max(heights))) + 1):
        crossed = sorted(
            x + (y - from_y) * (to_x - x) / (to_y - from_y)
            for (x, from_y), (to_x, to_y) in zip(points, points[1:] + points[:1])
            if (from_y <= y) != (to_y <= y)
        )
        for left, right in zip(crossed[::2], crossed[1::2]):
            left, right = max(0, math.ceil(left)), min(width - 1, math.floor(right))
            if right >= left:
                rows[y][left : right + 1] = bytes([byte]) * (right - left + 1)


def draw_house(rows, x, y, half_width, half_height, angle):
    cosine, sine = math.cos(angle), math.sin(angle)
    right, down = half_width, half_height
    corners = ((-right, -down), (right, -down), (right, down), (-right, down))
    draw_polygon(rows, [(x + a * cosine - b * sine, y + a * sine + b * cosine) for a, b in corners], WALL)


class City:
    """Blocks of houses between streets, two avenues, a river with bridges."""

    def __init__(self, width, height, seed):
        self.source = random.Random(seed)
        self.rows = blank(width, height)
        self.width, self.height = width, height
        self.split(0, 0, width, height, 13)
        self.lay_avenues()
        self.lay_river()

    def split(self, left, top, right, bottom, street):
        """Halves the ground by streets that grow narrower, until a block is small."""
        width, height = right - left, bottom - top
        if max(width, height) < self.source.randint(40, 90):
            self.build(left, top, right, bottom)
            return
        narrower, half, other_half = max(3, street - 2), street // 2, (street + 1) // 2
        share = self.source.uniform(0.35, 0.65)
        if width > height:
            middle = int(left + width * share)
            self.split(left, top, middle - half, bottom, narrower)
            self.split(middle + other_half, top, right, bottom, narrower)
        else:
            middle = int(top + height * share)
            self.split(left, top, right, middle - half, narrower)
            self.split(left, middle + other_half, right, bottom, narrower)

    def build(self, left, top, right, bottom):
        """A park, houses around a court, or single houses."""
        width, height = right - left, bottom - top
        kind = self.source.random()
        if kind < 0.08:
            return
        if kind < 0.45 and min(width, height) > 16:
            self.build_court(left, top, right, bottom)
            return
        across, down = max(1, width // self.source.randint(10, 24)), max(1, height // self.source.randint(10, 24))
        for column in range(across):
            for row in range(down):
                if self.source.random() < 0.12:
                    continue
                x, y = left + (column + 0.5) * width / across, top + (row + 0.5) * height / down
                half_width = width / across * self.source.uniform(0.3, 0.47)
                half_height = height / down * self.source.uniform(0.3, 0.47)
                angle = self.source.choice((0, 0, 0, self.source.uniform(-0.5, 0.5)))
                draw_house(self.rows, x, y, half_width, half_height, angle)

    def build_court(self, left, top, right, bottom):
        source = self.source
        depth = source.randint(4, max(5, min(right - left, bottom - top) // 3))
        fill(self.rows, left, top, right, bottom, WALL)
        fill(self.rows, left + depth, top + depth, right - depth, bottom - depth, FREE)
        for _ in range(source.randint(1, 3)):
            gate = source.randint(1, 3)
            if source.random() < 0.5:
                x = source.randrange(left + depth, max(left + depth + 1, right - depth - gate))
                rows = (top, top + depth) if source.random() < 0.5 else (bottom - depth, bottom)
                for y in range(*rows):
                    self.rows[y][x : x + gate] = bytes([FREE]) * gate
            else:
                y = source.randrange(top + depth, max(top + depth + 1, bottom - depth - gate))
                fill(self.rows, left, y, left + depth, min(y + gate, bottom), FREE)

    def lay_avenues(self):
        for _ in range(2):
            above, below = self.source.uniform(0, self.width), self.source.uniform(0, self.width)
            last = self.height - 1
            draw_polygon(self.rows, [(above, 0), (above + 10, 0), (below + 10, last), (below, last)], FREE)

    def lay_river(self):
        source, rows = self.source, self.rows
        y, drift = self.height * source.uniform(0.3, 0.7), 0.0
        for x in range(self.width):
            drift = max(-1.0, min(1.0, drift + source.uniform(-0.15, 0.15)))
            y = max(20, min(self.height - 40, y + drift))
            for bank in (-2, -1, 14, 15):
                rows[int(y) + bank][x] = FREE
            for row in range(int(y), int(y) + 14):
                rows[row][x] = WATER
        for _ in range(max(3, self.width // 120)):
            left = source.randrange(4, self.width - 8)
            bridge = source.randint(2, 6)
            for row in rows:
                row[left : left + bridge] = row[left : left + bridge].replace(bytes([WATER]), bytes([FREE]))


def city(width, height, seed):
    return City(width, height, seed).rows


def caves(width, height, seed, rounds=5):
    """Caves by a cellular automaton (a cell is wall where five of nine are), with trees in the open."""
    source = random.Random(seed)
    cells = list(noise(source, width, height, int(0.45 * 65536)))
    cells[0] = cells[-1] = [1] * width
    for row in cells:
        row[0] = row[-1] = 1
    outside = [3] * width
    for _ in range(rounds):
        sums = [[a + b + c for a, b, c in zip([1] + row[:-1], row, row[1:] + [1])] for row in cells]
        above, below = [outside, *sums[:-1]], [*sums[1:], outside]
        cells = [[int(a + b + c >= 5) for a, b, c in zip(*three)] for three in zip(above, sums, below)]
    rows = [bytearray(WALL if it else FREE for it in row) for row in cells]
    for _ in range(width * height // 400):
        x, y = source.randrange(1, width - 1), source.randrange(1, height - 1)
        if rows[y][x] == FREE:
            rows[y][x] = TREE
    return rows


# ---------------------------------------------------------------- the dearest ones that are known

def walled_in(rows):
    """The map with walls around its middle cell, or the next free one to the right of it; and that cell."""
    y = len(rows) // 2
    x = rows[y].index(FREE, len(rows[0]) // 2)
    for row in rows[y - 1 : y + 2]:
        row[x - 1 : x + 2] = bytes([WALL]) * 3
    rows[y][x] = FREE
    return rows, (x, y)


def combs(side):
    """A wall at every second cell beside the borders: each gap sends jumps across the whole map."""
    rows = blank(side, side)
    for place in range(1, side - 1, 2):
        rows[1][place] = rows[-2][place] = rows[place][1] = rows[place][-2] = WALL
    return walled_in(rows)


def pillars(side):
    """A wall at every second cell of every second row."""
    rows = blank(side, side)
    for row in rows[1::2]:
        row[1::2] = bytes([WALL]) * len(row[1::2])
    return walled_in(rows)


def checkers(side):
    """Walls and free cells in turns, so that diagonal moves alone are left."""
    return walled_in([bytearray((b".@", b"@.")[y % 2] * (side // 2)) for y in range(side)])


def spiral(side, corridor=3):
    """One corridor that winds from the upper left corner to the middle; and the middle cell."""
    rows = blank(side, side)
    pitch = corridor + 1
    for low in range(corridor, side // 2 - pitch, pitch):
        high = side - 1 - low
        fill(rows, low - pitch if low > corridor else 0, low, high + 1, low + 1, WALL)
        fill(rows, high, low, high + 1, high + 1, WALL)
        fill(rows, low, high, high + 1, high + 1, WALL)
        fill(rows, low, low + pitch, low + 1, high + 1, WALL)
    return rows, (side // 2, side // 2)


def open_land(side):
    """No wall at all; and the lower right corner."""
    return blank(side, side), (side - 1, side - 1)
