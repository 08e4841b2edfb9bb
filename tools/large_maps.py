"""A runner of a built program, calls by each engine, large maps, and what is right of their answers: for
tools/check-large."""

import concurrent.futures
import math
import os
import re
import shlex
import subprocess
import threading

BIG = (4096, 4096)
SIZES = [(512, 512), (1024, 768), (17, 4096), (4096, 17)]
GROUNDS = bytes.maketrans(b".GSW@OT", b"\x01\x01\x01\x02\x00\x00\x00")
LAND, WATER = 1, 2
RULES = ["none", "one", "both"]
JUMPING = ["jps", "block", "plus"]
EDITS = {"block": 0, "free": LAND, "flood": WATER}


class Difference(Exception):
    """What is so, and the command that shows it."""


class Runner:
    """Runs the program, as often at once as there are processors, four times at most."""

    def __init__(self, program, folder):
        self.program, self.folder = program, folder
        self.lock, self.calls, self.over = threading.Lock(), set(), False
        self.pool, self.cases = (
            concurrent.futures.ThreadPoolExecutor(min(4, os.cpu_count() or 1)) for _ in "12"
        )

    def shown(self, words, source=None):
        """The command as one would type it."""
        return shlex.join([self.program, *map(str, words)]) + (f" < {source}" if source else "")

    def start(self, *words, status=0, line=b"", source=None, target=None):
        """What the program writes with these words, once it is asked for; its status and its error line have
        to be these. It reads from the file `source` and writes to the file `target`, where they are named."""
        return self.pool.submit(self.run, words, (status, line), source, target)

    def run(self, words, wanted, source, target):
        with open(source or os.devnull, "rb") as given, open(target or os.devnull, "wb") as taken:
            with self.lock:
                if self.over:
                    return b""
                pipes = {
                    "stdin": given,
                    "stdout": taken if target else subprocess.PIPE,
                    "stderr": subprocess.PIPE,
                }
                call = subprocess.Popen([self.program, *map(str, words)], **pipes)
                self.calls.add(call)
            out, err = call.communicate()
        with self.lock:
            self.calls.discard(call)
        if (call.returncode, err) != wanted and not self.over:
            told = f"status {call.returncode} and {err[:200]!r} in place of {wanted[0]} and {wanted[1]!r}"
            raise Difference(told, self.shown(words, source))
        return out

    def each(self, look, cases):
        """Looks at each case, some at once; the first one's difference is told."""
        for call in [self.cases.submit(look, *case) for case in cases]:
            call.result()

    def stop(self):
        """Ends what runs still, so that no file comes after the folder is gone."""
        with self.lock:
            self.over = True
            for call in self.calls:
                call.kill()
        self.pool.shutdown(wait=True, cancel_futures=True)
        self.cases.shutdown(wait=True, cancel_futures=True)

    def need(self, fact, told, words, source=None):
        if not fact:
            raise Difference(told, self.shown(words, source))


class Map:
    """A map's rows as bytes of its file, its file, and the cells that are asked for."""

    def __init__(self, runner, name, rows):
        self.name, self.rows = name, [bytes(row) for row in rows]
        self.width, self.height = len(rows[0]), len(rows)
        self.path = runner.folder / f"{name}.map"
        head = f"type octile\nheight {self.height}\nwidth {self.width}\nmap\n".encode()
        self.path.write_bytes(head + b"\n".join(self.rows) + b"\n")
        self.commands = []

    def free_near(self, x, y, kinds=b".GS"):
        """The first cell of these bytes from (x, y) on, row by row."""
        for row in range(y, self.height):
            for column in range(x if row == y else 0, self.width):
                if self.rows[row][column] in kinds:
                    return column, row
        raise ValueError(f"{self.name}: no such cell from {x},{y} on")

    def ask(self, *ends):
        self.commands.append(" ".join(map(str, ("query", *ends))))

    def edit(self, word, cell):
        self.commands.append(f"{word} {cell[0]} {cell[1]}")

    def edit_and_ask(self, cell, ends):
        """Closes a cell, opens it, floods it and opens it again; after each edit a query."""
        for word in ["block", "block", "free", "flood", "free"]:
            self.edit(word, cell)
            self.ask(*ends)

    def finish(self):
        """Writes the commands to a file, once, as calls may read it at the same time."""
        self.script = self.path.with_suffix(".script")
        self.script.write_text("\n".join(self.commands) + "\n", encoding="ascii")
        return self


# --- the maps -----------------------------------------------------------------------------------------------


def words_of(seed):
    """The generator of `make`, as docs/FORMATS.md names it."""
    high, bits = 6364136223846793005, 2**64 - 1

    def turned(state):
        word, by = (state >> 18 ^ state) >> 27 & 0xFFFFFFFF, state >> 59
        return (word >> by | word << (-by & 31)) & 0xFFFFFFFF

    state, parts = seed, []
    for _ in range(4):
        state = (state * high + 11634580027462260723) & bits
        parts.append(turned(state))
    step = parts[2] | parts[3] << 32 | 1
    state = ((parts[0] | parts[1] << 32) + step) * high + step & bits
    while True:
        yield turned(state)
        state = (state * high + step) & bits


def made_rows(runner, seed, width, height, percent):
    """The rows of a made map, whose form is looked at."""
    words = ["make", seed, width, height, percent]
    head, _, text = runner.start(*words).result().partition(b"map\n")
    rows = text.split(b"\n")
    runner.need(head == f"type octile\nheight {height}\nwidth {width}\n".encode(), "another head", words)
    runner.need(rows.pop() == b"" and len(rows) == height, "another number of rows", words)
    is_so = all(len(row) == width and not row.strip(b".@") for row in rows)
    runner.need(is_so, "a row of another length or of other bytes", words)
    return [bytearray(row) for row in rows]


def striped_rows(width, height):
    """Walls of trees in each eighth row, each with a door of swamp; the lower third is water, its walls
    rock."""
    rows = []
    for y in range(height):
        ground, wall, door = (b"W", b"O", b"W") if 3 * y >= 2 * height else (b".", b"T", b"S")
        row = bytearray((wall if y % 8 == 7 else ground) * width)
        if y % 8 == 7:
            row[29 * y % width] = door[0]
        rows.append(row)
    return rows


def comb_rows(width, height):
    """A wall in each fourth column, open at its lower and at its upper end in turns: one long way."""
    rows = [bytearray((b"...@" * width)[:width]) for _ in range(height)]
    rows[0][7::8] = b"G" * len(rows[0][7::8])
    rows[-1][3::8] = b"G" * len(rows[-1][3::8])
    return rows


def close_room(rows, left, top, side):
    """A closed room of land: nothing leads into it under any corner rule."""
    for y in range(top, top + side):
        rows[y][left : left + side] = b"@" + b"." * (side - 2) + b"@"
    for y in (top, top + side - 1):
        rows[y][left : left + side] = b"@" * side


def random_map(runner, width, height, reach, percent=10):
    """A made map with water at its right end and a closed room; searches go as far as `reach`, in both ways.

    Where more walls stand engines that jump stop at each step, which takes long on large maps, and narrow
    ones fall into parts.
    """
    rows = made_rows(runner, 7, width, height, percent)
    wet = width - width // 4
    for row in rows:
        row[wet:] = row[wet:].replace(b".", b"W")
    side = min(60, width // 4)
    left, top = wet - side - 1, height // 2 if height > 2 * side else 2
    close_room(rows, left, top, min(side, height - 4))
    it = Map(runner, f"random-{width}x{height}", rows)
    start, goal = it.free_near(0, 0), it.free_near(min(reach, wet - side - 4), min(reach, height - 3))
    room, water = it.free_near(left + 1, top + 1), it.free_near(wet, 0, b"W")
    it.ask(*start, *goal)
    it.ask(*goal, *start)
    it.ask(*room, *start)
    it.ask(*start, *water)
    it.ask(*water, *it.free_near(wet, min(reach, height - 1), b"W"))
    it.ask(*start, *start)
    it.ask(width, 0, 0, 0)
    if reach >= max(width, height):  # all cells that are joined to the start are taken
        it.ask(*start, *room)
    it.edit_and_ask(goal, (*start, *goal))
    it.start, it.goal, it.room = start, goal, room
    return it.finish()


def open_map(runner, width, height):
    rows = made_rows(runner, 1, width, height, 0)
    it = Map(runner, f"open-{width}x{height}", rows)
    corner = width - 1, height - 1
    it.ask(0, 0, *corner)
    it.ask(*corner, 0, height // 2)
    it.ask(width - 1, 0, 0, height - 1)
    it.edit_and_ask((width // 2, height // 2), (0, 0, *corner))
    return it.finish()


def striped_map(runner, width, height):
    it = Map(runner, f"stripes-{width}x{height}", striped_rows(width, height))
    low = min(61, 2 * height // 3 - 1)
    door = 29 * 7 % width, 7
    it.ask(0, 0, width - 1, low)
    it.ask(width - 1, low, 0, 0)
    it.ask(0, height - 1, width - 1, height - 1)
    it.ask(0, 0, width - 1, height - 1)
    if width * height < 2**22:
        it.ask(0, 0, *it.free_near(0, 2 * height // 3 - 2))
    it.edit_and_ask(door, (0, 0, width - 1, low))
    return it.finish()


def comb_map(runner, width, height):
    it = Map(runner, f"comb-{width}x{height}", comb_rows(width, height))
    far = min(13, width - 1)
    it.ask(0, 0, far, height // 2)
    it.ask(far, 0, 0, 0)
    it.ask(3, 0, 0, 0)
    if width * height < 2**19:
        it.ask(0, 0, width - 2, height // 2)
    it.edit_and_ask((3, height - 1), (0, 0, 5, 0))
    return it.finish()


def maps_of(runner):
    """The maps one by one, so that few of them are held at a time."""
    # One with so many walls that a search has more than 70,000 states.
    yield random_map(runner, 512, 513, 513, 25)
    for width, height in [*SIZES, BIG]:
        whole = (width, height) != BIG
        yield random_map(runner, width, height, max(width, height) if whole else 700)
        yield open_map(runner, width, height)
        yield striped_map(runner, width, height)
        yield comb_map(runner, width, height)


def sized_maps(runner):
    """The map of each size on which single commands are tried, and whether all its cells may be searched."""
    for width, height in [*SIZES, BIG]:
        whole = (width, height) != BIG
        it = random_map(runner, width, height, max(width, height) if whole else 700)
        yield it, whole


# --- what is looked at by this script alone -----------------------------------------------------------------


def is_legal(grid, layer, rule, x, y, to_x, to_y):
    """Whether the move is legal; the grid has a number for each cell, its ground."""
    if not (0 <= to_x < len(grid[0]) and 0 <= to_y < len(grid)) or grid[to_y][to_x] != layer:
        return False
    if x == to_x or y == to_y or rule == "both":
        return True
    beside = (grid[y][to_x] == layer) + (grid[to_y][x] == layer)
    return beside == 2 or (rule == "one" and beside == 1)


def cost_of(grid, rule, points):
    """Straight and diagonal moves of the walk of these points, cell by cell; None where it is not legal."""
    (x, y), straight, diagonal = points[0], 0, 0
    layer = grid[y][x]
    for to_x, to_y in points[1:]:
        far = max(abs(to_x - x), abs(to_y - y))
        if far == 0 or (to_x - x) % far or (to_y - y) % far:
            return None
        dx, dy = (to_x - x) // far, (to_y - y) // far
        for _ in range(far):
            if not is_legal(grid, layer, rule, x, y, x + dx, y + dy):
                return None
            x, y = x + dx, y + dy
        straight, diagonal = (straight, diagonal + far) if dx and dy else (straight + far, diagonal)
    return straight, diagonal


def read_points(words):
    return [tuple(map(int, word.split(b","))) for word in words]


def fault_of_query(grid, rule, ends, line):
    """What is wrong with the line of a query, or None; that a walk is least or that there is none is not seen
    here."""
    (sx, sy), (gx, gy) = ends[:2], ends[2:]
    if not all(x < len(grid[0]) and y < len(grid) for x, y in ((sx, sy), (gx, gy))):
        return None if line == b"outside" else "outside is not told"
    start, goal = grid[sy][sx], grid[gy][gx]
    if 0 in (start, goal):
        return None if line == b"blocked" else "blocked is not told"
    bare, _, taken = line.partition(b" taken")
    if start != goal:
        return None if line in (b"none", b"none taken") else "the ends lie in two layers"
    if bare == b"none":
        return None
    word, a, b, *points = bare.split(b" ")
    points = read_points(points)
    if word != b"walk" or points[0] != (sx, sy) or points[-1] != (gx, gy):
        return "no walk from start to goal"
    if cost_of(grid, rule, points) != (int(a), int(b)):
        return "no legal walk of this cost"
    if taken and (not taken.startswith(b" %d,%d:-" % (sx, sy)) or b" %d,%d:" % (gx, gy) not in taken[-15:]):
        return "the states are not from start to goal"
    return None


def fault_of_edit(grid, word, cell, line):
    """Works the edit on the grid, and says what is wrong with its line."""
    x, y = cell
    wanted = b"same" if grid[y][x] == EDITS[word] else b"ok"
    grid[y][x] = EDITS[word]
    return None if line == wanted else f"not {wanted.decode()}"


def fault_of_answers(it, rule, text):
    """What is wrong with the answers to a map's commands, or None."""
    grid = [bytearray(row.translate(GROUNDS)) for row in it.rows]
    lines = text.split(b"\n")
    if lines.pop() != b"" or len(lines) != len(it.commands):
        return "another number of lines"
    for command, line in zip(it.commands, lines):
        word, *numbers = command.split()
        numbers = tuple(map(int, numbers))
        look = fault_of_edit if word in EDITS else fault_of_query
        fault = look(grid, word if word in EDITS else rule, numbers, line)
        if fault:
            return f"`{command}`: {fault}: {line[:100].decode()}"
    return None


def repeated_cell(text):
    """A cell that stands twice among the states of one line, or None."""
    for line in text.split(b"\n"):
        cells = [state.partition(b":")[0] for state in line.partition(b" taken")[2].split()]
        if len(set(cells)) != len(cells):
            return next(cell for k, cell in enumerate(cells) if cell in cells[:k]).decode()
    return None


def bare(text):
    """The answers without points and states: what all engines have to say alike."""
    return [
        b" ".join(line.split(b" ", 3)[:3]) if line[:5] == b"walk " else line[:7] for line in text.split(b"\n")
    ]


def octile(ends):
    """The cost of a least walk over open ground."""
    dx, dy = abs(ends[0] - ends[2]), abs(ends[1] - ends[3])
    return abs(dx - dy), min(dx, dy)


def problems_on_shore(it, wet, seed, number):
    """The entries of a map of free cells whose first rows are water, as the generator says; and their
    costs."""
    draw, kept = words_of(seed ^ 2), []
    while len(kept) < number:
        (sy, sx), (gy, gx) = (divmod(next(draw) % (it.width * it.height), it.width) for _ in "sg")
        if (sx, sy) != (gx, gy) and (sy < wet) == (gy < wet):
            kept.append((sx, sy, gx, gy))
    kept.sort(key=lambda ends: octile(ends)[0] + octile(ends)[1] * math.sqrt(2))
    lines = []
    for ends in kept:
        length = octile(ends)[0] + octile(ends)[1] * math.sqrt(2)
        fields = [int(length / 4), it.path.name, it.width, it.height, *ends, f"{length:.8f}"]
        lines.append("\t".join(map(str, fields)).encode() + b"\n")
    return lines, kept


def walks_of(text):
    """The answers of queries as lines of a walks file."""
    told = [line if line == b"none" else line.split(b" ", 3)[3] for line in text.splitlines()]
    return b"\n".join(told) + b"\n"


def own_walk(start, goal):
    """All cells of a least walk over open land, its straight moves first, as no engine prints it."""
    (x, y), (gx, gy) = start, goal
    cells = [start]
    while (x, y) != goal:
        dx, dy = abs(gx - x), abs(gy - y)
        x += (gx > x) - (gx < x) if dx >= dy else 0
        y += (gy > y) - (gy < y) if dy >= dx else 0
        cells.append((x, y))
    return cells


def strokes_of(it, kinds):
    """The longest runs of these bytes, as a picture has them."""
    runs = re.compile(b"[" + kinds + b"]+")
    every = ((y, run) for y, row in enumerate(it.rows) for run in runs.finditer(row))
    return b"".join(b"M%d %dh%d" % (run.start(), y, run.end() - run.start()) for y, run in every)


# --- calls by each engine -----------------------------------------------------------------------------------


def engines(has_states):
    """The words of each engine, by the rule of states under which all have one trace; plain has its own.

    Where the help has `states=`, block names the one that holds without a word, so both spellings are
    compared.
    """
    first = {engine: [f"engine={engine}"] for engine in JUMPING}
    if has_states:
        first["block"].append("states=arrival")
    told = {"plain": [["engine=plain"]], "arrival": list(first.values())}
    if has_states:
        told["cell"] = [[f"engine={engine}", "states=cell"] for engine in JUMPING]
    return told


def compare_engines(runner, it, rule, calls):
    """Compares the answers of each engine to a map's commands; the number of lines looked at."""
    first, looked = None, 0
    for family, group in calls.items():
        texts = [(words, call.result()) for words, call in group]
        for words, text in texts:
            runner.need(text == texts[0][1], "other points or states than `jps`", words)
        words, text = texts[0]
        fault = fault_of_answers(it, rule, text)
        runner.need(fault is None, fault, words)
        first = first or bare(text)
        for told, wanted in zip(bare(text), first):
            runner.need(told == wanted, f"`{told.decode()}` where plain has `{wanted.decode()}`", words)
        twice = repeated_cell(text) if family != "arrival" else None
        runner.need(not twice, f"the cell {twice} is taken twice", words)
        looked += len(first) - 1
    return looked


def calls_by_engine(runner, has_states, words, rule):
    """The calls of a command by each engine, in families that print the same."""
    calls = {}
    for family, group in engines(has_states).items():
        whole = [[*words, *picked, f"rule={rule}"] for picked in group]
        calls[family] = [(line, runner.start(*line)) for line in whole]
    return calls


def quick_engines(has_states):
    """Those that answer at once where much land is open: not `jps`, which looks at each cell."""
    every = engines(has_states)
    return {family: [words for words in group if words[0] != "engine=jps"] for family, group in every.items()}


def judge_entries(runner, it, rule, ends, scen):
    """The walks that an engine prints of a scenario's entries, and none told of each."""
    script, walks = it.path.with_suffix(f".{rule}.ends"), it.path.with_suffix(f".{rule}.walks")
    script.write_bytes(b"".join(b"query " + line + b"\n" for line in ends))
    words, number = ["judge", it.path, scen, walks, f"rule={rule}"], len(ends)
    for engine in ["plain", "block"]:
        text = runner.start("solve", it.path, script, f"engine={engine}", f"rule={rule}").result()
        walks.write_bytes(walks_of(text))
        rows = runner.start(*words).result().splitlines()
        wanted = [b"row %d accepted " % k + line[5:] for k, line in enumerate(bare(text)[:-1], 1)]
        wanted.append(b"sum %d accepted %d refused 0 other 0" % (number, number))
        runner.need(rows == wanted, f"the walks that {engine} prints, and the sum {rows[-1:]}", words)
    walks.write_bytes(b"none\n" * number)
    rows = runner.start(*words, status=1).result().splitlines()
    is_so = rows[-1] == b"sum %d accepted 0 refused %d other 0" % (number, number)
    runner.need(is_so, f"none told of each, and the sum {rows[-1:]}", words)
