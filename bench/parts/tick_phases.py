"""One more part of a run: a game's ticks over `serve`, and what its lines take one by one.

A tick is four edits and the lines of 200 units, sent in one piece. Its processor time is that of a process that hears
all ticks of a case, less one that hears the first alone, over the other ticks; by the clock it is what passes between
the piece and its last answer, through two pipes, with who asks on the same processor.
"""

import pathlib
import random
import subprocess
import time

import inputs
import made_maps
import measure
import phases
import programs

SIDE, UNITS, TICKS = 1024, 200, 11
NEAR = 32                                # a near unit is at most so many columns and rows from its goal
RING = 6                                 # a tower's walls stand so many cells from its middle: 13 by 13
AROUND = 64                              # units round a tower are at most so many columns and rows away
EDITS, NEARS, FIELDS = 20_000, 400, 6    # how many lines of a kind stand in a call
LINES = 1_000_000                        # behind so many the memory is looked at again
TURNS = 5

MAPS = {
    "towers": ("open land with towers of 2 x 2", lambda: made_maps.towers(SIDE, SIDE, 8, 31)),
    "caves": ("caves", lambda: made_maps.caves(SIDE, SIDE, 32)),
    "rooms": ("rooms of 32", lambda: made_maps.rooms(SIDE, SIDE, 32, 33)),
    "quarter": ("a quarter blocked", lambda: made_maps.scatter(SIDE, SIDE, 25, 34)),
}
ENGINES = {"block": [], "plus": ["engine=plus"]}
KINDS = ("one goal, near", "one goal, far", "many goals, near", "many goals, far")


class Ground:
    """A map, a free cell amid it, and which cells a walk joins to that one, as the program tells them."""

    def __init__(self, run, name, make):
        self.name, self.path = name, run.inputs.folder / f"ticks-{name}{SIDE}.map"
        if not self.path.exists():
            inputs.write(self.path, inputs.map_text(make()))
        self.words = [run.program, "serve", str(self.path)]
        rows = self.path.read_bytes().split(b"\n")[4:]
        for self.middle in amid(rows):
            self.field = heard(self.words, line(b"field", self.middle)).split(b"\n")[1:-1]
            if sum(row.count(b"-") for row in self.field) < SIDE * SIDE * 2 // 3:
                break

    def is_joined(self, cell):
        x, y = cell
        return 0 <= x < SIDE and 0 <= y < SIDE and self.field[y][x] != ord("-")

    def anywhere(self, draw, low=0, high=SIDE):
        """A joined cell in these columns."""
        while True:
            cell = draw.randrange(low, high), draw.randrange(SIDE)
            if self.is_joined(cell):
                return cell

    def around(self, middle, most, draw, least=0):
        """A joined cell at most so far from a cell, and no nearer than that."""
        while True:
            cell = tuple(it + draw.randint(-most, most) for it in middle)
            if self.is_joined(cell) and away(cell, middle) >= least:
                return cell


def away(cell, other):
    return max(abs(a - b) for a, b in zip(cell, other))


def amid(rows):
    """The free cells of the middle row, from the middle on."""
    y = SIDE // 2
    return [(x, y) for x in range(SIDE // 2, SIDE) if rows[y][x] in b".GS"]


def heard(words, text):
    return subprocess.run(words, input=text, stdout=subprocess.PIPE, check=True).stdout


def line(word, *cells):
    return b"%s %s\n" % (word, b" ".join(b"%d %d" % cell for cell in cells))


def tower_edits(ground, draw, tick):
    """A tower of 2 by 2 is put anywhere, and taken away in the next tick."""
    if tick % 2 == 0:
        while True:
            x, y = ground.anywhere(draw)
            ground.tower = [(x + dx, y + dy) for dx in (0, 1) for dy in (0, 1)]
            if all(ground.is_joined(it) and away(it, ground.middle) > RING + 2 for it in ground.tower):
                break
    return [line(b"free" if tick % 2 else b"block", cell) for cell in ground.tower]


def ticks_of(ground, kind):
    """The lines of each tick of a kind."""
    draw, ticks = random.Random(KINDS.index(kind)), []
    has_one, is_near = kind.startswith("one"), kind.endswith("near")
    for tick in range(TICKS):
        lines = tower_edits(ground, draw, tick)
        for _ in range(UNITS):
            goal = ground.middle if has_one else ground.anywhere(draw)
            unit = ground.around(goal, NEAR, draw) if is_near else ground.anywhere(draw)
            lines.append(line(b"near", unit, goal))
        ticks.append(lines)
    return ticks


def ring_of(middle):
    x, y = middle
    span = range(-RING, RING + 1)
    return [(x + dx, y + dy) for dx in span for dy in span if RING in (abs(dx), abs(dy))]


def tower_ticks(ground, word, closes):
    """All units ask for a goal that is walled in. Where the ring closes in each tick it is open between them."""
    draw, ticks, ring = random.Random(7), [], ring_of(ground.middle)
    first = [line(b"block", cell) for cell in ring]
    for tick in range(TICKS):
        edits = tower_edits(ground, draw, tick)
        units = [ground.around(ground.middle, AROUND, draw, RING + 2) for _ in range(UNITS)]
        asked = [line(word, unit, ground.middle) for unit in units]
        if closes:
            edits = [line(b"block", ring[RING]), *edits[:3]] if tick else edits     # amid a side; no corner parts
            asked.append(line(b"free", ring[RING]))
        ticks.append([*edits, *asked])
    ticks[0] = first + ticks[0]
    return ticks


def half_ticks(ground, closes):
    """All units ask for a goal beyond a wall from border to border."""
    draw, ticks, x = random.Random(8), [], SIDE // 2
    wall = [(x, y) for y in range(SIDE)]
    for tick in range(TICKS):
        edits = [line(b"block" if tick % 2 == 0 else b"free", (10, 10 + k)) for k in range(3)]
        asked = [line(b"query", ground.anywhere(draw, 0, x), ground.anywhere(draw, x + 1)) for _ in range(UNITS)]
        if closes:
            edits.append(line(b"block", wall[SIDE // 2]))
            asked.append(line(b"free", wall[SIDE // 2]))
        ticks.append([*edits, *asked])
    ticks[0] = [line(b"block", cell) for cell in wall] + ticks[0]
    return ticks


class Case:
    """Pieces of lines that one process hears; its times, one for each turn, over the pieces behind the first."""

    def __init__(self, run, row, words, pieces):
        self.row, self.words = {**row, "per_piece": [], "clock": []}, words
        self.pieces = [b"".join(piece) for piece in pieces]
        self.counts = [len(piece) for piece in pieces]
        name = f"ticks{id(self)}"
        self.files = [run.scratch.path(f"{name}-{which}") for which in ("whole", "first")]
        self.files[0].write_bytes(b"".join(self.pieces))
        self.files[1].write_bytes(self.pieces[0])

    def processor(self):
        times = []
        for file in self.files:
            with open(file, "rb") as given:
                times.append(measure.seconds_of(self.words, stdin=given)[0])
        return (times[0] - times[1]) / (len(self.pieces) - 1)

    def call(self):
        self.row["per_piece"].append(self.processor())
        self.row["clock"] += piece_times(self.words, self.pieces, self.counts)[1:]

    def result(self):
        times = self.row.pop("clock")
        return phases.shortened({**self.row, "times": times}) if times else self.row


def piece_times(words, pieces, counts):
    """The seconds from each piece to its last answer; each answer is one line."""
    pipe, times = measure.Pipe(words), []
    for piece, count in zip(pieces, counts):
        begun = time.perf_counter_ns()
        pipe.child.stdin.write(piece)
        pipe.child.stdin.flush()
        for _ in range(count):
            pipe.child.stdout.readline()
        times.append((time.perf_counter_ns() - begun) / 1e9)
    pipe.close()
    return times


def tick_cases(run, grounds):
    cases = []
    for name, ground in grounds.items():
        for engine, words in ENGINES.items():
            for kind in KINDS if name in MAPS else ():
                row = {"map": name, "kind": kind, "engine": engine}
                cases.append(Case(run, row, [*ground.words, *words], ticks_of(ground, kind)))
    ground, open_land = grounds["towers"], grounds["open"]
    for word, closes in ((b"query", False), (b"query", True), (b"near", False), (b"near", True)):
        kind = f"`{word.decode()}` to a closed tower{', closed in that tick' if closes else ''}"
        row = {"map": "towers", "kind": kind, "engine": "block"}
        cases.append(Case(run, row, ground.words, tower_ticks(ground, word, closes)))
    for closes in (False, True):
        kind = f"`query` beyond a wall across the map{', closed in that tick' if closes else ''}"
        row = {"map": "open", "kind": kind, "engine": "block"}
        cases.append(Case(run, row, open_land.words, half_ticks(open_land, closes)))
    return cases


def line_cases(run, grounds):
    """Lines of one kind: an edit in the middle of open land, `near` beside the query to the cell that it finds."""
    ground, open_land = grounds["towers"], grounds["open"]
    edits = [line(word, open_land.middle) for word in (b"block", b"free")] * (EDITS // 2)
    cases = [Case(run, {"what": "an edit amid open land"}, open_land.words, [edits[:2], edits])]
    draw, blocked = random.Random(9), [line(b"block", cell) for cell in ring_of(ground.middle)]
    asked = [(ground.around(ground.middle, AROUND, draw, RING + 2), ground.middle) for _ in range(NEARS)]
    near = [line(b"near", *it) for it in asked]
    told = heard(ground.words, b"".join(blocked + near)).split(b"\n")[len(blocked):-1]
    found = [tuple(map(int, it.split(b" ")[-1].split(b","))) for it in told]
    query = [line(b"query", start, cell) for (start, _), cell in zip(asked, found)]
    cases.append(Case(run, {"what": "`near` to a closed tower"}, ground.words, [blocked + near[:1], near]))
    cases.append(Case(run, {"what": "`query` to the cell that it finds"}, ground.words, [blocked + query[:1], query]))
    for case in cases:
        case.call = lambda case=case: case.row["per_piece"].append(case.processor() / case.counts[1])
    return cases


class FieldCase:
    """The field of a goal, by `serve` or by the buckets of flow_field.cpp, which have to print the same bytes."""

    def __init__(self, run, ground, flow_field):
        self.run, self.ground, self.flow_field = run, ground, flow_field
        self.row = {"map": ground.name, "field": [], "costs": [], "flow_field": []}
        text = self.given("field", 1).read_bytes()
        if flow_field and heard(ground.words, text) != heard(self.by_buckets(1), b""):
            raise measure.Fault(f"flow_field.cpp and `serve` print other fields on {ground.name}")

    def given(self, word, count):
        path = self.run.scratch.path(f"{self.ground.name}-{word}-{count}")
        path.write_bytes(line(word.encode(), self.ground.middle) * count)
        return path

    def by_buckets(self, count):
        return [self.flow_field, str(self.ground.path), *map(str, self.ground.middle), str(count)]

    def seconds(self, word, count):
        if word == "flow_field":
            return measure.seconds_of(self.by_buckets(count))[0]
        with open(self.given(word, count), "rb") as given:
            return measure.seconds_of(self.ground.words, stdin=given)[0]

    def call(self):
        for word in ("field", "costs", *(["flow_field"] if self.flow_field else [])):
            whole, less = (self.seconds(word, 1 + count) for count in (FIELDS, 0))
            self.row[word].append((whole - less) / FIELDS)


def memory_of(ground):
    """The most memory behind the first hundredth of the lines of a long session, and behind all."""
    draw = random.Random(10)
    lines = [*tower_edits(ground, draw, 0), *tower_edits(ground, draw, 1)]
    lines += [line(b"near", ground.around(ground.middle, NEAR, draw), ground.middle) for _ in range(2 * UNITS)]
    pipe, piece, peaks = measure.Pipe(ground.words), b"".join(lines), []
    for count in (LINES // 100, LINES - LINES // 100):
        for _ in range(max(1, count // len(lines))):
            pipe.child.stdin.write(piece)
            pipe.child.stdin.flush()
            for _ in lines:
                pipe.child.stdout.readline()
        peaks.append(pipe.peak())
    pipe.close()
    return {"lines": LINES, "first": peaks[0], "last": peaks[1]}


def build_flow_field(run, folder):
    """The field by buckets in C++, or nothing where it cannot be built."""
    source, target = programs.BENCH / "ticks" / "flow_field.cpp", pathlib.Path(folder) / "flow_field"
    if programs.is_older(target, source):
        fault = programs.compile_one(["g++", *programs.OPTIONS, "-o", str(target), str(source)], target)
        if fault:
            run.tell(f"the field in C++ is left out: {fault}")
            return None
    return str(target)


def ticks(run):
    """A game's ticks, lines of one kind, fields and memory."""
    if "jps serve" not in programs.output_of([run.program, "--help"]):
        run.tell("the program has no `serve`, so ticks are not measured")
        return
    makers = {name: make for name, (_, make) in MAPS.items()}
    makers["open"] = lambda: made_maps.open_land(SIDE)[0]
    grounds = {name: Ground(run, name, make) for name, make in makers.items()}
    flow_field = build_flow_field(run, run.inputs.folder.parent / "bin")
    fields = [FieldCase(run, grounds[name], flow_field) for name in ("open", "quarter")]
    cases, lines = tick_cases(run, grounds), line_cases(run, grounds)
    turns = min(run.turns, TURNS)
    phases.take_turns(run, [it.call for it in [*cases, *lines, *fields]], turns)
    told = {"side": SIDE, "units": UNITS, "turns": turns, "memory": memory_of(grounds["towers"])}
    told |= {"maps": {name: words for name, (words, _) in MAPS.items()}, "kinds": KINDS, "engines": list(ENGINES)}
    told |= {"rows": [it.result() for it in cases], "lines": [it.result() for it in lines]}
    run.results["ticks"] = {**told, "fields": [it.row for it in fields]}
