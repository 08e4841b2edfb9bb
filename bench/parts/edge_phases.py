"""Two more parts of a run, at the edges of what the others ask: open land, and the dearest queries that are known.

What a part measures goes into the results by its own name, as in phases.py.
"""

import math
import random

import inputs
import made_maps
import measure
import phases

# ---------------------------------------------------------------- open land, through `live`

OPEN_SIDE = 1024
NEAR = 8                                 # a short query leads at most so many columns and rows away
SHORT, FAR, EDITS = 300, 10, 40          # how many questions of a kind a turn asks


def short_questions(side, count):
    """Between cells that are near to each other, anywhere on the map."""
    source, asked = random.Random(1), []
    while len(asked) < count:
        x, y = source.randrange(NEAR, side - NEAR), source.randrange(NEAR, side - NEAR)
        dx, dy = source.randint(-NEAR, NEAR), source.randint(-NEAR, NEAR)
        asked.append(b"query %d %d %d %d\n" % (x, y, x + dx, y + dy))
    return asked


def walled_questions(side, count):
    """From anywhere to the middle cell; and the edits that wall it in."""
    middle = side // 2
    around = [(x, y) for x in range(middle - 1, middle + 2) for y in range(middle - 1, middle + 2)]
    edits = [b"block %d %d\n" % it for it in around if it != (middle, middle)]
    source = random.Random(2)
    starts = [(source.randrange(side), source.randrange(middle - 1)) for _ in range(count)]
    return edits, [b"query %d %d %d %d\n" % (*it, middle, middle) for it in starts]


def edit_questions(side, count):
    """Edits of the middle cell: blocked and free in turns."""
    return [b"%s %d %d\n" % (word, side // 2, side // 2) for word in (b"block", b"free") * (count // 2)]


def open_land(run):
    """Short queries, queries to a goal that is walled in, and edits, through `live` and by the clock."""
    path = phases.made_map(run, f"open{OPEN_SIDE}", 1, OPEN_SIDE, 0)
    short = short_questions(OPEN_SIDE, SHORT)
    walls, far = walled_questions(OPEN_SIDE, FAR)
    edits = edit_questions(OPEN_SIDE, EDITS)
    kinds = {"short": (short[:1], short), "walled in": (walls, far), "edit": (edits[:2], edits)}
    rows, calls = [], []
    for variant in run.variants:
        live = [run.program, "live", str(path), *variant.words]
        for kind, (before, questions) in kinds.items():
            row = {"kind": kind, "engine": variant.engine, "states": variant.states, "times": []}
            rows.append(row)
            calls.append(lambda row=row, words=(live, questions, before): asked_once(row, words))
    phases.take_turns(run, calls, run.pipe_turns)
    run.results["open_land"] = {"side": OPEN_SIDE, "rows": [phases.shortened(row) for row in rows]}


def asked_once(row, words):
    row["times"] += measure.answer_times(*words)


# ---------------------------------------------------------------- the dearest queries that are known

# Each map: how it is made, the sides that are measured, where the query begins, the corner rule. Where it leads is told
# by what makes the map: to a cell that is walled in, but in a spiral and on open land.
DEAREST = {
    "combs": (made_maps.combs, (512, 1024), (0, 0), "none"),
    "pillars": (made_maps.pillars, (512, 1024), (0, 0), "none"),
    "checkers": (made_maps.checkers, (512, 1024), (0, 0), "both"),
    "spiral": (made_maps.spiral, (1024,), (0, 0), "none"),
    "open": (made_maps.open_land, (1024,), (0, 0), "none"),
}
SCATTERED = (8, 8), (4088, 4088)         # a query across the program's own map of 4096 x 4096 cells
LEAST_SECONDS, MOST_REPEATS = 0.1, 100
DEAREST_TURNS = 3


class DearCase:
    """One query by one engine, asked over and over behind one that takes nothing; its times, one for each turn."""

    def __init__(self, run, kind, side, path, ends, rule, variant):
        self.row = {"map": kind, "side": side, "rule": rule, "engine": variant.engine, "states": variant.states}
        self.run, self.path, self.ends, self.side = run, path, ends, side
        self.words = [*variant.words, f"rule={rule}"]
        self.per_query, self.repeats = [], 1

    def call_of(self, repeats):
        start, goal = self.ends
        lines = [(*start, *start), *[(*start, *goal)] * repeats]
        told = "".join(f"0\tmap\t{self.side}\t{self.side}\t{a}\t{b}\t{c}\t{d}\t0\n" for a, b, c, d in lines)
        scenario = self.run.scratch.write(f"{self.row['map']}{self.side}-{repeats}.scen", f"version 1\n{told}")
        return [self.run.program, "scen", str(self.path), str(scenario), *self.words]

    def seconds(self, repeats):
        whole, less = (measure.seconds_of(self.call_of(it))[0] for it in (repeats, 0))
        return (whole - less) / repeats

    def calibrate(self):
        """How often it is asked in a call; of the largest map, whose queries are long, the most memory in its place."""
        if self.row["map"] == "scattered":
            (a, b), (c, d) = self.ends
            live = [self.run.program, "live", str(self.path), *self.words]
            self.row["peak"] = measure.peak_memory(live, b"query %d %d %d %d\n" % (a, b, c, d))
            return
        once = max(self.seconds(1), 1e-5)
        self.repeats = max(1, min(MOST_REPEATS, math.ceil(LEAST_SECONDS / once)))

    def call(self):
        self.per_query.append(self.seconds(self.repeats))

    def result(self):
        return {**self.row, "per_query": self.per_query}


def dear_cases(run):
    """Each map by each engine."""
    cases = []
    for kind, (make, sides, start, rule) in DEAREST.items():
        for side in sides:
            path = run.inputs.folder / f"{kind}{side}.map"
            rows, goal = make(side)
            inputs.write(path, inputs.map_text(rows))
            cases += [DearCase(run, kind, side, path, (start, goal), rule, it) for it in run.variants]
    side = run.largest
    path = phases.made_map(run, f"scattered{side}", 1, side, 25)
    return cases + [DearCase(run, "scattered", side, path, SCATTERED, "none", it) for it in run.variants]


def dearest(run):
    """The processor time of a query, without the start of the process."""
    cases = dear_cases(run)
    for place, case in enumerate(cases):
        case.calibrate()
        run.progress.step((place + 1) / len(cases) / (DEAREST_TURNS + 1))
    turns = min(run.turns, DEAREST_TURNS)
    phases.take_turns(run, [it.call for it in cases], turns, begun=1 / (turns + 1))
    run.results["dearest"] = {"turns": turns, "rows": [it.result() for it in cases]}
