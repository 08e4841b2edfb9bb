"""The parts of a run, each of which adds to the results: times of queries, growth, starts, edits, answers through a
pipe, memory, libraries, counts, taken states.

Where times are compared, all calls of a turn come in random order, so that whatever else the machine does meets all
alike; a call is whole processes, bound to one processor. A time per further query is that of the process with all
entries less that of the process with the first one alone, over the other entries: the start of the process, the
reading of the map and what is made of it are left out.
"""

import concurrent.futures
import json
import os
import random
import subprocess

import inputs
import measure
import programs

# The least seconds that a call with all entries should search, so that it stands above the start of the process.
LEAST_SECONDS = 0.3

# Commands and libraries that take many seconds are called in the first turns only.
SLOW, SLOW_TURNS = ("boxes", "moves", "networkx A*"), 3

# How many further entries of each map are counted: valgrind takes a hundred times as long as the processor.
COUNTED = 12

# What tells a row of the results.
KEYS = ("map", "engine", "states", "program")


class Variant:
    """An engine with its states: `arrival` has a state for each cell and arrival, `cell` one for each cell."""

    def __init__(self, engine, states="arrival"):
        self.engine, self.states = engine, states
        self.name = engine if states == "arrival" else f"{engine} states=cell"
        self.words = [f"engine={engine}", *([] if states == "arrival" else [f"states={states}"])]


def variants_of(run):
    """Every engine, and those that jump with one state for each cell too where the program knows that."""
    kinds = [Variant(engine) for engine in programs.ENGINES]
    return kinds + [Variant(engine, "cell") for engine in programs.JUMPS] if run.knows_states else kinds


class Contestant:
    """A program that takes `scen` with these words behind it, and which engines and states it knows."""

    def __init__(self, name, path, words=(), engines=programs.ENGINES, states=("arrival", "cell")):
        self.name, self.path, self.words, self.engines, self.states = name, path, list(words), engines, states

    def knows(self, variant):
        return variant.engine in self.engines and (variant.engine == "plain" or variant.states in self.states)

    def scen(self, map_path, scenario_path, variant, *more):
        return [self.path, "scen", str(map_path), str(scenario_path), *variant.words, *self.words, *more]


# ---------------------------------------------------------------- times of queries

class Case:
    """One cell of a table: the queries of a map by one program and engine; its times, one for each turn."""

    def __init__(self, run, name, variant, contestant, entries, repeats):
        head, lines = entries
        stem = f"{name}-{len(lines)}"
        whole, first = run.scratch.path(f"{stem}-{repeats}.scen"), run.scratch.path(f"{stem}-first.scen")
        if not whole.exists():
            whole.write_text(head + "".join(lines) * repeats)
        if not first.exists():
            first.write_text(head + lines[0])
        self.row = {"map": name, "engine": variant.engine, "states": variant.states, "program": contestant.name}
        self.rest = len(lines) * repeats - 1
        map_path = run.inputs.map_path(name)
        files = {"whole": whole, "first": first}
        self.calls = {kind: contestant.scen(map_path, path, variant) for kind, path in files.items()}
        self.seconds = {"whole": [], "first": []}
        self.clock = {"whole": [], "first": []}

    def call(self, kind):
        processor, clock = measure.seconds_of(self.calls[kind])
        self.seconds[kind].append(processor)
        self.clock[kind].append(clock)

    def result(self):
        pairs = zip(self.seconds["whole"], self.seconds["first"])
        per_query = [(whole - first) / self.rest for whole, first in pairs]
        first = {"first": self.seconds["first"], "first_clock": self.clock["first"]}
        return {**self.row, "entries": self.rest + 1, "per_query": per_query, **first}


def calibrated(run, name, variant, contestants):
    """How often the entries are to be repeated. All programs answer all entries here, and have to print the same."""
    head, lines = inputs.entry_lines(run.inputs.scenario_path(name))
    first = run.scratch.write("calibrate.scen", head + lines[0])
    outputs, needed = {}, 1
    for contestant in contestants:
        if not contestant.knows(variant):
            continue
        kept = run.scratch.path("kept")
        map_path = run.inputs.map_path(name)
        whole, _ = measure.seconds_of(contestant.scen(map_path, run.inputs.scenario_path(name), variant), keep=kept)
        start, _ = measure.seconds_of(contestant.scen(map_path, first, variant))
        outputs[contestant.name] = kept.read_bytes()
        wanted = max(run.least_seconds, 2 * start if start > 0.1 else 0)
        needed = max(needed, -(-wanted // max(whole - start, 1e-4)))
    if len(set(outputs.values())) > 1:
        raise measure.Fault(f"{name}, {variant.name}: {' and '.join(outputs)} print different rows")
    return (head, lines), int(min(needed, 200_000 // len(lines) + 1))


def make_cases(run, pairs, contestants):
    """Each map and engine of the pairs by each program."""
    cases = []
    for place, (name, variant) in enumerate(pairs):
        entries, repeats = calibrated(run, name, variant, contestants)
        chosen = [it for it in contestants if it.knows(variant)]
        cases += [Case(run, name, variant, contestant, entries, repeats) for contestant in chosen]
        run.progress.step((place + 1) / len(pairs) / (run.turns + 1))
    return cases


def take_turns(run, calls, turns, begun=0.0):
    """Each call once in each turn, in random order; tells how far it is after each call, from `begun` on."""
    for turn in range(turns):
        order = calls[:]
        run.random.shuffle(order)
        for place, call in enumerate(order):
            call()
            run.progress.step(begun + (1 - begun) * (turn + (place + 1) / len(order)) / turns)


def time_queries(run, pairs, contestants):
    cases = make_cases(run, pairs, contestants)
    calls = [lambda case=case, kind=kind: case.call(kind) for case in cases for kind in case.calls]
    take_turns(run, calls, run.turns, begun=1 / (run.turns + 1))     # all were called once by now
    return [case.result() for case in cases]


def queries(run):
    pairs = [(name, variant) for name in run.maps for variant in run.variants]
    run.results["queries"] = time_queries(run, pairs, run.contestants)


def textbook(run):
    """The program beside the searches as the papers have them."""
    pairs = [(name, variant) for name in run.maps for variant in run.variants if run.textbook.knows(variant)]
    rows = time_queries(run, pairs, [run.contestants[0], run.textbook])
    run.results["textbook"] = {"turns": run.turns, "rows": rows}


def growth(run):
    pairs = [(name, variant) for name in run.growth_maps for variant in run.variants]
    run.results["growth"] = time_queries(run, pairs, run.contestants[:1])


# ---------------------------------------------------------------- whole processes: starts, edits, other commands

def made_map(run, name, seed, side, percent):
    """A map of the program's own generator."""
    path = run.inputs.folder / f"{name}.map"
    if not path.exists():
        words = [run.program, "make", str(seed), str(side), str(side), str(percent)]
        inputs.write(path, subprocess.run(words, check=True, stdout=subprocess.PIPE).stdout)
    return path


def edit_script(run, name, cells):
    """A script that blocks each cell and makes it free again."""
    lines = [f"{word} {x} {y}\n" for x, y in cells for word in ("block", "free")]
    return run.scratch.write(f"{name}.script", "".join(lines)), len(lines)


def free_cells(path, count, seed):
    """Some free cells of a map, drawn from a seed."""
    rows = path.read_bytes().split(b"\n")[4:]
    source, cells = random.Random(seed), []
    height = sum(bool(row) for row in rows)
    while len(cells) < count:
        y = source.randrange(height)
        x = source.randrange(len(rows[y]))
        if rows[y][x] in b".G":
            cells.append((x, y))
    return cells


def start_calls(run, side):
    """The first answer on a map of the program's generator, the whole process."""
    path = made_map(run, f"scattered{side}", 1, side, 25)
    x, y = free_cells(path, 1, 1)[0]
    query = [run.program, "query", str(path), str(x), str(y), str(x), str(y)]
    return {f"first answer, {it.name}": [*query, *it.words] for it in run.variants if it.states == "arrival"}


def told_walks(run, city, lines):
    """What the program itself tells of the entries of a scenario, as `judge` reads it."""
    script = run.scratch.write("walks.script", "\n".join(inputs.queries_of(lines)) + "\n")
    kept = run.scratch.path("walks.told")
    measure.seconds_of([run.program, "solve", str(city), str(script), "engine=plus"], keep=kept)
    walks = [" ".join(line.split()[3:]) if line.startswith("walk") else line for line in kept.read_text().splitlines()]
    return run.scratch.write("walks", "\n".join(walks) + "\n")


def command_calls(run, side):
    """Other commands, each the whole process with its output thrown away."""
    path, small = made_map(run, f"open{side}", 1, side, 0), made_map(run, "scattered128", 1, 128, 25)
    city, scenario = run.inputs.map_path("city1024"), run.inputs.scenario_path("city1024")
    _, lines = inputs.entry_lines(scenario)
    ends = lines[-1].split("\t")[4:8]
    certificate = run.scratch.path("certificate")
    measure.seconds_of([run.program, "prove", str(city), *ends], keep=certificate)
    x, y = free_cells(small, 1, 1)[0]
    one = run.scratch.write("one.scen", f"version 1\n0\tmap\t128\t128\t{x}\t{y}\t{x}\t{y}\t0\n")
    return {
        "make": [run.program, "make", "1", str(side), str(side), "25"],
        "draw": [run.program, "draw", str(city), *ends],
        "prove": [run.program, "prove", str(city), *ends],
        "check": [run.program, "check", str(city), str(certificate)],
        "judge": [run.program, "judge", str(city), str(scenario), str(told_walks(run, city, lines))],
        "costs": [run.program, "costs", str(path), "0", "0"],
        "tables": [run.program, "tables", str(path)],
        "problems": [run.program, "problems", str(city), "1", "1000"],
        "boxes": [run.program, "scen", str(small), str(one), "engine=boxes"],
        "moves": [run.program, "scen", str(small), str(one), "engine=moves"],
    }


def edit_calls(run, side):
    """Scripts of edits, by the engines that keep something beside the grid; each with how many edits it has."""
    scattered, empty = made_map(run, f"scattered{side}", 1, side, 25), made_map(run, f"open{side}", 1, side, 0)
    middle = [(side // 2, side // 2)]
    calls = {}
    for engine, count in (("block", 100_000), ("plus", 10_000)):
        script, edits = edit_script(run, f"scattered-{engine}", free_cells(scattered, count, 2))
        words = [run.program, "solve", str(scattered), str(script), f"engine={engine}"]
        calls[f"edit, scattered, {engine}"] = (words, edits)
        script, edits = edit_script(run, f"open-{engine}", middle * (count if engine == "block" else 2))
        words = [run.program, "solve", str(empty), str(script), f"engine={engine}"]
        calls[f"edit, open, {engine}"] = (words, edits)
    return calls


def processes(run):
    """Cold starts, edits and other commands, by processor time and by the clock."""
    side = run.largest
    edits = edit_calls(run, side)
    none = str(run.scratch.write("none.script", ""))
    words = {**start_calls(run, side), **command_calls(run, side)}
    for name, (call, _) in edits.items():
        words[name] = call
        words[f"{name}, none"] = [*call[:3], none, *call[4:]]
    times = {name: {"processor": [], "clock": []} for name in words}

    def call_of(name):
        def call():
            if name in SLOW and len(times[name]["clock"]) >= SLOW_TURNS:
                return
            processor, clock = measure.seconds_of(words[name])
            times[name]["processor"].append(processor)
            times[name]["clock"].append(clock)
        return call

    take_turns(run, [call_of(name) for name in words], run.turns)
    rows = {name: times[name] for name in words if not name.startswith("edit")}
    for name, (_, count) in edits.items():
        pairs = zip(times[name]["processor"], times[f"{name}, none"]["processor"])
        rows[name] = {"processor": [(whole - start) / count for whole, start in pairs]}
    run.results["processes"] = {"side": side, "rows": rows}


# ---------------------------------------------------------------- a pipe, memory

def pipe(run):
    """How long each question takes through `live`: those of scenarios, and ones between neighbours."""
    rows, jobs = [], []
    for name in run.pipe_maps:
        _, lines = inputs.entry_lines(run.inputs.scenario_path(name))
        questions = [f"{line}\n".encode() for line in inputs.queries_of(lines)]
        for variant in run.variants:
            live = [run.program, "live", str(run.inputs.map_path(name)), *variant.words]
            row = {"map": name, "engine": variant.engine, "states": variant.states, "times": []}
            rows.append(row)
            jobs.append((row, live, questions))
    side = run.largest
    near = [b"query %d 0 %d 0\n" % (x, x + 1) for x in (place * 7919 % (side - 1) for place in range(2000))]
    alone = {"map": "neighbours", "engine": "plain", "states": "arrival", "times": []}
    echo = {"map": "neighbours", "engine": "cat", "states": "", "times": []}
    rows += [alone, echo]
    empty = made_map(run, f"open{side}", 1, side, 0)
    jobs += [(alone, [run.program, "live", str(empty)], near), (echo, ["cat"], near)]

    def call_of(row, live, questions):
        def call():
            asked = run.random.choices(questions, k=run.questions)
            row["times"] += measure.answer_times(live, asked, questions[:1])
        return call

    take_turns(run, [call_of(*job) for job in jobs], run.pipe_turns)
    run.results["pipe"] = [shortened(row) for row in rows]


def shortened(row):
    """The parts of the times that are told, in place of thousands."""
    times = sorted(row.pop("times"))
    part = {f"{share}": times[min(len(times) - 1, int(len(times) * share))] for share in (0.5, 0.99, 0.999)}
    return {**row, "questions": len(times), **part}


def memory(run):
    """The peak of the process after one long query, by engine and size."""
    rows = []
    for place, name in enumerate(run.growth_maps):
        _, lines = inputs.entry_lines(run.inputs.scenario_path(name))
        question = f"{inputs.queries_of(lines)[-1]}\n".encode()
        for variant in run.variants:
            live = [run.program, "live", str(run.inputs.map_path(name)), *variant.words]
            peak = measure.peak_memory(live, question)
            rows.append({"map": name, "engine": variant.engine, "states": variant.states, "peak": peak})
        run.progress.step((place + 1) / len(run.growth_maps))
    run.results["memory"] = rows


# ---------------------------------------------------------------- libraries

def library_jobs(run):
    """Each library on each map that is not too large for it, with the same entries as the program."""
    jobs = []
    for name in run.library_maps:
        told = run.results["maps"][name]
        head, lines = inputs.entry_lines(run.inputs.scenario_path(name))
        for library, words in run.libraries.items():
            _, count, most_cells = programs.LIBRARIES[library]
            if told["width"] * told["height"] > most_cells:
                continue
            path = run.scratch.write(f"{name}-{count}.scen", head + "".join(inputs.evenly(lines, count)))
            jobs.append((name, library, programs.library_call(library, words, run.inputs.map_path(name), path)))
    return jobs


def ask_library(words, row, folder):
    """One call of a library's program, which prints a line of JSON with its own times."""
    if row["library"] in SLOW and len(row["per_query"]) >= SLOW_TURNS:
        return
    done = subprocess.run(words, stdout=subprocess.PIPE, stderr=subprocess.PIPE, text=True, check=False, cwd=folder)
    told = [line for line in done.stdout.splitlines() if line.startswith("{")]
    if not told:
        row["fault"] = (done.stderr.strip().splitlines() or ["no words"])[-1][:160]
        return
    answer = json.loads(told[0])
    row["per_query"].append(answer["mean"])
    row["prepared"].append(answer["prepared"])
    row["wrong"] = answer["wrong"]


def library_cases(run):
    """The program on the entries that the libraries get: `plain`, and `block` with one state for each cell."""
    cases = []
    for name in run.library_maps:
        head, lines = inputs.entry_lines(run.inputs.scenario_path(name))
        for count in sorted({it[1] for it in programs.LIBRARIES.values()}):
            few = (head, inputs.evenly(lines, count))
            for variant in (Variant("plain"), Variant("block", "cell" if run.knows_states else "arrival")):
                repeats = repeats_for(run, name, variant, run.contestants[0], count)
                case = Case(run, name, variant, run.contestants[0], few, repeats)
                case.row["asked"] = count
                cases.append(case)
    return cases


def repeats_for(run, name, variant, contestant, count):
    """How often so few entries are repeated, by what a query took before; its number tells these files apart."""
    wanted = {"map": name, "engine": variant.engine, "states": variant.states, "program": contestant.name}
    rows = run.results.get("queries", [])
    known = [min(row["per_query"]) for row in rows if all(row[key] == value for key, value in wanted.items())]
    once = count * max(known[0], 1e-6) if known else run.least_seconds / 20
    return max(1, int(run.least_seconds / once) + 1)


def libraries(run):
    jobs = library_jobs(run)
    rows = [{"map": name, "library": library, "per_query": [], "prepared": []} for name, library, _ in jobs]
    cases = library_cases(run) if jobs else []
    folder = run.scratch.folder.name                         # Godot writes a log where it is started
    calls = [lambda words=words, row=row: ask_library(words, row, folder) for (_, _, words), row in zip(jobs, rows)]
    calls += [lambda case=case, kind=kind: case.call(kind) for case in cases for kind in case.calls]
    take_turns(run, calls, run.turns)
    for row in rows:
        if "fault" in row:
            run.tell(f"{row['library']} gave no times on {row['map']}: {row['fault']}")
    beside = [{**case.result(), "asked": case.row["asked"]} for case in cases]
    run.results["libraries"] = {"rows": rows, "beside": beside}


# ---------------------------------------------------------------- counts, taken states

def counted_row(run, name, variant, contestant):
    """Instructions, wrong branches and misses for each further query of some entries."""
    head, lines = inputs.entry_lines(run.inputs.scenario_path(name))
    chosen = inputs.evenly(lines, COUNTED + 1)
    stem = f"{name}-{variant.name}-{contestant.name}-counted".replace(" ", "-")
    whole = run.scratch.write(f"{stem}.scen", head + "".join(chosen))
    first = run.scratch.write(f"{stem}-first.scen", head + chosen[0])
    map_path = run.inputs.map_path(name)
    more, less = (measure.counted(run.counter, contestant.scen(map_path, path, variant)) for path in (whole, first))
    row = {"map": name, "engine": variant.engine, "states": variant.states, "program": contestant.name}
    row["entries"] = len(chosen)
    if more and less:
        row["per_query"] = {key: (more[key] - less[key]) / (len(chosen) - 1) for key in more}
        row["first"] = less
    return row


def counts(run):
    """Counts of the program, the reference and the textbook's searches. Callgrind's are the same whatever else runs."""
    run.results["counts"] = {"by": run.counter, "rows": []}
    if not run.counter:
        run.tell("nothing is counted: neither may perf count here, nor does valgrind run")
        return
    pairs = [(name, variant) for name in run.maps for variant in run.variants]
    counted = [*(it for it in run.contestants if it.name in ("jps", "reference")), run.textbook]
    jobs = [(*pair, contestant) for pair in pairs for contestant in counted if contestant.knows(pair[1])]
    done = 0
    jobs_at_once = 1 if run.counter == "perf" else run.jobs  # real caches are shared
    with concurrent.futures.ThreadPoolExecutor(jobs_at_once) as pool:
        waiting = [pool.submit(counted_row, run, *job) for job in jobs]
        for it in concurrent.futures.as_completed(waiting):
            run.results["counts"]["rows"].append(it.result())
            done += 1
            run.progress.step(done / len(jobs))
    silent = sum("per_query" not in row for row in run.results["counts"]["rows"])
    if silent:
        run.tell(f"{silent} of {len(jobs)} counts gave no numbers")
    order = [(name, variant.engine, variant.states, contestant.name) for name, variant, contestant in jobs]
    run.results["counts"]["rows"].sort(key=lambda row: order.index(tuple(row[key] for key in KEYS)))


def taken(run):
    """For each entry its length and how many states each engine takes, for a picture and the table's counts."""
    rows = []
    kinds = [it for it in run.variants if it.engine in ("plain", "block")]
    for place, name in enumerate(run.maps):
        for variant in kinds:
            kept = run.scratch.path("taken")
            files = run.inputs.map_path(name), run.inputs.scenario_path(name)
            words = run.contestants[0].scen(*files, variant, "show=taken")
            measure.seconds_of(words, keep=kept)
            points = []
            for line in kept.read_text().splitlines():
                fields = line.split()
                if fields[0] == "row" and "taken" in fields and len(fields) == 7:
                    points.append([round(int(fields[3]) + int(fields[4]) * 2**0.5, 2), int(fields[6])])
            rows.append({"map": name, "engine": variant.engine, "states": variant.states, "points": points})
        run.progress.step((place + 1) / len(run.maps))
    run.results["taken"] = rows


def cpu_count():
    return min(4, os.cpu_count() or 1)
