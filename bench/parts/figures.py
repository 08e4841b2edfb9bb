"""The tables of README, docs/SPEED.md and bench/FIGURES.md, made of the results and put between marks in the pages.

A mark is a line `<!--bench:NAME-->`; what stands between it and the next line `<!--/bench-->` is written anew each
time, and nothing else of a page is touched. Parts that a run has not measured stay as they are.
"""

import re

import inputs
import numbers_of as told
import plots
import programs
from rows_of import (
    cells_of,
    engine_words,
    find,
    main_states,
    maps_of,
    name_of,
    ratio_of,
    run_words,
    short,
    states_of,
)
from tick_figures import tick_words, ticks_table, ticks_text

ENGINES, JUMPS = programs.ENGINES, programs.JUMPS
MOST = 1.15                              # above this the part of the open list is told
TEXTBOOK = "../bench/FIGURES.md#beside-the-textbook"


def medians(rows, states=None, other="reference", engines=ENGINES):
    """For each engine the median over the maps of the ratios to another program."""
    found = {}
    for engine in engines:
        key = "arrival" if engine == "plain" else states or main_states(rows, engine)
        ratios = [ratio_of(rows, name, engine, key, other=other) for name in maps_of(rows)]
        ratios = [it[0] for it in ratios if it]
        if ratios:
            found[engine] = told.median(ratios)
    return found


# ---------------------------------------------------------------- times of queries

def origin(results):
    """One line that says of which run the figures are."""
    facts = results["facts"]
    load = results.get("load", {}).get("before", {}).get("load", "unknown")
    words = [
        f"Measured {results['began']} by `bench/run` on commit {facts['commit'][:8]}",
        ", with changes: " if facts["changed"] else ": ",
        f"{facts['program']}, {facts['processor']['name']} ({facts['processor']['count']} processors, pinned to one), ",
        f"load at the start {load}, {facts['compiler']} `{facts['options']}`, ",
        f"{results['turns']} turns in random order. All figures: [bench/results](../bench/results/latest.json).",
    ]
    return "".join(words)


def queries_table(results, states, engines):
    """Each map by each engine: the median time of a further query, and its ratio to the reference."""
    rows = results["queries"]
    head = ["Map", "Cells", *(word for engine in engines for word in (f"`{engine}`", "ratio"))]
    lines = []
    for name in maps_of(rows):
        line = [name_of(name), cells_of(results, name).replace(" ", "")]
        for engine in engines:
            key = "arrival" if engine == "plain" else states or main_states(rows, engine)
            mine = find(rows, map=name, engine=engine, states=key, program="jps")
            ratio = ratio_of(rows, name, engine, key)
            line.append(told.micros(told.median(mine["per_query"])) if mine else "")
            line.append(told.ratio_text(ratio) if ratio else "")
        lines.append(line)
    middle = medians(rows, states, engines=engines)
    last = [word for engine in engines for word in ("", f"{middle[engine]:.2f}" if engine in middle else "")]
    lines.append(["median of the ratios", "", *last])
    return told.table(head, lines)


def cell_gain(results):
    """How the time with one state for each cell compares with that with one for each arrival."""
    rows = results["queries"]
    lines = []
    for name in maps_of(rows):
        line = [short(name)]
        for engine in JUMPS:
            pair = [find(rows, map=name, engine=engine, states=it, program="jps") for it in ("cell", "arrival")]
            line.append(told.ratio_text(told.ratio(*(it["per_query"] for it in pair))) if all(pair) else "")
        lines.append(line)
    return told.table(["`states=cell` over `arrival`", *(f"`{it}`" for it in JUMPS)], lines)


def arrival_line(results):
    """How long the searches by arrival take, in one line: the medians over the maps, and the least and largest."""
    rows = results["queries"]
    found = []
    for engine in JUMPS:
        pairs = [[find(rows, map=name, engine=engine, states=it, program="jps") for it in ("arrival", "cell")]
                 for name in maps_of(rows)]
        ratios = [told.ratio(*(it["per_query"] for it in pair))[0] for pair in pairs if all(pair)]
        if ratios:
            found.append(f"`{engine}` {told.median(ratios):.2f} ({min(ratios):.2f} to {max(ratios):.2f})")
    words = "By arrival, the setting where none is named, they take so many times as long (median over the maps): "
    return f"{words}{', '.join(found)}; [FIGURES](../bench/FIGURES.md#with-one-state-for-each-arrival) has each map."


def textbook_text(results):
    """Each map by each engine beside the searches as the papers have them."""
    part, lines = results["textbook"], []
    rows = part["rows"]
    for name in maps_of(rows):
        found = [ratio_of(rows, name, it, main_states(rows, it), other="textbook") for it in ENGINES]
        lines.append([name_of(name), *(told.ratio_text(it) if it else "" for it in found)])
    middle = medians(rows, other="textbook")
    lines.append(["median", *(f"{middle[it]:.2f}" if it in middle else "" for it in ENGINES)])
    words = "The time over that of searches as the papers have them, with one node for each cell; of `plain` over that of "
    words += f"A\\* by buckets. The median of the ratios of {part['turns']} turns; {run_words(results, 'textbook')}."
    return [words, told.table(["Map", *(f"`{it}`" for it in ENGINES)], lines)]


def heap_table(results):
    """Where an engine takes more than 1.15 of the reference's time: which part is the kind of open list."""
    rows = results["queries"]
    lines = []
    for name in maps_of(rows):
        for states in states_of(rows):
            for engine in JUMPS:
                whole = ratio_of(rows, name, engine, states)
                heap = ratio_of(rows, name, engine, states, "pairing", "reference")
                rest = ratio_of(rows, name, engine, states, "jps", "pairing")
                if whole and heap and rest and whole[0] > MOST:
                    words = engine_words({"engine": engine, "states": states})
                    lines.append([name_of(name), f"`{words}`", *(told.ratio_text(it) for it in (whole, heap, rest))])
    if not lines:
        return f"No engine takes more than {MOST} of the reference's time on any of these maps."
    head = ["Map", "Engine", "Beside the reference", "of it the kind of open list", "the rest"]
    return told.table(head, lines)


def has_cell(results):
    return "cell" in states_of(results["queries"])


def has_pairing(results):
    return any(row["program"] == "pairing" for row in results["queries"])


def queries_text(results):
    parts = [origin(results), queries_table(results, None, ENGINES)]
    parts.append(
        "A time is the mean of a map's further queries (150 to 400), by its median over the turns; behind it stands the "
        "median of the turns' ratios to the C++ reference of the same engine; `~` says that they do not tell it from 1. "
        "The engines that jump have one state for each cell here (`states=cell`), as the field's JPS has."
    )
    if has_cell(results):
        parts.append(arrival_line(results))
    for other in dict.fromkeys(row["program"] for row in results["queries"]):
        if other not in ("jps", "reference", "pairing"):
            parts.append(f"Beside the build {other}, the median of the ratios: {middle_words(results['queries'], other)}.")
    if results.get("textbook"):
        words = middle_words(results["textbook"]["rows"], "textbook")
        parts.append(f"Beside [the textbook's searches]({TEXTBOOK}), the median of the ratios: {words}.")
    return parts


def middle_words(rows, other):
    """The medians of the ratios to another program, by engine."""
    middle = medians(rows, other=other)
    return ", ".join(f"`{engine}` {ratio:.2f}" for engine, ratio in middle.items())


def told_queries(results):
    """What a run prints: the rows with their spread."""
    if "queries" not in results:
        return "no queries were measured"
    lines = [["Map", "Engine", "Program", "least", "lower quarter", "median", "ratio", "quarters of the turns"]]
    for row in results["queries"]:
        ratio = ratio_of(results["queries"], row["map"], row["engine"], row["states"], row["program"])
        beside = [told.ratio_text(ratio), f"{ratio[1]:.2f} to {ratio[2]:.2f}"]
        if row["program"] == "reference":
            beside = ["", ""]
        engine = engine_words(row)
        lines.append([row["map"], engine, row["program"], *map(told.micros, told.spread(row["per_query"])), *beside])
    widths = [max(len(line[place]) for line in lines) for place in range(len(lines[0]))]
    return "\n".join("  ".join(word.ljust(width) for word, width in zip(line, widths)).rstrip() for line in lines)


# ---------------------------------------------------------------- spread and counts

def spread_text(results):
    rows = results["queries"]
    lines = []
    for row in (row for row in rows if row["program"] == "jps"):
        key = {it: row[it] for it in ("map", "engine", "states")}
        other = find(rows, program="reference", **key)
        ratio = told.ratio(row["per_query"], other["per_query"])
        engine = engine_words(row)
        own, theirs = (", ".join(told.micros(it)[:-3] for it in told.spread(it["per_query"])) for it in (row, other))
        lines.append([name_of(row["map"]), f"`{engine}`", own, theirs, f"{ratio[1]:.2f} to {ratio[2]:.2f}"])
    head = ["Map", "Engine", "least, lower quarter, median (us)", "the reference's", "quarters of the ratios of turns"]
    return [told.table(head, lines)]


def counts_text(results):
    rows = results["counts"]["rows"]
    if not rows:
        return None
    has_textbook = any(row["program"] == "textbook" for row in rows)
    kinds = ("instructions", "wrong branches", "near misses", "misses")
    names = [it for it in kinds if any(it in row.get("per_query", {}) for row in rows)]
    lines = []
    for row in rows:
        key = {it: row[it] for it in ("map", "engine", "states")}
        other, textbook = (find(rows, program=it, **key) for it in ("reference", "textbook"))
        if row["program"] != "jps" or not (other and "per_query" in row and "per_query" in other):
            continue
        line = [name_of(row["map"]), f"`{engine_words(row)}`", row["entries"] - 1]
        for name in names:
            own, theirs = row["per_query"][name], other["per_query"][name]
            line.append(f"{told.three(own / 1e3)} ({own / theirs:.2f})" if theirs > 0 else told.three(own / 1e3))
        if has_textbook:
            theirs = textbook.get("per_query") if textbook else None
            line.append(f"{row['per_query']['instructions'] / theirs['instructions']:.2f}" if theirs else "")
        lines.append(line)
    if not lines:
        return None
    model = "valgrind's callgrind, whose caches and guesses are a model"
    by = "`perf stat`" if results["counts"]["by"] == "perf" else model
    words = f"Thousands for each further query, in brackets the ratio to the reference's; counted by {by}, on so many "
    words += f"further entries of each map, evenly from its lengths ({run_words(results, 'counts')})."
    head = ["Map", "Engine", "entries", *names]
    if has_textbook:
        head.append("instructions beside the textbook's")
        lines.append(["median", "", "", *[""] * len(names), textbook_counts(rows)])
    return [words, told.table(head, lines)]


def textbook_counts(rows):
    """The medians over the maps of the instructions beside the textbook's searches."""
    found = {}
    for row in rows:
        key = {it: row[it] for it in ("map", "engine", "states")}
        other = find(rows, program="textbook", **key)
        if row["program"] == "jps" and other and "per_query" in row and "per_query" in other:
            ratio = row["per_query"]["instructions"] / other["per_query"]["instructions"]
            found.setdefault(row["engine"], []).append(ratio)
    return ", ".join(f"`{engine}` {told.median(ratios):.2f}" for engine, ratios in found.items())


# ---------------------------------------------------------------- libraries

def beside(results, name, asked, engine):
    """The median time of a query of the program on the entries that a library was asked."""
    rows = results["libraries"]["beside"]
    row = find(rows, map=name, engine=engine, program="jps", asked=asked)
    return told.median(row["per_query"]) if row else None


def asked_of(library):
    import programs

    return programs.LIBRARIES[library][1]


def library_ratios(results):
    """For each map and library how many times as long as `plain` and as `block` of the program it takes."""
    found = {}
    for row in results["libraries"]["rows"]:
        if not row["per_query"]:
            continue
        mean, asked = told.median(row["per_query"]), asked_of(row["library"])
        pair = [beside(results, row["map"], asked, engine) for engine in ("plain", "block")]
        if all(pair):
            found[row["map"], row["library"]] = tuple(mean / it for it in pair)
    return found


def libraries_text(results):
    found = library_ratios(results)
    names = list(dict.fromkeys(library for _, library in found))
    if not found:
        return None
    lines = []
    for name in dict.fromkeys(name for name, _ in found):
        pairs = [found.get((name, library)) for library in names]
        lines.append([short(name), *(", ".join(map(told.times_as_long, pair)) if pair else "" for pair in pairs)])
    wrong = sorted({row["library"] for row in results["libraries"]["rows"] if row.get("wrong")})
    agree = f"Other lengths were told by {', '.join(wrong)}." if wrong else "All lengths agreed."
    states = next((row["states"] for row in results["libraries"]["beside"] if row["engine"] == "block"), "arrival")
    block = engine_words({"engine": "block", "states": states})
    words = f"How many times as long a library takes as the program's `plain` and as its `{block}`, on the same queries. "
    words += agree
    return [words, told.table(["Map", *names], lines)]


# ---------------------------------------------------------------- starts, edits, pipe, growth, memory

PROCESS_WORDS = {
    "make": "`make` of {side}x{side}, a quarter blocked",
    "draw": "`draw` of the city",
    "prove": "`prove` of the city's longest query",
    "check": "`check` of that certificate",
    "costs": "`costs`: all least costs from a corner of an open map of {side}x{side}",
    "tables": "`tables` of that map",
    "problems": "`problems`: 1000 on the city",
    "judge": "`judge`: 300 walks of the city",
    "boxes": "all goal boxes of 128x128, a quarter blocked",
    "moves": "all first moves of that map",
}


def process_words(name, side):
    if name in PROCESS_WORDS:
        return PROCESS_WORDS[name].format(side=side)
    if name.startswith("first answer"):
        where = f"{side}x{side}, a quarter blocked (map read, a query from a cell to itself)"
        return f"start on {where}, by `{name.split(', ')[1]}`"
    _, kind, engine = name.split(", ")
    scattered = kind == "scattered"
    where = f"on {side}x{side}, a quarter blocked" if scattered else f"in the middle of {side}x{side} open cells"
    return f"one edit {where}, by `{engine}`"


IN_FIGURES_ALONE = ("`make`", "`draw`", "`problems`", "`judge`", "`tables`")    # of other work


def processes_text(results):
    """The medians; the engines of one kind of work stand in one row."""
    side = results["processes"]["side"]
    found = {}
    for name, row in results["processes"]["rows"].items():
        words, _, engine = process_words(name, side).partition(", by ")
        found.setdefault(words, []).append((engine, told.seconds(max(told.median(row["processor"]), 1e-9))))
    lines = []
    for words, told_of in found.items():
        if words.startswith(IN_FIGURES_ALONE):
            continue
        by = ", ".join(engine for engine, _ in told_of if engine)
        lines.append([f"{words}, by {by}" if by else words, ", ".join(value for _, value in told_of)])
    words = "More: [FIGURES](../bench/FIGURES.md#other-work)."
    return [told.table(["What, the whole process but for edits", "Time"], lines), words]


def process_spread_text(results):
    """The least time, the lower quarter and the median, and the median by the clock."""
    side = results["processes"]["side"]
    lines = []
    for name, row in results["processes"]["rows"].items():
        values = (told.seconds(max(it, 1e-9)) for it in told.spread(row["processor"]))
        clock = told.seconds(told.median(row["clock"])) if "clock" in row else ""
        lines.append([process_words(name, side), *values, clock])
    return [told.table(["What", "least", "lower quarter", "median", "median by the clock"], lines)]


def asked_words(row):
    return "neighbours on an open map" if row["map"] == "neighbours" else name_of(row["map"])


def pipe_spread_text(results):
    lines = []
    for row in results["pipe"]:
        engine = engine_words(row)
        who = "the pipe alone (`cat`)" if engine == "cat" else f"`{engine}`"
        lines.append([asked_words(row), who, row["questions"], *(told.seconds(row[it]) for it in ("0.5", "0.99", "0.999"))])
    head = ["Questions", "By", "How many", "median", "99 of 100 within", "999 of 1000 within"]
    return ["By the clock.", told.table(head, lines)]


def by_size(results, part, write):
    """A table of one value for each size and engine."""
    rows = results[part]
    kinds = list(dict.fromkeys((row["engine"], row["states"]) for row in rows))
    lines = []
    for name in maps_of(rows):
        found = [find(rows, map=name, engine=engine, states=states) for engine, states in kinds]
        lines.append([cells_of(results, name), *(write(row) if row else "" for row in found)])
    words = [engine_words({"engine": engine, "states": states}) for engine, states in kinds]
    return told.table(["Cells", *(f"`{it}`" for it in words)], lines)


def elsewhere_ratios(results, name, engine):
    """How many times as long a query takes in each host of the module as in the program."""
    rows, kind = results["elsewhere"]["rows"], {"map": name, "engine": engine}
    mine = find(rows, program="jps", **kind)["per_query"]
    return [told.ratio(find(rows, program=it, **kind)["per_query"], mine)[0] for it in results["elsewhere"]["hosts"]]


def elsewhere_text(results):
    """The median over the maps, and the sizes of the programs."""
    names, hosts = maps_of(results["elsewhere"]["rows"]), results["elsewhere"]["hosts"]
    middle = []
    for engine in ENGINES:
        each = zip(*(elsewhere_ratios(results, name, engine) for name in names))
        middle.append(f"`{engine}` {', '.join(f'{told.median(it):.2f}' for it in each)}")
    words = f"A query takes so many times as long in {' and in '.join(hosts)} as in the program (the median over "
    words += f"{len(names)} maps; [each](../bench/FIGURES.md#as-a-webassembly-module)): {'; '.join(middle)}. A 64-bit "
    words += "memory has each access tested. On ARM nothing was timed: qemu, by which it is tried, tells no times."
    sizes = [f"{name} {path.stat().st_size / 1e6:.2f}" for name, path in programs.handed_over().items()]
    return [words, f"Sizes of the programs in MB: {', '.join(sizes)}."]


def elsewhere_table(results):
    """Each map by each engine, in each host of the module."""
    names = maps_of(results["elsewhere"]["rows"])
    lines = [
        [short(name), *(", ".join(f"{it:.2f}" for it in elsewhere_ratios(results, name, engine)) for engine in ENGINES)]
        for name in names
    ]
    words = f"How many times as long a query takes in {' and in '.join(results['elsewhere']['hosts'])} as in the program, "
    words += f"by the clock, with `states=cell` ({run_words(results, 'elsewhere')})."
    return [words, told.table(["Map", *(f"`{it}`" for it in ENGINES)], lines)]


def growth_text(pictures):
    """The picture."""
    words = "Cities of five sizes, each with 40 queries spread over all lengths: the mean time of a further query. "
    words += "[FIGURES](../bench/FIGURES.md#how-it-grows) has the numbers, and the memory that is taken."
    told_of = "the time of a query by the side of the map, a line for each engine"
    return ["## How it grows", words, *picture("growth", pictures, told_of)]


def growth_numbers_text(results):
    """The times, and the memory."""
    parts = ["The mean time of a further query, by its median over the turns:"]
    parts.append(by_size(results, "growth", lambda row: told.seconds(told.median(row["per_query"]))))
    if results.get("memory"):
        parts.append("The most memory that a `live` takes which has answered one of the longest queries:")
        parts.append(by_size(results, "memory", lambda row: told.megabytes(row["peak"])))
    return parts


def picture(part, pictures, words):
    return [f'<img src="../bench/results/{pictures[part]}" width="640" alt="{words}">'] if part in pictures else []


# ---------------------------------------------------------------- open land, the dearest queries

KIND_WORDS = {
    "short": "a query to a cell at most 8 columns and rows away",
    "walled in": "a query to a goal that is walled in",
    "edit": "an edit of the middle cell",
}
DEAR_WORDS = {
    "combs": "combs beside all borders",
    "pillars": "pillars at every second cell of every second row",
    "checkers": "checkers, rule `both`",
    "spiral": "a spiral, from end to end",
    "open": "open land, from corner to corner",
    "scattered": "a quarter blocked, from corner to corner",
}

QUICK_FOR_JUMPS = ("spiral", "open")     # these have room in bench/FIGURES.md alone


def open_land_spread_text(results):
    lines = []
    for row in results["open_land"]["rows"]:
        values = (told.seconds(row[it]) for it in ("0.5", "0.99"))
        lines.append([KIND_WORDS[row["kind"]], f"`{engine_words(row)}`", row["questions"], *values])
    words = "On {0} x {0} open cells, through `live`, by the clock.".format(results["open_land"]["side"])
    return [words, told.table(["Question", "By", "How many", "median", "99 of 100 within"], lines)]


def dear_time(row):
    """A median of seconds; what is shorter than the start of a process can tell has no digits."""
    return told.seconds(max(told.median(row["per_query"]), 1e-6)) if row else ""


def dear_words(row):
    return f"{DEAR_WORDS[row['map']]}, {row['side']}x{row['side']}"


def dearest_text(results):
    """The largest of each kind: by arrival, and by cell; the memory of the last."""
    rows = results["dearest"]["rows"]
    sides = {row["map"]: row["side"] for row in rows}        # the last of a kind is the largest
    lines = []
    for kind, side in sides.items():
        if kind in QUICK_FOR_JUMPS:
            continue
        line = [dear_words({"map": kind, "side": side})]
        for engine in ENGINES:
            pair = (find(rows, map=kind, side=side, engine=engine, states=it) for it in ("arrival", "cell"))
            line.append(", ".join(dear_time(row) for row in pair if row))
        lines.append(line)
    words = "The dearest queries that are known, by arrival and by cell (of the first three the goal is walled in). "
    words += "[FIGURES](../bench/FIGURES.md#the-dearest-queries) has more."
    return [words, told.table(["Map", *(f"`{it}`" for it in ENGINES)], lines)]


def dearest_numbers_text(results):
    rows = results["dearest"]["rows"]
    kinds = list(dict.fromkeys((row["engine"], row["states"]) for row in rows))
    lines, memory = [], ["the most memory of a `live` that answered the last one"]
    for name, side in dict.fromkeys((row["map"], row["side"]) for row in rows):
        found = [find(rows, map=name, side=side, engine=engine, states=states) for engine, states in kinds]
        lines.append([dear_words({"map": name, "side": side}), *map(dear_time, found)])
        if all(row and row.get("peak") for row in found):
            memory += [told.megabytes(row["peak"]) for row in found]
    words = [f"`{engine_words({'engine': engine, 'states': states})}`" for engine, states in kinds]
    turns = f"The median of {results['dearest']['turns']} turns:"
    return [turns, told.table(["Map", *words], [*lines, memory] if len(memory) > 1 else lines)]


def taken_table(results):
    """How many states all entries of a map take together: the engines that jump take the same ones."""
    rows = results["taken"]
    kinds = {"`plain`": ("plain", "arrival"), "by arrival": ("block", "arrival"), "by cell": ("block", "cell")}
    lines = []
    for name in maps_of(rows):
        found = [find(rows, map=name, engine=engine, states=states) for engine, states in kinds.values()]
        sums = [sum(count for _, count in row["points"]) / 1e6 if row else None for row in found]
        lines.append([short(name), *("" if it is None else told.three(it) for it in sums)])
    return told.table(["Million states of all queries", *kinds], lines)


# ---------------------------------------------------------------- README

def main_rows(rows):
    """The program's rows in the main tables."""
    mine = [row for row in rows if row["program"] == "jps"]
    return [row for row in mine if row["states"] == main_states(rows, row["engine"])]


def reference_row(rows):
    """How the program stands to the reference: the medians over the maps, and the least and largest ratio."""
    mine = main_rows(rows)
    ratios = [ratio_of(rows, row["map"], row["engine"], row["states"])[0] for row in mine]
    middle = ", ".join(f"`{engine}` {value:.2f}" for engine, value in medians(rows).items())
    middle = middle.replace("` ", "` takes ", 1)
    words = f"{middle} times as long (medians; {min(ratios):.2f} to {max(ratios):.2f})"
    return ["[our own C++ program](bench/reference) of the same engines", words]


def library_words(found):
    """The libraries in one line; behind those that were not asked on all maps, on how many they were."""
    libraries = list(dict.fromkeys(library for _, library in found))
    maps = [sum(other == library for _, other in found) for library in libraries]
    names = [" ".join(library.split()[:-1]) for library in libraries]
    return ", ".join(name if count == max(maps) else f"{name} ({count} maps)" for name, count in zip(names, maps))


def library_row(results):
    """The least and largest ratio of a library to `plain` and to `block`; networkx is too slow to stand here."""
    found = {key: pair for key, pair in library_ratios(results).items() if not key[1].startswith("networkx")}
    plain = [pair[0] for (_, library), pair in found.items() if "Dijkstra" not in library]
    walls = [pair[1] for (name, _), pair in found.items() if name == "random25"]
    block = [pair[1] for (name, _), pair in found.items() if name != "random25"]
    if not plain or not block or not walls:
        return None
    words = [told.times_as_long(pick(them)) for them in (plain, block, walls) for pick in (min, max)]
    by_arrival = find(results["libraries"]["beside"], engine="block", states="arrival")
    row = "A* takes {} to {} times as long as `plain`; all take {} to {} times as long as `block`"
    row += f"{' by arrival' if by_arrival else ''}, among scattered walls {{}} to {{}}"
    return [library_words(found), row.format(*words)]


def readme_text(results):
    """The rows of README. It may have few words, so there are as many as before."""
    rows = [row for row in results["queries"] if row["program"] in ("jps", "reference")]
    lines = [reference_row(rows), library_row(results) if "libraries" in results else None]
    if results.get("textbook"):
        jumps = [row for row in results["textbook"]["rows"] if row["engine"] in JUMPS]
        lines[0][1] += f"; [as in the papers](bench/reference/textbook.hpp): {middle_words(jumps, 'textbook')}"
    names = sorted(maps_of(rows), key=lambda name: results["maps"][name]["width"] * results["maps"][name]["height"])
    sizes = [cells_of(results, name).replace("x", "×") for name in (names[0], names[-1])]
    head = f"On {len(names)} maps, from {sizes[0]} to {sizes[1]} cells, with `states=cell`"
    mine = main_rows(rows)
    quick, slow = (choose(mine, key=lambda row: told.median(row["per_query"])) for choose in (min, max))
    last = f"A mean query takes from {mean_words(quick)} to {mean_words(slow)}"
    last = f"{last}.".replace(" us", " µs")
    return [told.table(["Beside", head], [line for line in lines if line]), last]


# How README, which may have few words, names a map out of a package.
REAL_WORDS = {"campus": "campus", "windfury": "game map", "underworld": "game map", "continent": "game world"}


def mean_words(row):
    where = REAL_WORDS.get(row["map"]) or short(row["map"]).split(",")[0]
    return f"{told.seconds(told.median(row['per_query']))} (`{row['engine']}`, {where})"


class Medians:
    """The medians that README's table of engines tells, each without its unit."""

    def __init__(self, results):
        self.results = results

    def query(self, name, engine, unit="µs", states="arrival"):
        row = find(self.results["queries"], map=name, engine=engine, states=states, program="jps")
        return told.in_unit(told.median(row["per_query"]), unit)

    def open_land(self, kind, engine, unit):
        rows = self.results["open_land"]["rows"]
        return told.in_unit(find(rows, kind=kind, engine=engine, states=main_states(rows, engine))["0.5"], unit)

    def dearest(self, kind, engine, states):
        row = find(self.results["dearest"]["rows"], map=kind, engine=engine, states=states)
        return f"{told.median(row['per_query']):.2f}"

    def process(self, name, unit):
        value = max(told.median(self.results["processes"]["rows"][name]["processor"]), 1e-9)
        return f"{value:.2f}" if unit == "s" else told.in_unit(value, unit)


def engines_text(results):
    """README's table of engines: which one suits is typed here, so read it after a run; the figures are the run's."""
    parts = ("queries", "open_land", "processes", "dearest")
    if not all(results.get(part) for part in parts) or not find(results["queries"], map="rooms32", states="cell"):
        return None
    of = Medians(results)
    open_side, side = (f"{results[part]['side']} × {results[part]['side']}" for part in ("open_land", "processes"))
    first = [of.process(f"first answer, {engine}", "s") for engine in ("plain", "block", "plus")]
    rooms = [of.query("rooms32", *it) for it in ROOMS]
    far_side = find(results["dearest"]["rows"], map="scattered")["side"]
    walls = [far_side, far_side, *(of.dearest("scattered", *it) for it in WALLS)]
    short = [of.open_land("short", engine, "µs") for engine in ("plain", "plus", "block", "jps")]
    far = [of.open_land("walled in", engine, "ms") for engine in ("plus", "block", "jps", "plain")]
    edits = [of.process("edit, scattered, block", "µs"), of.process("edit, scattered, plus", "µs")]
    edits.append(of.process("edit, open, plus", "ms"))
    told_of = [
        f"start on {side}: {first[0]}, {first[1]} s; `plus` makes tables, {first[2]} s",
        "rooms, 512 × 512: {}, {} µs, `plain` {}".format(*rooms),
        f"open, {open_side}, through `live`: {{}}, {{}} µs; `block` {{}}, `jps` {{}}".format(*short),
        "there: {}, {} ms; `jps` {}, `plain` {}".format(*far),
        f"{{}} µs; `plus` {{}} µs, amid open land {{}} ms ({side})".format(*edits),
        "across {} × {}: {}, {} s, `plain` {}; by arrival {}, {}".format(*walls),
    ]
    told_of.append(tick_words(results))
    lines = [[*row, figures] for row, figures in zip(SUITED, told_of)]
    return [told.table(["Your queries", "Engine", "Figures, with `states=cell`"], lines)]


# Which engines suit which queries; the order of the figures is that of the engines.
SUITED = (
    ("one, or few", "`plain`, `block`"),
    ("many, far, in rooms or mazes", "`plus`, `block`"),
    ("short, on open land", "`plain`, `plus`"),
    ("unreachable goals on open land", "`plus`, `block`"),
    ("edits", "`block`"),
    ("scattered walls, a quarter blocked", "`plus`, `block`"),
    ("for games: `serve`", "`block`"),
)
ROOMS = (("plus", "µs", "cell"), ("block", "µs", "cell"), ("plain",))
WALLS = (("plus", "cell"), ("block", "cell"), ("plain", "arrival"), ("plus", "arrival"), ("block", "arrival"))


# ---------------------------------------------------------------- pages

def speed_blocks(results, pictures):
    """What stands between which marks of docs/SPEED.md."""
    has, blocks = results.get, {}
    if has("queries"):
        words = "time of a query by map, a dot for each engine"
        blocks["queries"] = [*queries_text(results), *picture("queries", pictures, words)]
    if has("libraries") and results["libraries"]["rows"]:
        blocks["libraries"] = libraries_text(results)
    if has("processes"):
        blocks["processes"] = processes_text(results)
    if has("dearest"):
        blocks["dearest"] = dearest_text(results)
    if has("elsewhere") and results["elsewhere"]["rows"]:
        blocks["elsewhere"] = elsewhere_text(results)
    if has("growth"):
        blocks["growth"] = growth_text(pictures)
    if has("ticks"):
        blocks["ticks"] = ticks_text(results)
    if has("taken"):
        words = "How many states `plain` and `block` take, by the length of the walk; those of all queries together: "
        words += "[FIGURES](../bench/FIGURES.md#taken-states)."
        seen = picture("taken", pictures, "taken states against the length of the walk, a box for each map")
        blocks["taken"] = ["## Taken states", words, *seen]
    return blocks


def more_blocks(results):
    """What stands between which marks of bench/FIGURES.md."""
    has, blocks = results.get, {}
    if has("queries"):
        blocks["spread"] = spread_text(results)
        if has_cell(results):
            blocks["arrival"] = [queries_table(results, "arrival", JUMPS), cell_gain(results)]
        if has_pairing(results):
            words = "Beside the reference with the program's kind of open list, the median of the ratios: "
            blocks["heaps"] = [heap_table(results), f"{words}{middle_words(results['queries'], 'pairing')}."]
    if has("textbook"):
        blocks["textbook"] = textbook_text(results)
    if has("counts"):
        blocks["counts"] = counts_text(results)
    if has("taken"):
        blocks["taken"] = [taken_table(results)]
    numbers = {
        "processes": process_spread_text,
        "pipe": pipe_spread_text,
        "open_land": open_land_spread_text,
        "dearest": dearest_numbers_text,
        "growth": growth_numbers_text,
        "ticks": ticks_table,
        "elsewhere": elsewhere_table,
    }
    return blocks | {name: write(results) for name, write in numbers.items() if has(name)}


def blocks_of(results, pictures):
    """What stands between which marks of which page."""
    readme = {"engines": engines_text(results)}
    if results.get("queries"):
        readme["readme"] = readme_text(results)
    blocks = {"docs/SPEED.md": speed_blocks(results, pictures), "README.md": readme}
    blocks["bench/FIGURES.md"] = more_blocks(results)
    for found in blocks.values():
        for name in list(found):
            found[name] = "\n\n".join(found[name]) if found[name] else None
    return blocks


def with_block(text, name, block):
    """The page with this block between its marks; a page without these marks stays as it is."""
    mark = f"<!--bench:{name}-->"
    end = "<!--/bench-->"
    return re.sub(rf"^{mark}$.*?^{end}$", lambda _: f"{mark}\n\n{block}\n\n{end}", text, flags=re.M | re.S)


def write_pages(results, top):
    """Writes the pictures, and the blocks of the pages of a checkout."""
    folder = top / "bench" / "results"
    folder.mkdir(parents=True, exist_ok=True)
    pictures = plots.write_pictures(results, folder)
    for page, blocks in blocks_of(results, pictures).items():
        path = top / page
        text = path.read_text()
        for name, block in blocks.items():
            if not block:                                    # the part found nothing that it could measure
                continue
            if f"<!--bench:{name}-->" not in text:
                print(f"bench: {page} has no mark for {name}")
            text = with_block(text, name, block)
        path.write_text(text)
    print(f"bench: wrote {', '.join(sorted(pictures.values()))} and the tables of {', '.join(blocks_of(results, pictures))}")
