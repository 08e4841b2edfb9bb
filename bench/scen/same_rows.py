#!/usr/bin/env python3
"""Whether engines answer alike, over a folder of maps with scenarios.

    same_rows.py PROGRAM FOLDER ENGINE ENGINE .. [--walks] [--rule RULE] [--queries N]

For each map of the folder with a scenario beside it (X.map with X.map.scen or X.scen) N of its entries (300), evenly
spread, are answered by each engine. Without --walks they are judged by `scen`: a row shows the cost of a walk, so
equal output is equal costs. With --walks they are asked by `solve` with show=trace: each line has the points and
every state that the search took. ENGINE+cell is the engine with one state for each cell. Prints a line for each map
and ends with status 1 where two engines differ, or where the folder has no such pair of files.
"""

import argparse
import hashlib
import pathlib
import subprocess
import sys
import tempfile


def scenario_of(map_file):
    """The scenario beside a map, or None."""
    beside = (map_file.with_name(f"{map_file.name}.scen"), map_file.with_suffix(".scen"))
    return next((it for it in beside if it.is_file()), None)


def spread(entries, count):
    """So many of the entries, evenly spread, the first among them."""
    count = min(count, len(entries))
    return [entries[k * len(entries) // count] for k in range(count)]


def script_of(entries):
    """A query for each entry: its start and its goal are the fields before the listed length."""
    ends = (entry.split()[-5:-1] for entry in entries)
    return "".join(f"query {' '.join(four)}\n" for four in ends)


def picked(engine):
    """The settings that pick an engine: `block`, or `block+cell` for one state for each cell."""
    name, _, states = engine.partition("+")
    return [f"engine={name}", *([f"states={states}"] if states else [])]


def digest_of(words):
    """The digest of what the program prints. Status 1 of `scen` says that a listed length is off."""
    made = subprocess.Popen([str(word) for word in words], stdout=subprocess.PIPE, stderr=subprocess.PIPE)
    digest, lines = hashlib.sha256(), 0
    for piece in iter(lambda: made.stdout.read(1 << 20), b""):
        digest.update(piece)
        lines += piece.count(b"\n")
    told = made.stderr.read().decode().strip()
    if made.wait() not in (0, 1):
        sys.exit(f"{' '.join(map(str, words))}: status {made.returncode}: {told}")
    return digest.hexdigest(), lines


def main():
    words = argparse.ArgumentParser(description=__doc__, formatter_class=argparse.RawDescriptionHelpFormatter)
    words.add_argument("program")
    words.add_argument("folder", type=pathlib.Path)
    words.add_argument("engines", nargs="+")
    words.add_argument("--walks", action="store_true")
    words.add_argument("--rule", default="none", choices=["none", "one", "both"])
    words.add_argument("--queries", type=int, default=300)
    given = words.parse_args()
    pairs = [(it, scenario_of(it)) for it in sorted(given.folder.glob("*.map"))]
    pairs = [pair for pair in pairs if pair[1]]
    differ = 0
    for map_file, scenario in pairs:
        head, *entries = scenario.read_text().splitlines(keepends=True)
        entries = spread(entries, given.queries)
        with tempfile.NamedTemporaryFile("w") as asked:
            asked.write(script_of(entries) if given.walks else head + "".join(entries))
            asked.flush()
            call = [given.program, "solve" if given.walks else "scen", map_file, asked.name]
            shown = ["show=trace"] if given.walks else []
            told = {
                engine: digest_of([*call, *picked(engine), f"rule={given.rule}", *shown])
                for engine in given.engines
            }
        first = told[given.engines[0]]
        others = [engine for engine in given.engines if told[engine] != first]
        differ += bool(others)
        print(f"{map_file.stem}: {first[1]} lines: {'differs by ' + ', '.join(others) if others else 'same'}", flush=True)
    print(f"{len(pairs)} maps, {differ} differ")
    sys.exit(1 if differ or not pairs else 0)


main()
