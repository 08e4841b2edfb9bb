#!/usr/bin/env python3
"""Processor time per further query of a scenario, for one program or several in turn.

  per_query.py MAP SCEN PROGRAM [PROGRAM ..] [--engine ENGINE] [--states STATES] [--rounds N] [--rule RULE]

Each program is called as `PROGRAM scen MAP SCEN engine=ENGINE` (plain), with `states=STATES` and
`rule=RULE` where these are given (states=cell is the field's setting), once with all entries and
once with the first one alone; the difference over the other entries is the time of a further query,
without the start of the process, the reading of the map and the tables or bits that are made of it.
The least of the rounds counts. With several programs their outputs are compared, and ratios are
those to the first program.
"""
import argparse
import pathlib
import resource
import subprocess
import tempfile


def call(program, map_file, scen_file, settings):
    """Seconds of processor time of one call, and its output."""
    before = resource.getrusage(resource.RUSAGE_CHILDREN)
    done = subprocess.run([program, "scen", map_file, scen_file, *settings], stdout=subprocess.PIPE)
    after = resource.getrusage(resource.RUSAGE_CHILDREN)
    return after.ru_utime + after.ru_stime - before.ru_utime - before.ru_stime, done.stdout


def main():
    parser = argparse.ArgumentParser(description=__doc__, formatter_class=argparse.RawDescriptionHelpFormatter)
    parser.add_argument("map")
    parser.add_argument("scen")
    parser.add_argument("programs", nargs="+", metavar="PROGRAM")
    parser.add_argument("--engine", default="plain")
    parser.add_argument("--states", choices=("arrival", "cell"))
    parser.add_argument("--rounds", type=int, default=3)
    parser.add_argument("--rule")
    options = parser.parse_args()
    given = {"engine": options.engine, "states": options.states, "rule": options.rule}
    settings = [f"{name}={value}" for name, value in given.items() if value]
    lines = pathlib.Path(options.scen).read_text().splitlines(keepends=True)
    with tempfile.TemporaryDirectory() as folder:
        first_alone = pathlib.Path(folder) / "first.scen"
        first_alone.write_text("".join(lines[:2]))
        times = {program: [] for program in options.programs}
        outputs = set()
        for _ in range(options.rounds):
            for program in options.programs:
                whole, output = call(program, options.map, options.scen, settings)
                first, _ = call(program, options.map, str(first_alone), settings)
                times[program].append((whole - first) / (len(lines) - 2))
                outputs.add(output)
    base = min(times[options.programs[0]])
    for program in options.programs:
        best = min(times[program])
        print(f"{best * 1e6:10.0f} us a query  {best / base:5.2f}  {program}")
    if len(outputs) > 1:
        raise SystemExit("the outputs differ")


if __name__ == "__main__":
    main()
