#!/usr/bin/env python3
"""Cuts the scenarios of a folder into pieces and joins what jps answered to them.

    pieces.py cut [--size N] PROGRAM FOLDER WORK [engine=ENGINE] [rule=RULE] [show=taken]
    pieces.py join WORK

`cut` takes each X.map of FOLDER that has a scenario beside it, X.map.scen or X.scen, and makes the folder
WORK: the program, the maps, pieces of at most N entries' lines (1000), and `list`, one line for each piece,
its map and its name. Each piece is a scenario of its own. `./piece` answers one, in WORK, and leaves
rows/NAME there, whose last line is jps's status. What has no partner, a map or a scenario, is told on
standard error and left out. Names with a tab or an end of line, and names that are no UTF-8, are refused.

`join` writes joined/X.rows, the bytes that `jps scen` would print for the whole scenario, and prints the sum
of each and of all. Its status is that of the whole: the one that a single process would end with, the first
scenario's that is refused or fails. 7 is one more: pieces have no answer yet.
"""

import argparse
import io
import os
import pathlib
import re
import shutil
import sys
import tempfile

LACKING = 7
SUM = re.compile(rb"sum (\d+) agree (\d+) near (\d+) off (\d+) other (\d+)(?: taken (\d+))?")
KINDS = b"sum %d agree %d near %d off %d other %d"


def scenario_of(map_file):
    """The scenario beside a map, or None."""
    beside = (map_file.with_name(f"{map_file.name}.scen"), map_file.with_suffix(".scen"))
    return next((it for it in beside if it.is_file()), None)


def pieces_of(text, size):
    """The lines of a scenario in pieces, the first line at the head of each."""
    head, *lines = io.BytesIO(text).readlines() or [b""]
    return [head + b"".join(lines[k : k + size]) for k in range(0, max(len(lines), 1), size)]


def pairs_in(folder):
    """The maps with a scenario beside them; what has no partner is told."""
    pairs = [(it, scenario_of(it)) for it in sorted(folder.glob("*.map"))]
    used = {scenario for _, scenario in pairs}
    for map_file, scenario in pairs:
        if not scenario:
            print(f"{map_file}: left out, as no scenario is beside it", file=sys.stderr)
    for scenario in sorted(folder.glob("*.scen")):
        if scenario not in used:
            print(f"{scenario}: left out, as no map is beside it", file=sys.stderr)
    pairs = [pair for pair in pairs if pair[1]]
    if not pairs:
        sys.exit(f"{folder}: no map with a scenario beside it")
    for map_file, _ in pairs:
        if re.search(r"[\t\r\n]", map_file.name):
            sys.exit(f"{map_file.name!r}: a name with a tab or an end of line can't be listed")
        if re.search(r"[\udc80-\udcff]", map_file.name):
            sys.exit(f"{map_file.name!r}: a name that is no UTF-8 is no word for jps")
    return pairs


def cut(given):
    pairs = pairs_in(given.folder)
    # made beside WORK and renamed in the end, so that WORK is whole where it is there
    made = pathlib.Path(tempfile.mkdtemp(prefix=f"{given.work.name}.", dir=given.work.resolve().parent))
    try:
        fill(made, pairs, given)
        os.rename(made, given.work)
    except BaseException:
        shutil.rmtree(made, ignore_errors=True)
        raise


def fill(made, pairs, given):
    """Makes what WORK has to have."""
    for name in ("maps", "pieces", "rows"):
        (made / name).mkdir()
    shutil.copy(given.program, made / "jps")
    shutil.copy(pathlib.Path(__file__).with_name("piece"), made / "piece")
    (made / "settings").write_text(" ".join(given.settings) + "\n")
    (made / "size").write_text(f"{given.size}\n")
    listed = []
    for map_file, scenario in pairs:
        shutil.copy(map_file, made / "maps")
        for number, piece in enumerate(pieces_of(scenario.read_bytes(), given.size)):
            name = f"{map_file.stem}.{number:05}"
            (made / "pieces" / name).write_bytes(piece)
            listed.append(f"{map_file.stem}\t{name}\n")
    (made / "list").write_bytes(os.fsencode("".join(listed)))
    made.chmod(0o755)


def fault_of_whole(fault, number, size):
    """The line of a refused piece, with the line's number in the whole scenario. Line 1 is in each."""
    found = re.fullmatch(rb"(jps: scen C\d line )(\d+)", fault)
    if not found or int(found[2]) == 1:
        return fault
    return b"%s%d" % (found[1], int(found[2]) + number * size)


def summed(totals):
    """The sum of lines `sum ..`, as such a line: with the taken states where each of them tells these."""
    told = [SUM.fullmatch(it).groups() for it in totals]
    kinds = KINDS % tuple(sum(int(it[k]) for it in told) for k in range(5))
    is_counted = told and all(it[5] for it in told)
    return kinds + (b" taken %d" % sum(int(it[5]) for it in told) if is_counted else b"")


def join_pieces(answers, size):
    """What one process would print for the whole: its output, its line on standard error, its status."""
    lines, totals = [], []
    for number, text in enumerate(answers):
        *told, last = text.splitlines()
        status = int(last.split()[1])
        if status > 1:
            return b"", fault_of_whole(b"".join(told[-1:]), number, size), status
        *rows, total = told
        for row in rows:
            lines.append(b"row %d %s" % (len(lines) + 1, row.split(b" ", 2)[2]))
        totals.append(total)
    lines.append(summed(totals))
    _, _, _, off, other, _ = SUM.fullmatch(lines[-1]).groups()
    return b"".join(it + b"\n" for it in lines), b"", int(int(off) + int(other) > 0)


def join(given):
    size = int((given.work / "size").read_text())
    (given.work / "joined").mkdir(exist_ok=True)
    names, lacking, statuses, totals = {}, [], [], []
    for line in os.fsdecode((given.work / "list").read_bytes()).split("\n")[:-1]:
        stem, name = line.split("\t")
        names.setdefault(stem, []).append(given.work / "rows" / name)
    for stem, files in names.items():
        absent = [it.name for it in files if not it.exists()]
        if absent:
            lacking += absent
            continue
        try:
            output, fault, status = join_pieces((it.read_bytes() for it in files), size)
        except (ValueError, LookupError, AttributeError):
            sys.exit(f"pieces.py: an answer rows/{stem}.* is damaged: take it away, and call again")
        (given.work / "joined" / f"{stem}.rows").write_bytes(output)
        statuses.append(status)
        total = output.splitlines()[-1] if output else fault
        if output:
            totals.append(total)
        print(f"{stem}: {total.decode()}")
    print(summed(totals).decode())
    if lacking:
        told = f"{len(lacking)} pieces have no answer yet, {lacking[0]} is the first: call it again"
        print(told, file=sys.stderr)
        sys.exit(LACKING)
    sys.exit(next((it for it in statuses if it > 1), max(statuses)))


def positive(word):
    value = int(word)
    if value < 1:
        raise argparse.ArgumentTypeError("a piece has one entry at least")
    return value


def main():
    # names of folders need not be UTF-8
    for stream in (sys.stdout, sys.stderr):
        stream.reconfigure(errors="surrogateescape")
    words = argparse.ArgumentParser(description=__doc__, formatter_class=argparse.RawDescriptionHelpFormatter)
    verbs = words.add_subparsers(required=True)
    cutting, joining = verbs.add_parser("cut"), verbs.add_parser("join")
    cutting.add_argument("--size", type=positive, default=1000)
    cutting.add_argument("program", type=pathlib.Path)
    cutting.add_argument("folder", type=pathlib.Path)
    for verb in (cutting, joining):
        verb.add_argument("work", type=pathlib.Path)
    cutting.add_argument("settings", nargs="*")
    cutting.set_defaults(call=cut)
    joining.set_defaults(call=join)
    given = words.parse_args()
    try:
        given.call(given)
    except (OSError, ValueError) as fault:
        sys.exit(f"pieces.py: {fault}")


main()
