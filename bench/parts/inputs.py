"""The inputs: maps from seeds, or from Debian packages, and scenarios on them; their sums are checked.

Everything is written below one folder, and made again only where it is not there. bench/inputs.json has the first 16
digits of the SHA-256 of each file. A file with another sum is no fault of the program, but its figures stand beside
no others: it is told, and the results name it.
"""

import hashlib
import json
import pathlib
import subprocess
import zlib

import made_maps
import real_maps

SUMS = pathlib.Path(__file__).resolve().parent.parent / "inputs.json"

# The maps of the tables: how they are told, how they are made, how many entries their scenarios have.
MADE = {
    "random25": ("random, a quarter blocked", lambda: made_maps.scatter(512, 512, 25, 3), 400),
    "maze8": ("maze, corridors of 8", lambda: made_maps.maze(512, 512, 8, 6), 400),
    "rooms32": ("rooms of 32", lambda: made_maps.rooms(512, 512, 32, 9), 400),
    "city1024": ("city", lambda: made_maps.city(1024, 1024, 11), 300),
    "caves1024": ("caves", lambda: made_maps.caves(1024, 1024, 12), 300),
}
REAL = {
    "campus": ("campus measured by a robot (mrpt, Malaga)", 150),
    "windfury": ("game map, cliffs and water (warzone2100, WindFury)", 300),
    "underworld": ("game map, each cell as 4 x 4 (flare, underworld)", 300),
    "continent": ("game world of 900 maps (crossfire)", 300),
}

# How it grows: cities of these sides, each from its own seed.
SIDES = (256, 512, 1024, 2048, 4096)
GROWTH = {f"city{side}of{len(SIDES)}": side for side in SIDES}
GROWTH_ENTRIES = 40

TOLD = {name: it[0] for name, it in {**MADE, **REAL}.items()}


def growth_rows(side):
    return made_maps.city(side, side, 20 + side // 256)


def map_text(rows):
    head = b"type octile\nheight %d\nwidth %d\nmap\n" % (len(rows), len(rows[0]))
    return head + b"".join(bytes(row) + b"\n" for row in rows)


def rows_of(name, packages):
    if name in MADE:
        return MADE[name][1]()
    if name in GROWTH:
        return growth_rows(GROWTH[name])
    return real_maps.real_map(name, packages)


def entries_of(name):
    if name in GROWTH:
        return GROWTH_ENTRIES
    return MADE[name][2] if name in MADE else REAL[name][1]


class Inputs:
    """A folder of inputs. `reference` is the program that writes the scenarios."""

    def __init__(self, folder, reference):
        self.folder = pathlib.Path(folder)
        self.reference = reference
        self.folder.mkdir(parents=True, exist_ok=True)
        self.wanted = json.loads(SUMS.read_text()) if SUMS.exists() else {}
        self.sums = {}

    def map_path(self, name):
        return self.folder / f"{name}.map"

    def scenario_path(self, name):
        return self.folder / f"{name}.scen"

    def make(self, name):
        """Makes a map and its scenario; what is told of it."""
        map_path, scenario_path = self.map_path(name), self.scenario_path(name)
        if not map_path.exists():
            write(map_path, map_text(rows_of(name, self.folder / "packages")))
        if not scenario_path.exists():
            count, seed = str(entries_of(name)), str(zlib.crc32(name.encode()))
            words = [self.reference, "scenario", str(map_path), count, seed, map_path.name]
            write(scenario_path, subprocess.run(words, check=True, stdout=subprocess.PIPE).stdout)
        for path in (map_path, scenario_path):
            self.sums[path.name] = hashlib.sha256(path.read_bytes()).hexdigest()[:16]
        return self.told(name)

    def told(self, name):
        """Size, share of free cells and number of entries of a map."""
        text = self.map_path(name).read_bytes()
        head, _, cells = text.partition(b"map\n")
        height, width = int(head.split()[3]), int(head.split()[5])
        free = sum(cells.count(byte) for byte in (b".", b"G", b"S"))
        entries = self.scenario_path(name).read_bytes().count(b"\n") - 1
        share = round(free / (width * height), 3)
        return {"width": width, "height": height, "free": share, "entries": entries, "told": TOLD.get(name, "city")}

    def other_sums(self):
        """The files whose sums are not the stored ones."""
        return sorted(name for name, value in self.sums.items() if self.wanted.get(name) != value)

    def store_sums(self):
        kept = {**self.wanted, **self.sums}
        SUMS.write_text(json.dumps(dict(sorted(kept.items())), indent=1) + "\n")


def write(path, data):
    """Writes a file whole or not at all, as a run may be ended at any time."""
    part = path.with_suffix(path.suffix + ".part")
    part.write_bytes(data)
    part.rename(path)


def entry_lines(path):
    """The head of a scenario, and its entries."""
    head, *entries = path.read_text().splitlines(keepends=True)
    return head, entries


def evenly(things, count):
    """So many of the things, from all parts alike."""
    count = min(count, len(things))
    return [things[(2 * place + 1) * len(things) // (2 * count)] for place in range(count)]


def queries_of(entries):
    """The entries of a scenario as lines of a script."""
    return ["query " + " ".join(line.split("\t")[4:8]) for line in entries]
