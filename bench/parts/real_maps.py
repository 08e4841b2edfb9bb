"""Maps that others made, out of Debian packages: fetched by apt-get and unpacked by dpkg, nothing is installed."""

import gzip
import pathlib
import re
import shutil
import struct
import subprocess
import zipfile

FREE, WALL, WATER = b".@W"

# Each map: the packages that it is made of.
PACKAGES = {
    "campus": ["mrpt-common"],
    "windfury": ["warzone2100-data"],
    "underworld": ["flare-game"],
    "continent": ["crossfire-maps", "crossfire-common"],
}


def unpacked(package, folder):
    """The folder of a package's files, fetched where it is not there."""
    root = pathlib.Path(folder) / package
    if not root.is_dir():
        pathlib.Path(folder).mkdir(parents=True, exist_ok=True)
        subprocess.run(["apt-get", "download", package], cwd=folder, check=True, capture_output=True)
        archive = next(pathlib.Path(folder).glob(f"{package}_*.deb"))
        subprocess.run(["dpkg", "-x", archive.name, package], cwd=folder, check=True)
        archive.unlink()
    return root


def campus(root):
    """mrpt: an occupancy grid that a robot measured; a cell is free where its log-odds are above 0."""
    text = gzip.open(root / "usr/share/mrpt/datasets/2006-MalagaCampus.gridmap.gz").read()
    name_length = text[0] & 127
    if text[1 : 1 + name_length] != b"COccupancyGridMap2D":
        raise ValueError("the grid of the campus has another form")
    head = 1 + name_length + 2
    width, height = struct.unpack_from("<II", text, head)
    cells = text[head + 28 :]
    free = bytes(FREE if 0 < value < 128 else WALL for value in range(256))
    return [bytearray(cells[y * width : (y + 1) * width].translate(free)) for y in range(height - 1, -1, -1)]


def windfury(root):
    """warzone2100: cliffs and water block what drives (terrain kinds 8 and 7)."""
    for name in ("mp.wz", "base.wz"):
        archive = zipfile.ZipFile(root / "usr/share/games/warzone2100" / name)
        for path in sorted(archive.namelist()):
            if path.endswith("/9c-WindFury/game.map"):
                return warzone_rows(archive.read(path), archive.read(path[:-8] + "ttypes.ttp"))
    raise ValueError("the package has no map 9c-WindFury")


def warzone_rows(cells, kinds):
    width, height = struct.unpack_from("<II", cells, 8)
    (count,) = struct.unpack_from("<I", kinds, 8)
    kind_of = struct.unpack_from(f"<{count}H", kinds, 12)

    def byte(place):
        tile = struct.unpack_from("<H", cells, 16 + 3 * place)[0] & 511
        return {8: WALL, 7: WATER}.get(kind_of[tile] if tile < count else 0, FREE)

    return [bytearray(byte(y * width + x) for x in range(width)) for y in range(height)]


def underworld(root):
    """flare-game: the layer of collisions; 0 and the marks of maps, 5 and 6, can be passed. Each cell as 4 x 4."""
    path = next(root.glob("usr/share/games/flare/mods/*/maps/underworld.txt"))
    text = path.read_text(encoding="utf-8", errors="replace")
    width, height = (int(re.search(rf"^{side}=(\d+)", text, re.M)[1]) for side in ("width", "height"))
    layer = re.search(r"\[layer\]\s*type=collision\s*(?:format=\w+\s*)?data=\s*\n((?:[\d,\s]+\n)+)", text)[1]
    values = [int(it) for it in re.findall(r"\d+", layer)]
    rows = []
    for y in range(height):
        row = bytearray()
        for value in values[y * width : (y + 1) * width]:
            row += bytes([FREE if value in (0, 5, 6) else WALL]) * 4
        rows += [bytearray(row) for _ in range(4)]
    return rows


def blocking_parts(path):
    """crossfire: for each kind of object the cells of it that cannot be walked on."""
    parts, name, head, is_more, in_message, x, y, blocks = {}, None, None, False, False, 0, 0, False
    for line in open(path, encoding="latin-1"):
        words = line.split()
        if not words:
            continue
        if in_message:
            in_message = words[0] != "endmsg"
        elif words[0] == "msg":
            in_message = True
        elif words[0] == "More":
            is_more = True
        elif words[0] == "Object":
            name, x, y, blocks = words[1], 0, 0, False
        elif words[0] == "x":
            x = int(words[1])
        elif words[0] == "y":
            y = int(words[1])
        elif words[0] == "move_block":
            blocks = words[1] in ("all", "walk")
        elif words[0] == "end" and name:
            if not is_more:
                head = name
                parts[head] = []
            if blocks:
                parts[head].append((x, y))
            is_more, name = False, None
    return parts


def placed_objects(path):
    """crossfire: the objects that lie on a map: kind, column, row, and whether it is said that they block."""
    depth, in_message = 0, False
    kind, x, y, own = None, 0, 0, None
    for line in open(path, encoding="latin-1"):
        words = line.split()
        if not words:
            continue
        if in_message:
            in_message = words[0] != "endmsg"
        elif words[0] == "msg":
            in_message = True
        elif words[0] == "arch":
            depth += 1
            if depth == 1:
                kind, x, y, own = words[1], 0, 0, None
        elif words[0] == "end":
            depth -= 1
            if depth == 0 and kind != "map":
                yield kind, x, y, own
        elif depth == 1 and words[0] == "x":
            x = int(words[1])
        elif depth == 1 and words[0] == "y":
            y = int(words[1])
        elif depth == 1 and words[0] == "move_block":
            own = len(words) > 1 and words[1] in ("all", "walk")


def continent(maps, common):
    """crossfire: its world of 30 x 30 maps of 50 x 50 cells; a cell is blocked where an object blocks walking."""
    parts = blocking_parts(common / "usr/share/games/crossfire/archetypes")
    side = 1500
    rows = [bytearray([FREE]) * side for _ in range(side)]
    for place in range(900):
        left, top = place % 30, place // 30
        path = maps / f"usr/share/games/crossfire/maps/world/world_{100 + left}_{100 + top}"
        if not path.exists():
            continue
        for kind, x, y, own in placed_objects(path):
            cells = parts.get(kind, []) if own is None else [(0, 0)] if own else []
            for dx, dy in cells:
                column, row = left * 50 + x + dx, top * 50 + y + dy
                if 0 <= column < side and 0 <= row < side:
                    rows[row][column] = WALL
    return rows


MAKERS = {"campus": campus, "windfury": windfury, "underworld": underworld, "continent": continent}


def real_map(name, folder):
    """The rows of a map; its packages are fetched into the folder, and taken away again, as they are large."""
    roots = [unpacked(package, folder) for package in PACKAGES[name]]
    rows = MAKERS[name](*roots)
    for root in roots:
        shutil.rmtree(root)
    return rows
