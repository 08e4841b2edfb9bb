"""Tries jps-page --site: folders that cannot be written as a whole, signals, names that come twice."""

import os
import pathlib
import signal
import subprocess
import time

BIG = 1 << 28  # bytes of a module that takes its time


def made(room):
    """A folder with a module of no bytes."""
    room = pathlib.Path(room)
    (room / "module").mkdir()
    for name in ("jps.mjs", "jps.wasm", "said"):
        (room / "module" / name).touch()
    return room


def try_faults(program, top, room):
    """A folder of files that fails midway: a line, and nothing is left."""
    room = made(room)
    (room / "file").touch()
    named = os.fsencode(room) + b"/module/\xff.map"
    pathlib.Path(os.fsdecode(named)).touch()
    (room / "link").symlink_to("none")
    before = sorted(room.rglob("*"))
    for what, told, limit in [
        ("no name", [""], 100), ("a folder below a file", [room / "file/a"], 100),
        ("a link to nothing", [room / "link"], 100),
        ("a long name", [room / ("x" * 300)], 100), ("little room", [room / "a/b"], 8),
        ("a map's name in no UTF-8", [room / "a", named], 100),
    ]:
        call = [top / "jps-page", "--program", program, "--module", room / "module", "--site", *told]
        shell = ["sh", "-c", f'ulimit -f {limit} && exec "$@"', "-", *call]
        done = subprocess.run(shell, cwd=room, capture_output=True, timeout=60, check=False)
        left = sorted(room.rglob("*"))
        if done.returncode != 1 or not done.stderr.startswith(b"jps-page: ") or left != before:
            yield f"--site, {what}: status {done.returncode}, {done.stderr[-200:]!r}, {left}"


def try_ended(program, top, room):
    """A signal while the folder is written: nothing is left."""
    room = made(room)
    os.truncate(room / "module/jps.wasm", BIG)
    before = sorted(room.rglob("*"))
    for it in (signal.SIGINT, signal.SIGTERM, signal.SIGHUP):
        signal.signal(it, signal.SIG_DFL)  # (a shell may have begun this with it left out)
        call = [top / "jps-page", "--program", program, "--module", room / "module", "--site", room / "a/b"]
        with subprocess.Popen(call, stderr=subprocess.PIPE) as site:
            begun = time.monotonic()
            while not (room / "a/b/jps.wasm").exists() and time.monotonic() - begun < 20:
                time.sleep(0.001)
            site.send_signal(it)
            said = site.communicate()[1]
        left = sorted(set(room.rglob("*")) - set(before))
        if site.returncode != 130 or said or left:
            yield f"--site ended by {it.name}: status {site.returncode}, {said[-200:]!r}, leaves {left[:4]}"
            subprocess.run(["rm", "-rf", room / "a"], check=True)


def try_names(program, top, room):
    """A scenario with the name of another map's stays what it is; one with its own map's name is refused."""
    room = made(room)
    (room / "some.map").write_bytes((top / "maps/pillar.map").read_bytes())
    (room / "island.scen").write_text("version 1\n", encoding="ascii")
    put = room / "site/maps/island.scen"
    for scen, wanted in (("island.scen", (0, b"version 1\n")), ("some.map", (1, None))):
        call = [top / "jps-page", room / "some.map", room / scen, "--program", program]
        call += ["--module", room / "module", "--site", room / "site"]
        done = subprocess.run(call, capture_output=True, timeout=60, check=False)
        came = done.returncode, put.read_bytes()[:20] if put.exists() else None
        if came != wanted:
            yield f"--site of a scenario {scen}: {came} in place of {wanted}, {done.stderr[-200:]!r}"
        subprocess.run(["rm", "-rf", room / "site"], check=True)


PARTS = (try_faults, try_ended, try_names)
