"""Writes the page as a folder of files that any web server serves: the program itself runs in the browser.

What differs from the served page is the first tag of its two pages (which form api.js takes) and the policy, which
stands in the pages, as no server sends it.
"""

import contextlib
import hashlib
import json
import pathlib
import shutil
import signal

HERE = pathlib.Path(__file__).resolve().parent
TOP = HERE.parent
MODULE = ("jps.mjs", "jps.wasm")
PAGES = ("index.html", "jump.html")
# The signals that end a call.
ENDS = (signal.SIGINT, signal.SIGTERM, signal.SIGHUP)
SERVER_ALONE = ("asked.js",)
# Maps that each site has, with their scenarios.
MAPS = ((HERE / "island.map", HERE / "island.scen"), (TOP / "maps/game49.map", TOP / "maps/game49.map.scen"),
        (TOP / "docs/pictures/caves.map", None))
POLICY = (
    "default-src 'none'; script-src 'self' 'wasm-unsafe-eval'; style-src 'self'; connect-src 'self'; worker-src 'self'; "
    "img-src 'self' blob: data:; base-uri 'none'; form-action 'none'"
)


def as_site(html):
    """A page that asks the module, with its policy."""
    policy = f'<meta charset="utf-8">\n<meta http-equiv="Content-Security-Policy" content="{POLICY}">'
    return html.replace('<html lang="en">', '<html lang="en" data-form="site">').replace('<meta charset="utf-8">', policy)


def copy_maps(folder, named):
    """The maps and scenarios below `maps/`, but those whose names are taken; what site.json tells of them."""
    listed, names = [], set()
    for map_path, scen_path in named:
        paths = [it for it in (map_path, scen_path) if it]
        own = {it.name for it in paths}
        if len(own) < len(paths):
            raise ValueError(f"map and scenario have one name, {map_path.name}")
        if own & names:
            continue
        for path in paths:
            shutil.copyfile(path, folder / "maps" / path.name)
        names |= own
        listed.append({"map": map_path.name, "scen": scen_path.name if scen_path else None})
    return {"maps": listed}


def sums(folder):
    """A line for each file, as `sha256sum -c` reads it."""
    paths = sorted(it for it in folder.rglob("*") if it.is_file() and it.name != "MANIFEST")
    lines = [f"{hashlib.sha256(it.read_bytes()).hexdigest()}  {it.relative_to(folder).as_posix()}\n" for it in paths]
    return "".join(lines)


def take_signals(handler):
    for it in ENDS:
        if signal.getsignal(it) != signal.SIG_IGN:
            signal.signal(it, handler)


def empty(folder):
    """Takes away what was written, whatever signals come meanwhile."""
    take_signals(signal.SIG_IGN)
    for it in folder.iterdir():
        if it.is_dir():
            shutil.rmtree(it)
        else:
            it.unlink()


def write(told, module, map_path=None, scen_path=None):
    """Writes the folder, which must not be there or be empty; returns what is wrong, or None. What was written of one
    that fails is taken away."""
    folder, module = pathlib.Path(told), pathlib.Path(module)
    for name in MODULE:
        if not (module / name).is_file():
            return f"jps-page: there is no {name} in {module}"
    with contextlib.ExitStack() as undo:
        try:
            for it in reversed([it for it in (folder, *folder.parents) if not it.exists()]):
                it.mkdir()
                undo.callback(it.rmdir)
            if not folder.is_dir() or any(folder.iterdir()):
                return f"jps-page: {folder} is there, and not an empty folder"
            undo.callback(empty, folder)
            fill(folder, module, map_path, scen_path)
            undo.pop_all()
        except (OSError, ValueError) as fault:
            return f"jps-page: {folder} was not written: {fault}"
    return None


def fill(folder, module, map_path, scen_path):
    (folder / "maps").mkdir()
    for name in PAGES:
        (folder / name).write_text(as_site((HERE / name).read_text("utf-8")), "utf-8")
    for path in [HERE / "style.css", HERE / "jump.css", HERE / "icon.svg", *sorted(HERE.glob("*.js")), *(module / it for it in MODULE)]:
        if path.name not in SERVER_ALONE:
            shutil.copyfile(path, folder / path.name)
    named = [(pathlib.Path(map_path), pathlib.Path(scen_path) if scen_path else None)] if map_path else []
    (folder / "site.json").write_text(json.dumps(copy_maps(folder, [*named, *MAPS]), indent=1) + "\n")
    (folder / "MANIFEST").write_text(sums(folder))
