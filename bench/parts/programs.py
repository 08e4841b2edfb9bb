"""The programs that are measured: how they are built, called, and what they and the machine are."""

import os
import pathlib
import platform
import re
import shutil
import subprocess
import sys

BENCH = pathlib.Path(__file__).resolve().parent.parent
TOP = BENCH.parent

ENGINES = ("plain", "jps", "block", "plus")
JUMPS = ENGINES[1:]
OPTIONS = ["-std=c++17", "-O3", "-march=x86-64-v2"]

# Each library: the Debian package that has it, how many entries it is asked, and the largest map that is tried.
LIBRARIES = {
    "Boost.Graph A*": ("libboost-graph-dev", 20, 1 << 24),
    "petgraph A*": ("librust-petgraph-dev", 20, 6_000_000),
    "libtcod A*": ("libtcod-dev", 20, 6_000_000),
    "LEMON Dijkstra": ("liblemon-dev", 20, 6_000_000),
    "Godot 3 AStar2D": ("godot3-server", 6, 300_000),
    "networkx A*": ("python3-networkx", 6, 300_000),
}


def output_of(words, default=""):
    """What a command prints, or the default where it cannot be run."""
    try:
        done = subprocess.run(words, stdout=subprocess.PIPE, stderr=subprocess.DEVNULL, text=True, check=False)
    except OSError:
        return default
    return done.stdout.strip() if done.returncode == 0 else default


def own():
    """The program that ./jps runs."""
    return subprocess.run([TOP / "jps", "--program"], check=True, stdout=subprocess.PIPE, text=True).stdout.strip()


def handed_over():
    """The programs of dist/, by system."""
    found = [*TOP.glob("dist/*/jps"), *TOP.glob("dist/*/jps.exe"), *TOP.glob("dist/*/jps.wasm")]
    return {path.parent.name: path for path in sorted(found)}


def is_older(made, *sources):
    """Whether what was made is absent or older than one of its sources."""
    return not made.exists() or any(made.stat().st_mtime < source.stat().st_mtime for source in sources)


def compile_one(words, target):
    """Compiles to the target, or tells why not."""
    try:
        done = subprocess.run(words, stdout=subprocess.PIPE, stderr=subprocess.STDOUT, text=True, check=False)
    except OSError as fault:
        return str(fault)
    if done.returncode == 0 and target.exists():
        return None
    faults = [line for line in done.stdout.splitlines() if "error" in line] or done.stdout.splitlines() or ["no words"]
    return faults[0].strip()[:160]


def build_reference(folder):
    """The reference as a program."""
    folder.mkdir(parents=True, exist_ok=True)
    source, target = BENCH / "reference" / "reference.cpp", folder / "reference"
    if is_older(target, source, source.with_name("textbook.hpp")):
        fault = compile_one([os.environ.get("CXX", "g++"), *OPTIONS, "-o", str(target), str(source)], target)
        if fault:
            sys.exit(f"bench: the reference cannot be built: {fault}")
    return str(target)


def build_petgraph(folder):
    target = folder / "petgraph" / "release" / "petgraph_astar"
    manifest = BENCH / "libraries" / "petgraph" / "Cargo.toml"
    words = ["cargo", "build", "--release", "--offline", "--quiet", "--manifest-path", str(manifest)]
    words += ["--target-dir", str(folder / "petgraph")]
    words += ["--config", 'source.crates-io.replace-with="debian"']
    words += ["--config", 'source.debian.directory="/usr/share/cargo/registry"']
    return [str(target)], compile_one(words, target)


def build_in_cpp(folder, name, more=()):
    source, target = BENCH / "libraries" / f"{name}.cpp", folder / name
    if not is_older(target, source, BENCH / "libraries" / "common.hpp"):
        return [str(target)], None
    words = [os.environ.get("CXX", "g++"), *OPTIONS, "-o", str(target), str(source), *more]
    return [str(target)], compile_one(words, target)


def godot():
    words = ["godot3-server", "--no-window", "-s", str(BENCH / "libraries" / "godot3.gd")]
    return words, None if shutil.which(words[0]) else "godot3-server is not installed"


def networkx():
    words = ["/usr/bin/python3", str(BENCH / "libraries" / "networkx_astar.py")]
    has = output_of([words[0], "-c", "import networkx; print(networkx.__version__)"])
    return words, None if has else "the system's Python has no networkx"


def build_libraries(folder, tell):
    """The commands of the libraries that are there; of each other one a line is told."""
    folder.mkdir(parents=True, exist_ok=True)
    makers = {
        "Boost.Graph A*": lambda: build_in_cpp(folder, "boost"),
        "petgraph A*": lambda: build_petgraph(folder),
        "libtcod A*": lambda: build_in_cpp(folder, "libtcod", ["-ltcod"]),
        "LEMON Dijkstra": lambda: build_in_cpp(folder, "lemon"),
        "Godot 3 AStar2D": godot,
        "networkx A*": networkx,
    }
    commands = {}
    for name, make in makers.items():
        words, fault = make()
        if fault:
            tell(f"{name} is left out (Debian's package: {LIBRARIES[name][0]}): {fault}")
        else:
            commands[name] = words
    return commands


def library_call(name, words, map_path, scenario_path):
    """The whole command that asks a library for the entries of a scenario."""
    if name.startswith("Godot"):
        return [*words, f"--map={map_path}", f"--scen={scenario_path}"]
    return [*words, str(map_path), str(scenario_path)]


def knows_states(program):
    """Whether the program has `states=` beside the engines that jump."""
    return "states=" in output_of([program, "--help"])


def package_versions(names):
    told = output_of(["dpkg-query", "-W", "-f", "${Package} ${Version}\\n", *names])
    if not told:                                             # it ends with 1 where one of them is not there
        told = "\n".join(output_of(["dpkg-query", "-W", "-f", "${Package} ${Version}", name]) for name in names)
    return dict(line.split() for line in told.splitlines() if len(line.split()) == 2)


def processor():
    """The processor's name and its caches."""
    told = pathlib.Path("/proc/cpuinfo").read_text() if os.path.exists("/proc/cpuinfo") else ""
    name = re.search(r"model name\s*:\s*(.*)", told)
    caches = {}
    for place in sorted(pathlib.Path("/sys/devices/system/cpu/cpu0/cache").glob("index*")):
        level, kind = ((place / it).read_text().strip() for it in ("level", "type"))
        caches[f"L{level} {kind}"] = (place / "size").read_text().strip()
    return {"name": name[1] if name else platform.processor(), "count": os.cpu_count(), "caches": caches}


def memory():
    told = pathlib.Path("/proc/meminfo").read_text() if os.path.exists("/proc/meminfo") else ""
    total = re.search(r"MemTotal:\s*(\d+)", told)
    return int(total[1]) * 1024 if total else None


def facts(program):
    """What has to be known of a run: machine, compilers, versions, commit."""
    git = ["git", "-C", str(TOP)]
    return {
        "program": output_of([program, "--version"]),
        "commit": output_of([*git, "rev-parse", "HEAD"]),
        "changed": output_of([*git, "status", "--porcelain", "--untracked-files=no"]).splitlines(),
        "processor": processor(),
        "memory": memory(),
        "system": f"{platform.system()} {platform.release()}, {output_of(['getconf', 'GNU_LIBC_VERSION'])}",
        "python": platform.python_version(),
        "compiler": output_of([os.environ.get("CXX", "g++"), "--version"]).split("\n")[0],
        "options": " ".join(OPTIONS),
        "cargo": output_of(["cargo", "--version"]),
        "valgrind": output_of(["valgrind", "--version"]),
        "packages": package_versions([it[0] for it in LIBRARIES.values()]),
    }
