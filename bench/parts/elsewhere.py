"""A part of a run: the program as a WebAssembly module, in Node and in Chromium, beside the program itself.

By the clock, as a page has no other: a turn is one process of each, or one page, which works on all entries once
before it is timed. What is not there is left out, and a line says so.
"""

import functools
import http.server
import json
import os
import pathlib
import shutil
import subprocess
import sys
import threading

import measure
import phases
import programs

MODULE = programs.TOP / "dist" / "wasm64"
TIMES = programs.BENCH / "parts" / "module_times.mjs"
MODULE_TURNS = 5


class Quiet(http.server.SimpleHTTPRequestHandler):
    """Hands over files, and writes no line of each."""

    extensions_map = {**http.server.SimpleHTTPRequestHandler.extensions_map, ".mjs": "text/javascript"}

    def log_message(self, *_):
        pass


class Node:
    """The module in Node."""

    name = f"Node {programs.output_of(['node', '--version']).lstrip('v')}"

    def times(self, map_path, whole, first, words):
        call = ["node", str(TIMES), str(MODULE / "jps.mjs"), str(map_path), str(whole), str(first), *words]
        return json.loads(subprocess.run(call, check=True, stdout=subprocess.PIPE).stdout)

    def end(self):
        pass


class Chromium:
    """The module in a page of a headless Chromium, which has its files from a server on this machine."""

    name = " ".join(programs.output_of(["chromium", "--version"]).split()[:2])

    def __init__(self, run):
        sys.path.append(str(programs.TOP / "page"))
        from browser import Browser

        self.folder = run.scratch.path("page")
        self.folder.mkdir()
        for it in (MODULE / "jps.mjs", MODULE / "jps.wasm", TIMES):
            shutil.copy(it, self.folder)
        (self.folder / "index.html").write_text("<!doctype html><title>times</title>")
        take = functools.partial(Quiet, directory=str(self.folder))
        self.server = http.server.ThreadingHTTPServer(("127.0.0.1", 0), take)
        threading.Thread(target=self.server.serve_forever, daemon=True).start()
        self.address = f"http://127.0.0.1:{self.server.server_port}/"
        self.browser = Browser()

    def times(self, map_path, whole, first, words):
        for path in (map_path, whole, first):
            if not (self.folder / path.name).exists():
                os.symlink(path, self.folder / path.name)
        self.browser.go(self.address)
        asked = json.dumps([f"{self.address}jps.mjs", *(f"/{it.name}" for it in (map_path, whole, first)), words])
        return self.browser.run(f"import('/module_times.mjs').then((it) => it.timesIn(...{asked}))")

    def end(self):
        self.browser.end()
        self.server.shutdown()


def hosts_of(run):
    """What can run the module here."""
    if not (MODULE / "jps.wasm").is_file():
        run.tell(f"the module is not measured: there is no {MODULE}/jps.wasm")
        return []
    found = []
    for name, make in (("node", Node), ("chromium", lambda: Chromium(run))):
        if shutil.which(name):
            found.append(make())
        else:
            run.tell(f"the module is not measured in {name}, which is not installed")
    return found


class ModuleCase:
    """The queries of a map by one engine: the module's times in one host, or the program's own (no host)."""

    def __init__(self, host, case):
        self.host, self.case = host, case
        _, _, map_path, _, *self.words = case.calls["whole"]
        self.files = pathlib.Path(map_path), *(pathlib.Path(case.calls[it][3]) for it in ("whole", "first"))
        self.row = {**case.row, "program": host.name if host else "jps"}
        self.per_query = []

    def call(self):
        if self.host:
            told = self.host.times(*self.files, self.words)
        else:
            told = {it: measure.seconds_of(self.case.calls[it])[1] for it in ("whole", "first")}
        self.per_query.append((told["whole"] - told["first"]) / self.case.rest)


def elsewhere(run):
    """The module beside the program, on each map by each engine, in turns of their own."""
    hosts = hosts_of(run)
    cases = []
    for name in run.maps if hosts else []:
        for variant in run.variants:
            if variant.engine in programs.JUMPS and variant.states == "arrival":
                continue
            entries, repeats = phases.calibrated(run, name, variant, run.contestants[:1])
            case = phases.Case(run, name, variant, run.contestants[0], entries, repeats)
            cases += [ModuleCase(host, case) for host in (None, *hosts)]
    try:
        phases.take_turns(run, [it.call for it in cases], min(run.turns, MODULE_TURNS))
    finally:
        for host in hosts:
            host.end()
    rows = [{**it.row, "per_query": it.per_query} for it in cases]
    run.results["elsewhere"] = {"hosts": [it.name for it in hosts], "rows": rows}
