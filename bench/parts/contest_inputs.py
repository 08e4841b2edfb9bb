"""What a contest is given: the programs of a text file, and maps with their scenarios."""

import hashlib
import os
import pathlib
import re
import shlex
import shutil

FORMS = ("walks", "timed", "asked")      # how a program answers
MORE = ("prepare", "taken")              # lines more of a program that was named before


class Wrong(Exception):
    """What was given has a form that cannot be read; told in one line."""


class Program:
    """A name, a form, and the words of its command; the same of what it may have beside."""

    def __init__(self, name, form, words):
        self.name, self.form, self.words = name, form, words
        self.more = {}

    def commands(self):
        return {self.form: self.words, **self.more}


def read_programs(path):
    """The programs of a file, a line each: NAME FORM COMMAND. `#` begins a remark."""
    found = {}
    for number, line in enumerate(read_text(path).splitlines(), 1):
        try:
            name, form, *words = shlex.split(line, comments=True) or [None, None]
        except ValueError as fault:
            raise Wrong(f"{path} line {number}: {fault}") from fault
        if name is None:
            continue
        if not (name and name.isprintable()):
            raise Wrong(f"{path} line {number}: a name has letters that are printed")
        if not words or form not in FORMS + MORE:
            raise Wrong(f"{path} line {number}: a line is NAME FORM COMMAND, and FORM one of {', '.join(FORMS + MORE)}")
        if (form in FORMS) == (name in found):
            told = "is named twice" if form in FORMS else f"has no line before this `{form}`"
            raise Wrong(f"{path} line {number}: {name} {told}")
        if form in FORMS:
            found[name] = Program(name, form, words)
        else:
            found[name].more[form] = words
    if not found:
        raise Wrong(f"{path} names no program")
    return list(found.values())


def read_text(path):
    try:
        return pathlib.Path(path).read_text(encoding="utf-8", errors="replace")
    except (OSError, ValueError) as fault:
        raise Wrong(f"{path}: {getattr(fault, 'strerror', None) or fault}") from fault


# ---------------------------------------------------------------- maps and scenarios

class Entry:
    """A line of a scenario. The map's name may have blanks, so the fields are counted from behind."""

    def __init__(self, line):
        fields = line.split()
        if len(fields) < 9:
            raise ValueError
        self.line, self.bucket, self.listed = line, fields[0], fields[-1]
        self.ends = [int(it) for it in fields[-5:-1]]
        self.length = float(self.listed)


class Contest:
    """A map with its scenario."""

    def __init__(self, name, map_path, scenario_path):
        self.name, self.map_path, self.scenario_path = name, map_path, scenario_path
        head, *lines = [it for it in read_text(scenario_path).split("\n") if it.strip()] or [""]
        self.head, self.entries = head, []
        if not head.startswith("version"):
            raise Wrong(f"{scenario_path}: no line `version 1`")
        for number, line in enumerate(lines, 1):
            try:
                self.entries.append(Entry(line))
            except (ValueError, IndexError) as fault:
                raise Wrong(f"{scenario_path}: entry {number} has not the fields of one") from fault
        if not self.entries:
            raise Wrong(f"{scenario_path}: no entries")

    def text(self, count=None):
        """The scenario, or the first entries of it."""
        return "\n".join([self.head, *(it.line for it in self.entries[:count])]) + "\n"

    def script(self, count=None):
        """The entries as questions, a line each."""
        return "".join(question(it) for it in self.entries[:count])


def question(entry):
    return "query {} {} {} {}\n".format(*entry.ends)


def files_of(given, ending):
    """The files of this ending that are named, or lie in a folder that is named."""
    found = []
    for path in map(pathlib.Path, given):
        if path.is_dir():
            found += sorted(path.rglob(f"*{ending}"))
        elif path.name.endswith(ending):
            found.append(path)
    return [it for it in dict.fromkeys(found) if it.is_file()]


def is_there(path):
    return path.is_file() or path.is_dir()


def beside(path):
    """The scenario that lies beside a map."""
    names = (path.with_name(f"{path.name}.scen"), path.with_suffix(".scen"))
    return next((it for it in names if it.is_file()), None)


def read_contests(given):
    """The maps with scenarios among what is given, and a line for whatever has no partner or no right form."""
    maps, scenarios, faults = files_of(given, ".map"), files_of(given, ".scen"), []
    faults += [(str(it), "is no file or folder that is there") for it in given if not is_there(pathlib.Path(it))]
    named = {it.name: it for it in scenarios}
    pairs = [(it, named.get(f"{it.name}.scen") or named.get(f"{it.stem}.scen") or beside(it)) for it in maps]
    used = {scenario for _, scenario in pairs}
    faults += [(str(it), "a map without scenario") for it, scenario in pairs if not scenario]
    faults += [(str(it), "a scenario without map") for it in scenarios if it not in used]
    contests, names = [], set()
    for map_path, scenario_path in pairs:
        if not scenario_path:
            continue
        name = map_path.stem if map_path.stem not in names else str(map_path.with_suffix(""))
        names.add(name)
        try:
            contests.append(Contest(name, map_path, scenario_path))
        except Wrong as fault:
            faults.append((str(map_path), str(fault)))
    return contests, faults


# ---------------------------------------------------------------- what tells one call from another

SUMS = {}


def sum_of(path):
    """The sum of a file, read once."""
    if path not in SUMS:
        SUMS[path] = hashlib.sha256(pathlib.Path(path).read_bytes()).hexdigest()
    return SUMS[path]


def key_of(*parts):
    """A name for what is made of these parts. A word that is a file, or that the PATH has, counts by its bytes too."""
    sums = []
    for word in (word for part in parts if isinstance(part, list) for word in part):
        path = word if re.search("/", word) else shutil.which(word) or word
        if os.path.isfile(path):
            sums.append(sum_of(path))
    return hashlib.sha256(repr((parts, sums)).encode()).hexdigest()[:20]
