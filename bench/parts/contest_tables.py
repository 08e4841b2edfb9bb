"""What came of a contest: a row for each query, a row for each preparation, and tables of them as Markdown and CSV."""

import csv
import math

import numbers_of as told

# The worst first: where the turns differ, an entry counts as the worst of them.
STATUSES = ("illegal", "missed", "longer", "unread", "absent", "other", "none", "accepted")
MEANT = {
    "accepted": "a least walk",
    "none": "no walk, and none exists",
    "longer": "a legal walk that is not least",
    "illegal": "no legal walk from start to goal",
    "missed": "no walk, but one exists",
    "absent": "no line",
    "unread": "a line that is no walk",
    "other": "not searched: another size, a blocked end or one outside",
}
QUERY = ("map", "bucket", "entry", "program", "turn", "status", "straight", "diagonal", "listed", "ratio", "moves", "ns",
         "taken", "point")
LEAST_SECONDS = 0.01                     # less than that processor time does not tell of two processes
PREPARATION = ("made_seconds", "made_bytes", "ready", "whole", "peak")


class Results:
    def __init__(self, programs, contests, faults, kept, asked):
        self.programs, self.contests, self.faults, self.kept = programs, contests, list(faults), kept
        self.turns = range(asked.turns)
        names = [it.name for it in programs]
        self.base = asked.base if asked.base in names else names[0] if names else ""
        self.times = {(place, number): self.times_of(place, number)
                      for place in range(len(contests)) for number in range(len(programs))}

    def calls(self, contest, program):
        return [self.kept[turn, contest, program] for turn in self.turns]

    def times_of(self, contest, program):
        """Of each entry the median of its seconds over the turns, None where a turn has none."""
        rows = [it["rows"] for it in self.calls(contest, program)]
        if not all(rows):
            return []
        columns = [[row["ns"] for row in entry] for entry in zip(*rows)]
        return [None if None in times else told.median(times) / 1e9 for times in columns]

    def mean_of(self, contest, program, turn):
        """The mean seconds of a query in a turn, where all its entries were answered."""
        kept, form = self.kept[turn, contest, program], self.programs[program].form
        if kept["fault"] or not kept["rows"]:
            return None
        if form == "walks":
            count, rest = len(kept["rows"]) - 1, (kept["whole"] or 0) - (kept["ready"] or 0)
            return rest / count if count and rest > LEAST_SECONDS else None
        times = [row["ns"] for row in kept["rows"]]
        return None if None in times else sum(times) / len(times) / 1e9

    def means(self, contest, program):
        found = [self.mean_of(contest, program, turn) for turn in self.turns]
        return None if None in found else found

    def worst(self, contest, program):
        """The row of each entry that is the worst of its turns."""
        turns = zip(*(it["rows"] for it in self.calls(contest, program)))
        return [min(rows, key=lambda row: STATUSES.index(row["status"])) for rows in turns]


# ---------------------------------------------------------------- rows

def query_rows(results):
    for (turn, contest, program), kept in sorted(results.kept.items()):
        contest, program = results.contests[contest], results.programs[program].name
        for number, (entry, row) in enumerate(zip(contest.entries, kept["rows"]), 1):
            more = {"map": contest.name, "bucket": entry.bucket, "entry": number, "listed": entry.listed}
            row = {**row, **more, "program": program, "turn": turn + 1}
            yield [row.get(name, "") if row.get(name) is not None else "" for name in QUERY]


def preparation_rows(results):
    for (turn, contest, program), kept in sorted(results.kept.items()):
        values = ["" if kept[name] is None else kept[name] for name in PREPARATION]
        program = results.programs[program]
        yield [results.contests[contest].name, program.name, turn + 1, program.form, *values, kept["fault"]]


# ---------------------------------------------------------------- tables

def verdict_table(results):
    """How many entries of all maps ended how, by program."""
    head, lines = ["Program", "entries", *reversed(STATUSES)], []
    for number, program in enumerate(results.programs):
        rows = [row for place in range(len(results.contests)) for row in results.worst(place, number)]
        counts = [sum(row["status"] == status for row in rows) for status in reversed(STATUSES)]
        lines.append([program.name, len(rows), *counts])
    return head, lines


def fault_lines(results, contest, number):
    """What one program did wrong on one map: kind, how many, the first row, more."""
    rows = results.worst(contest, number)
    for status in ("illegal", "longer", "missed", "absent", "unread"):
        found = [(place, row) for place, row in enumerate(rows, 1) if row["status"] == status]
        if not found:
            continue
        more = MEANT[status]
        if status == "illegal":
            more += f": point {found[0][1]['point']} of that row, from 0"
        if status == "longer":
            ratios = [row["ratio"] for _, row in found]
            place = found[ratios.index(max(ratios))][0]
            more += f": {sum(ratios) / len(ratios):.6f} of the least cost in the mean, {max(ratios):.6f} at most (row {place})"
        yield [status, len(found), found[0][0], more]
    for fault in dict.fromkeys(it["fault"] for it in results.calls(contest, number)):
        if fault:
            yield ["fault", sum(it["fault"] == fault for it in results.calls(contest, number)), "", fault]


def fault_table(results):
    """A line for whatever went wrong; of a status the count is of entries, of a fault of turns."""
    lines = [["", where, "input", "", "", what] for where, what in results.faults]
    for number, program in enumerate(results.programs):
        for place, contest in enumerate(results.contests):
            lines += [[program.name, contest.name, *line] for line in fault_lines(results, place, number)]
    return ["Program", "Map", "What", "How many", "First row", "More"], lines


def time_words(value):
    return "" if value is None else told.seconds(max(value, 1e-9))


def time_table(results):
    """Mean, median, the shares, the slowest, and the ratio to the base, by map and program."""
    head = ["Map", "Program", "entries", "mean", "median", "95 %", "99 %", "slowest", f"mean beside {results.base}", "quarters"]
    names, lines = [it.name for it in results.programs], []
    for place, contest in enumerate(results.contests):
        base = results.means(place, names.index(results.base))
        for number, name in enumerate(names):
            means, times = results.means(place, number), results.times[place, number]
            found = sorted(it for it in times if it is not None)
            shares = [told.quarter(found, share) if found else None for share in (0.5, 0.95, 0.99, 1)]
            ratio = told.ratio(means, base) if means and base else None
            beside = [told.ratio_text(ratio), f"{ratio[1]:.2f} to {ratio[2]:.2f}"] if ratio and name != results.base else ["", ""]
            mean = told.median(means) if means else None
            lines.append([contest.name, name, len(found) or len(contest.entries), *map(time_words, [mean, *shares]), *beside])
    return head, lines


def group_of(length):
    """Lengths go by doubling: the group n has those from 2^n to below 2^(n + 1), the group 0 all below 2."""
    return int(math.log2(length)) if 1 <= length < math.inf else 0


def groups(results, number):
    """Of a program the times of all maps by group of length."""
    found = {}
    for place, contest in enumerate(results.contests):
        for entry, seconds in zip(contest.entries, results.times[place, number]):
            if seconds is not None:
                found.setdefault(group_of(entry.length), []).append(seconds)
    return found


def length_table(results):
    """The mean time of a query by its length, over all maps."""
    by_program = [groups(results, number) for number in range(len(results.programs))]
    shown = [number for number, found in enumerate(by_program) if found]
    lines = []
    for group in sorted({group for found in by_program for group in found}):
        count = max(len(by_program[number].get(group, [])) for number in shown)
        means = [by_program[number].get(group) for number in shown]
        told_means = [time_words(sum(it) / len(it)) if it else "" for it in means]
        lines.append([f"{2**group if group else 0} to {2 ** (group + 1)}", count, *told_means])
    return ["Listed length", "entries", *(results.programs[number].name for number in shown)], lines


def taken_table(results):
    """How many states the searches of a map took together, where a program tells it."""
    head, lines = ["Map", "Program", "taken states", "microseconds each thousand"], []
    for place, contest in enumerate(results.contests):
        for number, program in enumerate(results.programs):
            rows = results.calls(place, number)[0]["rows"]
            counts = [row["taken"] for row in rows]
            if not counts or None in counts or not sum(counts):
                continue
            means = results.means(place, number)
            each = told.median(means) * len(counts) / sum(counts) * 1e9 if means else None
            lines.append([contest.name, program.name, sum(counts), f"{each:.1f}" if each else ""])
    return head, lines


def preparation_table(results):
    """The medians over the turns of what goes before the queries."""
    head = ["Map", "Program", "preparing", "its bytes", "ready after", "most memory"]
    lines = []
    for place, contest in enumerate(results.contests):
        for number, program in enumerate(results.programs):
            kept = results.calls(place, number)
            values = [[it[name] for it in kept if it[name] is not None] for name in ("made_seconds", "made_bytes", "ready", "peak")]
            middle = [told.median(it) if it else None for it in values]
            size, peak = (f"{middle[it]:,.0f}" if middle[it] is not None else "" for it in (1, 3))
            lines.append([contest.name, program.name, time_words(middle[0]), size, time_words(middle[2]), peak])
    return head, lines


TABLES = {
    "verdicts": ("Verdicts", "How many entries ended how; where turns differ an entry counts as the worst of them.", verdict_table),
    "faults": ("What went wrong", "", fault_table),
    "times": (
        "Times",
        "Of each entry the median over the turns; from these the shares. The mean is the median of the turns' means, and the "
        "ratio that of the turns' ratios, with its quarters; `~` says that they do not tell it from 1. A program of the form "
        "`walks` has a mean alone: the process with all entries less that with the first, over the others; none "
        "where that is below 10 ms.",
        time_table,
    ),
    "lengths": ("By length", "The mean time of the entries of all maps, by listed length.", length_table),
    "taken": ("Taken states", "Expanded nodes, where a program tells them.", taken_table),
    "preparation": (
        "Preparation",
        "*Ready after* is the time of the process with the first entry alone (`walks`), what the program tells (`timed`), or "
        "the time to the first answer by the clock (`asked`).",
        preparation_table,
    ),
}


def write_csv(path, head, lines):
    with path.open("w", newline="", encoding="utf-8", errors="backslashreplace") as file:
        writer = csv.writer(file, lineterminator="\n")
        writer.writerow(head)
        writer.writerows(lines)


def write(results, folder):
    write_csv(folder / "queries.csv", QUERY, query_rows(results))
    write_csv(folder / "preparation.csv", ["map", "program", "turn", "form", *PREPARATION, "fault"], preparation_rows(results))
    parts = ["# A contest", results.origin]
    for name, (title, words, table_of) in TABLES.items():
        head, lines = table_of(results)
        write_csv(folder / f"table-{name}.csv", head, lines)
        if lines:
            parts += [f"## {title}", *([words] if words else []), told.table(head, lines)]
            if name == "times":
                parts += ["![time by length](length.svg)", "![times by rank](rank.svg)"]
    (folder / "tables.md").write_text("\n\n".join(parts) + "\n", encoding="utf-8", errors="backslashreplace")
