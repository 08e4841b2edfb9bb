"""The tables of a game's ticks."""

import numbers_of as told
from rows_of import find, run_words


def tick_time(row):
    """The median of the turns."""
    return told.seconds(max(told.median(row["per_piece"]), 1e-9)) if row else ""


def ticks_text(results):
    """A tick by map."""
    part = results["ticks"]
    words = "Four edits and a `near` of each of {} units: processor time of `serve` for a tick, the median of {} turns. "
    words += "[FIGURES](../bench/FIGURES.md#ticks-of-a-game) has `plus`, closed towers, single lines, fields."
    return ["## A tick of a game", words.format(part["units"], part["turns"]), tick_table(part, "block")]


def tick_table(part, engine):
    """A tick by map and where the goals are."""
    lines = []
    for name, words in part["maps"].items():
        found = [find(part["rows"], map=name, kind=kind, engine=engine) for kind in part["kinds"]]
        lines.append([words, *map(tick_time, found)])
    return told.table(["By `{1}`, {0} x {0} cells".format(part["side"], engine), *part["kinds"]], lines)


def ticks_table(results):
    """Ticks round a closed tower and beyond a wall, single lines, fields."""
    part = results["ticks"]
    more = [row for row in part["rows"] if row["kind"] not in part["kinds"]]
    rows = [[f"{part['units']} units: {row['kind']}", tick_time(row), told.seconds(row["0.99"])] for row in more]
    rows += [[row["what"], tick_time(row), ""] for row in part["lines"]]
    rows.append(["a million lines: the most memory behind the first 10,000, and behind all", memory_words(part), ""])
    head = ["By `block`", "A tick or a line", "99 of 100 ticks by the clock"]
    words = f"By `serve` ({run_words(results, 'ticks')})."
    return [words, tick_table(part, "plus"), told.table(head, rows), field_table(part)]


def memory_words(part):
    peaks = [part["memory"][it] for it in ("first", "last")]
    return ", ".join(map(told.megabytes, peaks)) if all(peaks) else ""


def field_table(part):
    """`field` and `costs` of `serve`, and the field by buckets."""
    lines, names = [], {"open": "open land", "quarter": "a quarter blocked"}
    for row in part["fields"]:
        times = [told.seconds(told.median(row[it])) if row[it] else "" for it in ("field", "costs", "flow_field")]
        ratio = told.ratio_text(told.ratio(row["field"], row["flow_field"])) if row["flow_field"] else ""
        lines.append([names[row["map"]], *times, ratio])
    by_buckets = "by buckets, in C++ (`ticks/flow_field.cpp`)"
    return told.table(["All cells", "`field`", "`costs`", by_buckets, "`field` over that"], lines)


def tick_words(results):
    """README's words of a tick of a game, where it was measured."""
    if not results.get("ticks"):
        return "[units, edits, crowds](examples/serve)"
    rows, kinds = results["ticks"]["rows"], results["ticks"]["kinds"]
    mine = [row for row in rows if row["engine"] == "block" and row["kind"] in kinds]
    times = [told.median(row["per_piece"]) for row in mine]
    walled = find(rows, kind="`near` to a closed tower", engine="block")
    least, most, closed = (told.in_unit(it, "ms") for it in (min(times), max(times), told.median(walled["per_piece"])))
    return f"[a tick](docs/SPEED.md#a-tick-of-a-game): {least} to {most} ms, closed tower {closed}"
