"""Rows of the results, by what they are of, and the words for maps, engines and runs."""

import inputs
import numbers_of as told
import programs

JUMPS = programs.JUMPS


def find(rows, **wanted):
    """The row that has these values, or None."""
    return next((row for row in rows if all(row.get(key) == value for key, value in wanted.items())), None)


def name_of(name):
    return inputs.TOLD.get(name, name)


def short(name):
    return name_of(name).split(" (")[0]


def engine_words(row):
    return f"{row['engine']} states=cell" if row["states"] == "cell" else row["engine"]


def cells_of(results, name):
    size = results["maps"][name]
    return f"{size['width']} x {size['height']}"


def maps_of(rows):
    return list(dict.fromkeys(row["map"] for row in rows))


def main_states(rows, engine):
    """The states of the main tables: one for each cell, as the field has it, where that was measured."""
    return "cell" if engine in JUMPS and find(rows, engine=engine, states="cell") else "arrival"


def states_of(rows):
    return list(dict.fromkeys(row["states"] for row in rows if row["engine"] != "plain"))


def ratio_of(rows, name, engine, states, one="jps", other="reference"):
    """The ratio of two programs on a map, where both were measured."""
    key = {"map": name, "engine": engine, "states": states}
    mine, theirs = find(rows, program=one, **key), find(rows, program=other, **key)
    return told.ratio(mine["per_query"], theirs["per_query"]) if mine and theirs else None


def run_of(results):
    """Of which run these results are: what --add keeps with a part."""
    facts, load = results["facts"], results.get("load", {}).get("before", {}).get("load", "unknown")
    kept = {name: facts[name] for name in ("program", "commit", "processor")}
    return {"began": results["began"], "load": load, **kept}


def run_words(results, part):
    """The same in few words, of a part of the results."""
    run = results[part].get("run") or run_of(results)
    words = f"{run['program']} on commit {run['commit'][:8]}, {run['began']}, {run['processor']['name']}"
    return f"{words}, load {run['load']}"
