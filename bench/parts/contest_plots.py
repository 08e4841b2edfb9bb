"""Plots of a contest: the time of a query by its length, and all queries by rank."""

import itertools

import contest_tables
import numbers_of as told
import plots

# More colours that people who see few colours tell apart, for programs that are not named as an engine is; and those on
# a dark page.
DARK = {
    "#333333": "#eceae5", "#b87b00": "#e69f00", "#2b8fc9": "#56b4e9",
    "#8a6d3b": "#c9a86a", "#6a5acd": "#a99cf0", "#767676": "#a0a0a0",
}
OTHERS = tuple(DARK)
DASHES = ("", "6 3", "2 3", "9 3 2 3")   # of programs of one colour
RANKS = 200                              # points of a curve


def colours(results):
    """The colour of each program, and the dashes of its line: an engine's name in it gives the engine's colour."""
    others, found, used = itertools.cycle(OTHERS), {}, []
    for number, program in enumerate(results.programs):
        if program.form == "walks":      # it has a mean alone, and no curve
            continue
        engine = next((it for it in plots.COLOURS if it in program.name.replace("-", " ").replace("_", " ").split()), None)
        colour = plots.COLOURS[engine] if engine else next(others)
        found[number] = (colour, DASHES[used.count(colour) % len(DASHES)])
        used.append(colour)
    return found


def legend(panel, results, shown, left):
    """A line for each program, below one another."""
    kinds = colours(results)
    for place, number in enumerate(shown):
        colour, dashes = kinds[number]
        y = 50 + 17 * place
        dash = f' stroke-dasharray="{dashes}"' if dashes else ""
        panel.parts.append(f'<path d="M{left} {y - 4}h20" stroke="{colour}" stroke-width="2"{dash}/>')
        panel.text(left + 26, y, results.programs[number].name)


def drawn(results, curves, across, labels, log, title, below):
    """A picture of curves, by program; `labels` are the places of the axis to the right, with their words, and `below`
    says what it tells."""
    values = [seconds for points in curves.values() for _, seconds in points]
    ticks = plots.powers(min(values), max(values))
    panel = plots.Panel(90, 44, 460, 320, across, (ticks[0], ticks[-1]), (log, True))
    for value in ticks:
        panel.line_across(value, plots.tick(value))
    for place, words in labels:
        panel.line_down(place, words)
    kinds = colours(results)
    for number, points in curves.items():
        panel.curve(points, *kinds[number])
    panel.axis_across(below)
    panel.axis_down("time of a query", 64)
    legend(panel, results, curves, 570)
    return plots.svg(810, max(410, 60 + 17 * len(curves)), title, panel.parts, DARK)


def length_picture(results):
    curves = {}
    for number in range(len(results.programs)):
        found = contest_tables.groups(results, number)
        points = [(2.0**group * 1.5, max(sum(it) / len(it), 1e-9)) for group, it in sorted(found.items())]
        if points:
            curves[number] = points
    places = sorted({place for points in curves.values() for place, _ in points})
    if not places:
        return None
    labels = [(place, f"{place / 1.5:.0f}") for place in places]
    below = "listed length of the query, from this number to twice it"
    return drawn(results, curves, (places[0] * 0.8, places[-1] * 1.25), labels, True, "Mean time of a query, by its length", below)


def rank_picture(results):
    curves = {}
    for number in range(len(results.programs)):
        times = [it for place in range(len(results.contests)) for it in results.times[place, number]]
        times = sorted(max(it, 1e-9) for it in times if it is not None)
        if times:
            curves[number] = [(100 * share / RANKS, told.quarter(times, share / RANKS)) for share in range(RANKS + 1)]
    if not curves:
        return None
    labels = [(share, f"{share} %") for share in (0, 25, 50, 75, 100)]
    title = "Within what time which share of the queries is answered"
    return drawn(results, curves, (0, 100), labels, False, title, "share of all queries, the quickest first")


def write(results, folder):
    for name, draw in (("length.svg", length_picture), ("rank.svg", rank_picture)):
        picture = draw(results)
        if picture:
            (folder / name).write_text(picture, encoding="utf-8")
