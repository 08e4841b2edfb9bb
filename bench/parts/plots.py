"""Pictures of the results as SVG, written with the standard library alone.

A picture has the colours of a light page as attributes, and a style that has those of a dark one instead.
"""

import html
import math
import pathlib
import re

import inputs
import numbers_of as told
import programs

STYLE = pathlib.Path(__file__).resolve().parents[2] / "page/style.css"


def palette(theme):
    """The page's colours in a theme, by name."""
    block = re.search(rf'data-theme="{theme}"\] \{{(.*?)\}}', STYLE.read_text(encoding="utf-8"), re.DOTALL)
    return dict(re.findall(r"--([\w-]+): (#\w+);", block[1]))


LIGHT, DARKER = palette("light"), palette("dark")
# People who see few colours tell them apart (after Okabe and Ito).
COLOURS = {engine: LIGHT[engine] for engine in programs.ENGINES}
INK, PALE, PAPER = LIGHT["ink"], LIGHT["line"], "#ffffff"
# In the picture of taken states one state for each cell has a colour of its own: its dots are too small to be rings.
SKY = "#2b8fc9"
TAKEN_COLOURS = {("plain", "arrival"): COLOURS["plain"], ("block", "arrival"): COLOURS["block"], ("block", "cell"): SKY}
# The colour on a dark page in place of each one.
DARK = {LIGHT[name]: DARKER[name] for name in (*programs.ENGINES, "ink", "line")} | {PAPER: DARKER["back"], SKY: "#56b4e9"}
MOST_DOTS = 150


class Panel:
    """A box with axes, each of them plain or logarithmic; values are put in as they are."""

    def __init__(self, left, top, width, height, across, down, log=(False, True)):
        self.box = (left, top, width, height)
        self.across, self.down, self.log = across, down, log
        self.parts = [f'<rect x="{left}" y="{top}" width="{width}" height="{height}" fill="none" stroke="{INK}"/>']

    def place(self, value, axis):
        low, high = (self.across, self.down)[axis]
        if self.log[axis]:
            value, low, high = math.log10(value), math.log10(low), math.log10(high)
        share = (value - low) / (high - low or 1)
        left, top, width, height = self.box
        return round(left + share * width if axis == 0 else top + height - share * height, 1)

    def line_across(self, value, label):
        left, _, width, _ = self.box
        y = self.place(value, 1)
        self.parts.append(f'<path d="M{left} {y}h{width}" stroke="{PALE}"/>')
        self.text(left - 5, y + 4, label, "end")

    def line_down(self, value, label):
        _, top, _, height = self.box
        x = self.place(value, 0)
        self.parts.append(f'<path d="M{x} {top}v{height}" stroke="{PALE}"/>')
        self.text(x, top + height + 15, label, "middle")

    def text(self, x, y, words, anchor="start"):
        self.parts.append(f'<text x="{x}" y="{y}" text-anchor="{anchor}">{html.escape(words)}</text>')

    def axis_across(self, words):
        left, top, width, height = self.box
        self.text(left + width / 2, top + height + 34, words, "middle")

    def axis_down(self, words, room):
        """What goes upwards, so many pixels left of the box."""
        left, top, _, height = self.box
        turned = f'transform="translate({left - room} {top + height / 2}) rotate(-90)"'
        self.parts.append(f'<text {turned} text-anchor="middle">{html.escape(words)}</text>')

    def dot(self, across, down, colour, size=4, hollow=False):
        x, y = self.place(across, 0), self.place(down, 1)
        fill = "none" if hollow else colour
        self.parts.append(f'<circle cx="{x}" cy="{y}" r="{size}" fill="{fill}" stroke="{colour}"/>')

    def dots(self, points, colour):
        """Many small dots as one path, which keeps the file small."""
        places = "".join(f"M{self.place(x, 0)} {self.place(y, 1)}h0" for x, y in points)
        self.parts.append(f'<path d="{places}" stroke="{colour}" stroke-width="3" stroke-linecap="round"/>')

    def curve(self, points, colour, dashes=""):
        places = " ".join(f"{self.place(x, 0)},{self.place(y, 1)}" for x, y in points)
        dash = f' stroke-dasharray="{dashes}"' if dashes else ""
        self.parts.append(f'<polyline points="{places}" fill="none" stroke="{colour}" stroke-width="1.5"{dash}/>')


def short_name(name):
    """How a map is told, without where it comes from."""
    return inputs.TOLD.get(name, name).split(" (")[0]


def powers(low, high):
    """The powers of ten from the first at or below one number to the first at or above another."""
    first, last = math.floor(math.log10(low)), math.ceil(math.log10(high))
    return [10.0**power for power in range(first, max(last, first + 1) + 1)]


def tick(power):
    """A power of ten seconds, as an axis tells it."""
    return told.tick(power).replace(" us", " µs")


def dark_style(parts, dark):
    """The style that holds on a dark page, for the colours that stand in these parts."""
    lines = [f'[{name}="{light}"]{{{name}:{colour}}}'
             for light, colour in dark.items() for name in ("fill", "stroke") if any(f'{name}="{light}"' in it for it in parts)]
    return f"<style>@media (prefers-color-scheme:dark){{{''.join(lines)}}}</style>"


def svg(width, height, title, parts, dark=None):
    """A picture below its title, which is read out too."""
    size = f'viewBox="0 0 {width} {height}" width="{width}" height="{height}"'
    head = f'<svg xmlns="http://www.w3.org/2000/svg" {size} role="img"'
    font = f'font-family="sans-serif" font-size="12" fill="{INK}"'
    paper = f'<rect width="100%" height="100%" fill="{PAPER}"/>'
    above = f'<text x="20" y="24" font-size="14" font-weight="bold">{html.escape(title)}</text>'
    named = f"<title>{html.escape(title)}</title>"
    style = dark_style([font, paper, *parts], {**DARK, **(dark or {})})
    return "\n".join([f"{head} {font}>", named, style, paper, above, *parts, "</svg>\n"])


def legend(panel, rows, x, y, marks="dot"):
    """The engines beside each other, each with its mark."""
    for engine, states in dict.fromkeys((row["engine"], row["states"]) for row in rows):
        colour, is_cell = COLOURS[engine], states == "cell"
        if marks == "dot":
            fill = "none" if is_cell else colour
            panel.parts.append(f'<circle cx="{x}" cy="{y - 4}" r="4" fill="{fill}" stroke="{colour}"/>')
        else:
            dash = ' stroke-dasharray="5 3"' if is_cell else ""
            panel.parts.append(f'<path d="M{x - 8} {y - 4}h16" stroke="{colour}" stroke-width="1.5"{dash}/>')
        words = f"{engine}, a state a cell" if is_cell else engine
        panel.text(x + 12, y, words)
        x += 32 + 7 * len(words)


def times_picture(results):
    """Time by engine and map: a row for each map, a dot for each engine."""
    rows = [row for row in results["queries"] if row["program"] == "jps"]
    names = list(dict.fromkeys(row["map"] for row in rows))
    values = [told.median(row["per_query"]) for row in rows]
    ticks = powers(min(values), max(values))
    height = 34 * len(names)
    panel = Panel(300, 66, 480, height, (ticks[0], ticks[-1]), (0, len(names)), (True, False))
    for value in ticks:
        panel.line_down(value, tick(value))
    for place, name in enumerate(names):
        panel.line_across(len(names) - place - 0.5, short_name(name))
        for row in rows:
            if row["map"] == name:
                value, hollow = told.median(row["per_query"]), row["states"] == "cell"
                panel.dot(value, len(names) - place - 0.5, COLOURS[row["engine"]], 5, hollow)
    legend(panel, rows, 30, 48)
    panel.axis_across("mean processor time of a query")
    return svg(810, height + 110, "Time of a query, by map and engine", panel.parts)


def growth_picture(results):
    """Time by side of the map, a line for each engine."""
    rows = results["growth"]
    sides = sorted({inputs.GROWTH[row["map"]] for row in rows})
    values = [told.median(row["per_query"]) for row in rows]
    ticks = powers(min(values), max(values))
    panel = Panel(90, 66, 690, 320, (sides[0] * 0.9, sides[-1] * 1.1), (ticks[0], ticks[-1]), (True, True))
    for value in ticks:
        panel.line_across(value, tick(value))
    for side in sides:
        panel.line_down(side, f"{side} x {side}")
    for engine, states in dict.fromkeys((row["engine"], row["states"]) for row in rows):
        own = [row for row in rows if (row["engine"], row["states"]) == (engine, states)]
        points = sorted((inputs.GROWTH[row["map"]], told.median(row["per_query"])) for row in own)
        panel.curve(points, COLOURS[engine], "5 3" if states == "cell" else "")
        for point in points:
            panel.dot(*point, COLOURS[engine], 3, states == "cell")
    legend(panel, rows, 30, 48, "line")
    panel.axis_across("cells of the map")
    panel.axis_down("mean processor time of a query", 64)
    return svg(810, 432, "Time of a query on cities of five sizes", panel.parts)


def short_number(value):
    """1, 10, 100, 1k, 10k, 100k, 1M."""
    for unit, scale in (("M", 1e6), ("k", 1e3)):
        if value >= scale:
            return f"{value / scale:.0f}{unit}"
    return f"{value:.0f}"


def taken_panel(name, rows, left, top):
    """The box of one map."""
    points = [point for row in rows for point in row["points"] if point[1] > 0]
    ticks = powers(1, max(count for _, count in points))
    longest = max(length for length, _ in points) or 1
    panel = Panel(left, top, 200, 140, (0, longest), (1, ticks[-1]))
    for value in ticks:
        panel.line_across(value, short_number(value))
    for share in (0, 0.5, 1):
        panel.line_down(longest * share, f"{longest * share:,.0f}")
    panel.text(left, top - 6, short_name(name))
    for row in rows:
        shown = inputs.evenly([point for point in row["points"] if point[1] > 0], MOST_DOTS)
        panel.dots(shown, TAKEN_COLOURS[row["engine"], row["states"]])
    return panel.parts


def taken_picture(results):
    """Taken states against length: a box for each map, a dot for each entry and engine."""
    rows = [row for row in results["taken"] if any(count > 0 for _, count in row["points"])]
    names, columns, parts = list(dict.fromkeys(row["map"] for row in rows)), 3, []
    for place, name in enumerate(names):
        left, top = 62 + place % columns * 258, 82 + place // columns * 205
        parts += taken_panel(name, [row for row in rows if row["map"] == name], left, top)
    key = Panel(0, 0, 0, 0, (0, 1), (0, 1), (False, False))
    key.parts = []
    x = 26
    for engine, states in dict.fromkeys((row["engine"], row["states"]) for row in rows):
        words = f"{engine}, a state a cell" if states == "cell" else engine
        key.parts.append(f'<circle cx="{x}" cy="44" r="4" fill="{TAKEN_COLOURS[engine, states]}"/>')
        key.text(x + 12, 48, words)
        x += 32 + 7 * len(words)
    bottom = 82 + 205 * -(-len(names) // columns)
    key.text(405, bottom - 14, "length of the walk", "middle")
    turned = f'transform="translate(16 {bottom / 2}) rotate(-90)" text-anchor="middle"'
    key.parts.append(f"<text {turned}>taken states of a query</text>")
    return svg(810, bottom, "Taken states against the length of the walk, by map", [*key.parts, *parts])


PICTURES = {
    "queries": ("times.svg", times_picture),
    "growth": ("growth.svg", growth_picture),
    "taken": ("taken.svg", taken_picture),
}


def write_pictures(results, folder):
    """Draws what the results have; the names of the files."""
    written = {}
    for part, (name, draw) in PICTURES.items():
        if results.get(part):
            (folder / name).write_text(draw(results), encoding="utf-8")
            written[part] = name
    return written
