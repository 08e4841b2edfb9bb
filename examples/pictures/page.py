#!/usr/bin/env python3
"""A page with the picture of one query by each engine, side by side, with the states that each one took.

    page.py PROGRAM MAP SX SY GX GY [rule=RULE] >page.html

The page is HTML with the pictures in it, for any browser; it needs no other file. Each picture is what `jps
draw .. show=trace` prints. Its caption has the number of states from the line of `jps query .. show=trace`.
"""

import html
import os
import subprocess
import sys

ENGINES = ["plain", "jps", "block", "plus"]

# The colours of `jps draw`, and those in which the page shows them, so that the walk and the states stand out
# from each ground (README.md, "Other colours").
COLOURS = {"#5c8a57": "#b9d3b3", "#f2b84b": "#a85400", "#d1352b": "#3d0000"}
KEYS = [
    ("#f4f1e8", "land"),
    ("#c9bf8f", "swamp"),
    ("#b9d3b3", "trees"),
    ("#3b3f46", "out of bounds"),
    ("#8fbfe0", "water"),
    ("#a85400", "taken states"),
    ("#3d0000", "the walk"),
    ("#1f6f43", "start"),
    ("#7b2d8b", "goal"),
]

PAGE = """<!DOCTYPE html>
<html lang="en">
<head>
<meta charset="utf-8"/>
<meta name="viewport" content="width=device-width"/>
<title>{title}</title>
<style>
body {{ font: 1rem/1.4 sans-serif; margin: 2rem auto; max-width: 84rem; padding: 0 1rem; color: #222 }}
h1 {{ font-size: 1.2rem; margin: 0 }}
ul {{ list-style: none; display: flex; flex-wrap: wrap; gap: .3rem 1.2rem; padding: 0 }}
li span {{ display: inline-block; width: 1em; height: 1em; border: 1px solid #666; vertical-align: -.15em }}
main {{ display: grid; gap: 1.5rem; grid-template-columns: repeat(auto-fit, minmax(17rem, 1fr)) }}
figure {{ margin: 0 }}
figcaption {{ padding-top: .3rem }}
svg {{ display: block; width: 100%; height: auto; border: 1px solid #666 }}
circle {{ stroke: #fff; stroke-width: .2 }}
{colours}</style>
</head>
<body>
<h1>{title}</h1>
<ul>
{keys}</ul>
<main>
{figures}</main>
</body>
</html>
"""

FIGURE = """<figure>
{picture}<figcaption>{caption}</figcaption>
</figure>
"""


def says(program, *words):
    """What the program prints on these words. Where it refuses them, this script says why and ends too."""
    try:
        called = subprocess.run([program, *words], capture_output=True, text=True)
    except OSError as fault:
        sys.exit(f"page.py: {fault}")
    if called.returncode != 0:
        sys.exit(called.stderr + called.stdout)
    return called.stdout


def figure(program, engine, words):
    """The picture of one engine, with its name and the states that it took."""
    words = [*words, f"engine={engine}", "show=trace"]
    _, taken = says(program, "query", *words).split(" taken")
    count = len(taken.split())
    caption = f"{engine}: {count} state{'s'[: count != 1]} taken"
    return FIGURE.format(picture=says(program, "draw", *words), caption=caption)


def main():
    if len(sys.argv) < 7:
        sys.exit("usage: page.py PROGRAM MAP SX SY GX GY [rule=RULE]")
    program, words = sys.argv[1], sys.argv[2:]
    answer = says(program, "query", *words).rstrip("\n")
    if answer in ("outside", "blocked"):
        sys.exit(f"page.py: {answer}: there is nothing to draw")
    title = html.escape(f"{' '.join(words)}: {' '.join(answer.split()[:3])}")
    figures = "".join(figure(program, engine, words) for engine in ENGINES)
    colours = "".join(f'[stroke="{drawn}"] {{ stroke: {shown} }}\n' for drawn, shown in COLOURS.items())
    keys = "".join(f'<li><span style="background: {colour}"></span> {what}</li>\n' for colour, what in KEYS)
    print(PAGE.format(title=title, colours=colours, keys=keys, figures=figures), end="")


try:
    try:
        main()
    finally:
        print(end="", flush=True)
except (OSError, ValueError) as fault:
    os.dup2(os.open(os.devnull, os.O_WRONLY), 1)  # what could not be printed is not tried again at the end
    sys.exit(f"page.py: {fault}")
