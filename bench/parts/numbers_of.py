"""What is told of a list of times, and how numbers are written."""

import statistics


def median(values):
    return statistics.median(values)


def quarter(values, share=0.25):
    """The value below which that share of the values lies."""
    ordered = sorted(values)
    place = share * (len(ordered) - 1)
    low = int(place)
    high = min(low + 1, len(ordered) - 1)
    return ordered[low] + (ordered[high] - ordered[low]) * (place - low)


def spread(values):
    """Least, lower quarter, median."""
    return min(values), quarter(values), median(values)


def ratio(values, others):
    """Each turn has its ratio: their median, and the quarters, by which it is told whether it differs from 1."""
    turns = [one / other for one, other in zip(values, others) if other > 0]
    return (median(turns), quarter(turns), quarter(turns, 0.75)) if turns else (0.0, 0.0, 0.0)


def differs(told):
    """Whether the spread allows to tell a difference."""
    _, low, high = told
    return low > 1 or high < 1


def ratio_text(told):
    """A ratio; with `~` before it where the quarters of the turns lie on both sides of 1."""
    return f"{told[0]:.2f}" if differs(told) else f"~{told[0]:.2f}"


def three(value):
    """A number with three digits."""
    if value >= 1000:
        return f"{value:,.0f}"
    return f"{value:.0f}" if value >= 100 else f"{value:.1f}" if value >= 10 else f"{value:.2f}"


def seconds(value):
    """Seconds in the unit that suits."""
    for unit, scale in (("s", 1), ("ms", 1e3), ("us", 1e6)):
        if value * scale >= 0.9995:
            return f"{three(value * scale)} {unit}"
    return f"{value * 1e9:.0f} ns"


def tick(power):
    """A power of ten seconds, as an axis tells it."""
    return seconds(power * 1.0001).replace(".00", "").replace(".0", "")


def micros(value):
    return f"{value * 1e6:.0f} us" if value >= 20e-6 else f"{value * 1e6:.1f} us"


def megabytes(value):
    return f"{value / 1e6:.0f} MB"


def times_as_long(value):
    return f"{value:.0f}" if value >= 9.95 else f"{value:.1f}"


def cell(value):
    """What stands in a cell of a table: a bar would end it, and some letters the line."""
    return "".join(it if it.isprintable() else "?" for it in str(value)).replace("|", "\\|")


def table(head, rows):
    """A table of Markdown."""
    lines = ["| " + " | ".join(map(cell, head)) + " |", "|" + "---|" * len(head)]
    return "\n".join([*lines, *("| " + " | ".join(map(cell, row)) + " |" for row in rows)])


def in_unit(seconds, unit):
    """A number without its unit, in as few digits as tell it."""
    value = seconds * {"s": 1, "ms": 1e3, "µs": 1e6}[unit]
    return f"{value:.0f}" if value >= 9.95 else f"{value:.1f}" if value >= 0.095 else f"{max(value, 0.01):.2f}"
