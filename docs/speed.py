#!/usr/bin/env python3
"""Draws docs/speed.svg: how long calls take as timetables and stores grow.

It reads what the benchmark prints of its growth cases, from a file or from standard input, and writes the picture to
standard output. In tests/:

    cargo run --release --bin bench -- growth | python3 ../docs/speed.py > ../docs/speed.svg

Other lines are passed over. Where a point is told of several times, by several runs, their median is drawn.
"""

import math
import re
import statistics
import sys
from xml.sax.saxutils import escape

# What the cases let grow, as the benchmark names it, and what stands below the panel.
PANELS = {
    "trips": ["trips of a rural timetable"],
    "stops": ["stops of one trip, with as many", "rows as so many stops allow"],
    "arcs": ["arcs of equal cost to the target,", "on chains of diamonds"],
}
# Each call: what the legend says, its colour, its mark, and whether it is the reference's, which asks no questions. A
# call and the search that is held against it share colour and mark.
CALLS = {
    "query": ("query", "#0072b2", "circle", False),
    "search": ("search of the whole timetable", "#0072b2", "circle", True),
    "direct query": ("direct query", "#007a5a", "triangle", False),
    "store call": ("store call", "#c04a00", "square", False),
    "store search": ("search for the store", "#c04a00", "square", True),
}
TITLE = "How long calls take as timetables and stores grow"
NOTES = [
    "Filled: calls of the library, which ask every question. Hollow: searches of the reference, which ask none.",
    "Dotted: growth in proportion.",
]
PANEL_WIDTH, PANEL_HEIGHT = 262, 330
LEFT, TOP, GAP = 96, 44, 70
INK, FAINT, GRID = "#222222", "#8a8a8a", "#dddddd"
# A line of the benchmark: what grows, how large it is, and the time of each call.
LINE = re.compile(r"growth by (\w+): (\d+), (.+)")
TIME = re.compile(r"(.+) (\d+\.\d+) µs")


class Unreadable(Exception):
    """What is wrong with the input."""


def points(given):
    """What the benchmark's lines tell: panel, size and call, and its time in microseconds."""
    for row in given.splitlines():
        if not row.startswith("growth by "):
            continue
        parts = LINE.fullmatch(row)
        times = parts and [TIME.fullmatch(time) for time in parts[3].split(", ")]
        if not times or not all(times) or parts[1] not in PANELS or any(time[1] not in CALLS for time in times):
            raise Unreadable(f"this line is none of the benchmark's: {row}")
        for time in times:
            yield parts[1], int(parts[2]), time[1], float(time[2])


def read(given):
    """For each panel and call the time of each size."""
    told = {}
    for name, size, call, time in points(given):
        if size == 0 or time == 0:
            raise Unreadable(f"0 has no place on a logarithmic axis: growth by {name}, {size}, {call} {time} µs")
        told.setdefault(name, {}).setdefault(call, {}).setdefault(size, []).append(time)
    if not told:
        raise Unreadable("no line begins with 'growth by': give it what `bench -- growth` prints")
    return {
        name: {
            call: {size: statistics.median(times) for size, times in sorted(told[name][call].items())}
            for call in CALLS
            if call in told[name]
        }
        for name in PANELS
        if name in told
    }


def scale(least, most, start, end):
    """The function that takes values from least to most to places from start to end, by their logarithms."""
    low, high = math.log10(least), math.log10(most)
    return lambda value: start + (end - start) * (math.log10(value) - low) / ((high - low) or 1)


def decades(values):
    """The powers of ten from the one below all values to the one above."""
    low, high = math.floor(math.log10(min(values))), math.ceil(math.log10(max(values)))
    return [10.0**power for power in range(low, max(high, low + 1) + 1)]


def duration(microseconds):
    """A time as the axis tells it."""
    for unit, size in [("s", 1e6), ("ms", 1e3)]:
        if microseconds >= size:
            return f"{microseconds / size:g} {unit}"
    return f"{microseconds:g} µs"


def text(x, y, words, anchor="middle", size=13, weight="normal"):
    """Words at a place."""
    place = f'x="{x:.1f}" y="{y:.1f}" text-anchor="{anchor}" font-size="{size}" font-weight="{weight}"'
    return f"<text {place}>{escape(words)}</text>"


def stroke(places, colour, width, dashes="none"):
    """A line from place to place."""
    corners = " ".join(f"{x:.1f},{y:.1f}" for x, y in places)
    style = f'fill="none" stroke="{colour}" stroke-width="{width}" stroke-dasharray="{dashes}"'
    return f'<polyline points="{corners}" {style}/>'


def mark(x, y, call):
    """The mark of a call: filled, or hollow for the reference."""
    _, colour, shape, reference = CALLS[call]
    style = f'fill="{"#ffffff" if reference else colour}" stroke="{colour}" stroke-width="1.6"'
    if shape == "circle":
        return f'<circle cx="{x:.1f}" cy="{y:.1f}" r="4" {style}/>'
    if shape == "square":
        return f'<rect x="{x - 3.7:.1f}" y="{y - 3.7:.1f}" width="7.4" height="7.4" {style}/>'
    corners = " ".join(f"{x + right:.1f},{y + down:.1f}" for right, down in [(0, -4.8), (4.6, 3.6), (-4.6, 3.6)])
    return f'<polygon points="{corners}" {style}/>'


def line(places, call):
    """A call's line: whole, or dashed for the reference."""
    _, colour, _, reference = CALLS[call]
    return stroke(places, colour, 2, "6 4" if reference else "none")


def panel(name, calls, left, ticks):
    """One panel, with these ticks on its axis of times."""
    right, bottom = left + PANEL_WIDTH, TOP + PANEL_HEIGHT
    sizes = sorted({size for times in calls.values() for size in times})
    across = scale(sizes[0], sizes[-1], left + 16, right - 16)
    down = scale(ticks[0], ticks[-1], bottom, TOP)
    drawn = [text((left + right) / 2, TOP - 16, f"by {name}", size=15, weight="bold")]
    in_proportion = [(size, ticks[0] * size / sizes[0]) for size in (sizes[0], sizes[-1])]
    for tick in ticks:
        drawn.append(stroke([(left, down(tick)), (right, down(tick))], GRID, 1))
        drawn.append(text(left - 7, down(tick) + 4.5, duration(tick), "end"))
    for size in sizes:
        drawn.append(stroke([(across(size), bottom), (across(size), bottom + 5)], INK, 1))
        drawn.append(text(across(size), bottom + 20, f"{size:,}"))
    drawn.append(stroke([(left, TOP), (left, bottom), (right, bottom)], INK, 1))
    drawn.append(stroke([(across(size), down(time)) for size, time in in_proportion], FAINT, 1.5, "1.5 4"))
    for row, words in enumerate(PANELS[name]):
        drawn.append(text((left + right) / 2, bottom + 42 + 17 * row, words))
    for call, times in calls.items():
        places = [(across(size), down(time)) for size, time in times.items()]
        drawn.extend([line(places, call), *(mark(x, y, call) for x, y in places)])
    return drawn


def legend(calls, top):
    """The calls that are drawn, side by side, and what their marks mean."""
    drawn, left = [], LEFT
    for call in calls:
        words = CALLS[call][0]
        drawn.extend([line([(left, top), (left + 40, top)], call), mark(left + 20, top, call)])
        drawn.append(text(left + 48, top + 4.5, words, "start"))
        left += 76 + 7 * len(words)
    drawn.extend(text(LEFT, top + 28 + 18 * row, note, "start") for row, note in enumerate(NOTES))
    return drawn


def described(panels):
    """The picture in words: where each line begins and ends."""
    sentences = ["Both axes are logarithmic."]
    for name, calls in panels.items():
        told = []
        for call, times in calls.items():
            (first, before), (last, after) = list(times.items())[0], list(times.items())[-1]
            told.append(f"{CALLS[call][0]} {rounded(before)} at {first:,} and {rounded(after)} at {last:,}")
        sentences.append(f"By {name}: {'; '.join(told)}.")
    return " ".join(sentences)


def rounded(microseconds):
    """A time in two digits."""
    return duration(float(f"{microseconds:.1e}"))


def picture(panels):
    """The whole picture. All panels share the axis of times, so that heights can be compared."""
    ticks = decades([time for calls in panels.values() for times in calls.values() for time in times.values()])
    width, height = LEFT + 3 * (PANEL_WIDTH + GAP) - GAP + 24, TOP + PANEL_HEIGHT + 152
    middle = TOP + PANEL_HEIGHT / 2
    drawn = [
        f'<svg xmlns="http://www.w3.org/2000/svg" viewBox="0 0 {width} {height}" width="{width}" height="{height}" '
        f'font-family="sans-serif" fill="{INK}" role="img" aria-labelledby="title described">',
        f'<title id="title">{escape(TITLE)}</title>',
        f'<desc id="described">{escape(described(panels))}</desc>',
        f'<rect width="{width}" height="{height}" fill="#ffffff"/>',
        f'<g transform="rotate(-90 22 {middle:.1f})">{text(22, middle, "time of one call")}</g>',
    ]
    for place, (name, calls) in enumerate(panels.items()):
        drawn.extend(panel(name, calls, LEFT + place * (PANEL_WIDTH + GAP), ticks))
    met = [call for call in CALLS if any(call in calls for calls in panels.values())]
    drawn.extend(legend(met, TOP + PANEL_HEIGHT + 94))
    return "\n".join([*drawn, "</svg>", ""])


def main():
    try:
        if len(sys.argv) > 2:
            raise Unreadable("name at most one file")
        if len(sys.argv) == 2:
            with open(sys.argv[1], "rb") as file:
                given = file.read()
        else:
            given = sys.stdin.buffer.read()
        # bytes, so that no setting of the terminal decides what a µ is
        sys.stdout.buffer.write(picture(read(given.decode())).encode())
    except (Unreadable, OSError, UnicodeDecodeError) as error:
        sys.exit(f"speed.py: {error}")


if __name__ == "__main__":
    main()
