"""Draws time against size from the measurements of bench/run, a panel for what the sizes count.

    python3 tools/plot.py docs/bench.csv docs/bench.svg

A point is a measurement, a line the straight one that is nearest to a series.
"""

import csv
import sys
from xml.sax.saxutils import escape

COLOURS = ["#0072b2", "#d55e00", "#009e73"]
WIDTH, HEIGHT, COLUMNS = 460, 330, 2
# of a panel: what is left around its axes
LEFT, RIGHT, TOP, BOTTOM = 70, 24, 62, 52
# what a size counts: the panel's title, the words below its axis, and how many of them one unit of the axis is
PANELS = {
    "bytes": ("Bencode texts: check", "length of the text, KiB", 1024),
    "files": ("Torrents", "files, with 16 pieces each", 1),
    "packages": ("Weeks' files", "packages, of some 4 KB each", 1),
    "pieces": ("The yard: a truck that has all", "pieces", 1),
    "seats": ("The yard: a missing page of all seats, and a round", "seats", 1),
}


def main():
    source, target = sys.argv[1:]
    with open(source, newline="", encoding="ascii") as file:
        rows = [row for row in csv.DictReader(file) if not row["peer"]]
    parts = [panel(number, of, series_of(rows, of)) for number, of in enumerate(PANELS)]
    size = f'width="{WIDTH * COLUMNS}" height="{HEIGHT * -(-len(PANELS) // COLUMNS)}"'
    with open(target, "w", encoding="ascii") as file:
        file.write(f'<svg xmlns="http://www.w3.org/2000/svg" {size} font-family="sans-serif" font-size="12" fill="#222">\n')
        file.write(f'<rect {size} fill="white"/>\n{"".join(parts)}</svg>\n')


def series_of(rows, of):
    """The points of each series, in units of the axis and microseconds."""
    series = {}
    for row in rows:
        if row["of"] == of:
            series.setdefault(row["what"], []).append((int(row["size"]) / PANELS[of][2], float(row["ours_us"])))
    return series


def panel(number, of, series):
    title, below, _ = PANELS[of]
    across = axis([x for points in series.values() for x, _ in points], LEFT, WIDTH - RIGHT)
    up = axis([y for points in series.values() for _, y in points], HEIGHT - BOTTOM, TOP)
    marks = [text(LEFT, 22, title, 'font-size="14" font-weight="bold"')]
    marks += grid(across, up)
    marks.append(text((LEFT + WIDTH - RIGHT) / 2, HEIGHT - 14, below, 'text-anchor="middle"'))
    middle = (TOP + HEIGHT - BOTTOM) / 2
    marks.append(text(16, middle, "microseconds", f'text-anchor="middle" transform="rotate(-90 16 {middle})"'))
    along = LEFT
    for colour, (name, points) in zip(COLOURS, series.items()):
        marks.append(f'<circle cx="{along + 4}" cy="42" r="4" fill="{colour}"/>\n')
        marks.append(text(along + 12, 46, name, ""))
        along += 28 + 6.5 * len(name)
        marks += drawn(points, across, up, colour)
    at = f"translate({number % COLUMNS * WIDTH} {number // COLUMNS * HEIGHT})"
    return f'<g transform="{at}">\n{"".join(marks)}</g>\n'


def drawn(points, across, up, colour):
    slope, start = nearest(points)
    ends = [(x, slope * x + start) for x in (points[0][0], points[-1][0])]
    (x, y), (to_x, to_y) = [(across.place(x), up.place(y)) for x, y in ends]
    yield f'<line x1="{x:.1f}" y1="{y:.1f}" x2="{to_x:.1f}" y2="{to_y:.1f}" stroke="{colour}" stroke-width="1.5"/>\n'
    for x, y in points:
        yield f'<circle cx="{across.place(x):.1f}" cy="{up.place(y):.1f}" r="3.5" fill="{colour}"/>\n'


def nearest(points):
    """Slope and start of the straight line with the least squares."""
    x_mean, y_mean = (sum(values) / len(points) for values in zip(*points))
    slope = sum((x - x_mean) * (y - y_mean) for x, y in points) / sum((x - x_mean) ** 2 for x, _ in points)
    return slope, y_mean - slope * x_mean


class axis:
    """From 0 to a round number that no value is above, between two places of the picture."""

    def __init__(self, values, first, last):
        self.first, self.last = first, last
        most = max(values)
        steps = [m * 10**k for k in range(-3, 9) for m in (1, 2, 2.5, 5)]
        self.step = next(step for step in steps if most / step <= 5)
        self.count = -int(-most // self.step)

    def place(self, value):
        return self.first + (self.last - self.first) * value / (self.step * self.count)

    def ticks(self):
        return [self.step * k for k in range(self.count + 1)]


def grid(across, up):
    for x in across.ticks():
        at = across.place(x)
        yield f'<line x1="{at:.1f}" y1="{up.first}" x2="{at:.1f}" y2="{up.last}" stroke="#ddd"/>\n'
        yield text(at, up.first + 18, f"{x:,g}", 'text-anchor="middle"')
    for y in up.ticks():
        at = up.place(y)
        yield f'<line x1="{across.first}" y1="{at:.1f}" x2="{across.last}" y2="{at:.1f}" stroke="#ddd"/>\n'
        yield text(across.first - 8, at + 4, f"{y:,g}", 'text-anchor="end"')


def text(x, y, words, how):
    return f'<text x="{x:.1f}" y="{y:.1f}" {how}>{escape(words)}</text>\n'


if __name__ == "__main__":
    main()
