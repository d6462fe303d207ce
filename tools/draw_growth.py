#!/usr/bin/env python3
"""How the instructions of a check grow with the nodes of its mesh, drawn from the figures that 'bench/run growth'
wrote.

    draw_growth.py FIGURES SVG

Solid lines are the archive's, dashed ones the independent implementation's. A series whose name begins with "fan" has
a panel of its own: there 47 asks every two elements for a line, so that it grows with their pairs."""

import csv
import sys
from collections import namedtuple

from svg import circle, label, line, whole

WIDTH, HEIGHT = 960, 560
TITLE = "Instructions of one check by the nodes of its mesh (callgrind)"
COLOURS = "#1f5fbf", "#2a8a2a", "#cc1f1f", "#8a3fb0", "#9a5b13"
# The dashes of a program's lines.
PROGRAMS = {"proved": "none", "independent": "6 4"}
PROGRAM_WORDS = {"proved": "the archive", "independent": "independent"}
# About so many lines across a panel.
TICKS = 8

# left, right, top, bottom: the places of the axes on the page.
Box = namedtuple("Box", "left right top bottom")


def read(name):
    """The rows of each series, in their order."""
    series = {}
    with open(name, encoding="utf-8") as file:
        for row in csv.DictReader(file, delimiter="\t"):
            series.setdefault(row["series"], []).append(row)
    return series


def step_for(most):
    """1, 2 or 5 times a power of ten, so that there are about as many ticks as asked."""
    unit = 10 ** (len(str(most // TICKS)) - 1)
    return next(unit * k for k in (1, 2, 5, 10) if unit * k * TICKS >= most)


class Panel:
    """Axes for some series: nodes to the right, instructions upward."""

    def __init__(self, box, series, title, unit, colours):
        self.box, self.series, self.title, self.unit, self.colours = box, series, title, unit, colours
        most = max(int(row[program]) for rows in series.values() for row in rows for program in PROGRAMS)
        self.step = step_for(most)
        self.most = -(-most // self.step) * self.step

    def at(self, nodes, instructions):
        box = self.box
        across = box.left + (box.right - box.left) * nodes / 100
        return across, box.bottom - (box.bottom - box.top) * instructions / self.most

    def axes(self):
        box = self.box
        yield label(((box.left + box.right) / 2, box.top - 24), self.title, 12)
        for value in range(0, self.most + 1, self.step):
            left, right = self.at(0, value), self.at(100, value)
            yield line(left, right, "#ddd" if value else "#000")
            yield label((left[0] - 6, left[1]), f"{value / self.unit[0]:g}", 11, anchor="end")
        yield line(self.at(0, 0), self.at(0, self.most), "#000")
        for nodes in range(0, 101, 20):
            foot = self.at(nodes, 0)
            yield line(foot, (foot[0], foot[1] + 5), "#000")
            yield label((foot[0], foot[1] + 14), str(nodes), 11)
        yield label(((box.left + box.right) / 2, box.bottom + 32), "nodes", 11)
        yield label((box.left - 6, box.top - 24), self.unit[1], 11, anchor="end")

    def curves(self):
        for (_, rows), colour in zip(self.series.items(), self.colours):
            for program, dashes in PROGRAMS.items():
                points = [self.at(int(row["nodes"]), int(row[program])) for row in rows]
                for a, b in zip(points, points[1:]):
                    yield line(a, b, colour, 1.6 if dashes == "none" else 1.0, stroke_dasharray=dashes)
                if dashes == "none":
                    yield from (circle(point, 2.2, fill=colour) for point in points)

    def drawn(self):
        return [*self.axes(), *self.curves()]


def sample(at, words, colour, dashes="none"):
    """A line of a legend, and what it is."""
    x, y = at
    yield line(at, (x + 26, y), colour, 1.6, stroke_dasharray=dashes)
    yield label((x + 32, y), words, 11, anchor="start")


def legend(grids, top):
    """The colours below the first panel, what is solid and what dashed below the second."""
    for k, (name, colour) in enumerate(zip(grids, COLOURS)):
        yield from sample((80 + 140 * (k % 3), top + 18 * (k // 3)), name, colour)
    for k, (program, dashes) in enumerate(PROGRAMS.items()):
        yield from sample((600 + 140 * k, top), PROGRAM_WORDS[program], "#000", dashes)


def main():
    figures, target = sys.argv[1:]
    series = read(figures)
    fans = {name: rows for name, rows in series.items() if name.startswith("fan")}
    grids = {name: rows for name, rows in series.items() if name not in fans}
    first = Panel(Box(80, 460, 90, 450), grids, "grids of squares", (1_000, "thousand"), COLOURS)
    second = Panel(Box(600, 900, 90, 450), fans, "a fan of triangles, 36 sides", (1_000_000, "million"), COLOURS[2:])
    parts = [label((20, 22), TITLE, 13, anchor="start"), *first.drawn(), *second.drawn(), *legend(grids, 512)]
    with open(target, "w", encoding="utf-8") as file:
        file.write(whole(WIDTH, HEIGHT, parts) + "\n")


if __name__ == "__main__":
    main()
