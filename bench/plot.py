#!/usr/bin/env python3
"""Draws what bench/results/runs.tsv keeps, as SVG.

    plot.py                  draws each picture SCRIPT-FIGURE.svg of bench/results/ anew
    plot.py SCRIPT FIGURE    writes such a picture to standard output

A row is a case, and a dot a run, on a scale of powers of ten; the later a run, the darker its dot,
whose title says its day, its machine and its value.
"""
import html
import math
import os
import sys

from results import RUNS, runs

LABELS, SCALE, ROW, TOP = 360, 520, 20, 60


class Scale:
    """Powers of ten side by side, from below the least to above the greatest value."""

    def __init__(self, values):
        self.low = math.floor(math.log10(min(values)))
        self.high = max(math.ceil(math.log10(max(values))), self.low + 1)

    def place(self, value):
        """Where a value stands, from the left."""
        return LABELS + SCALE * (math.log10(value) - self.low) / (self.high - self.low)

    def powers(self):
        """The powers of ten, each with the text that stands at it."""
        for power in range(self.low, self.high + 1):
            yield 10.0 ** power, f"{10.0 ** power:,.{max(0, -power)}f}"


def text(x, y, words, anchor="start"):
    """A text, which ends, begins or has its middle at a place."""
    return f'<text x="{x:.1f}" y="{y:.1f}" text-anchor="{anchor}">{html.escape(words)}</text>\n'


def dot(scale, y, run, age):
    """A run; the latest has the age 0, and each one before it one more."""
    day, machine, _, value = run
    title = html.escape(f"{value} on {day}, {machine}")
    return (f'<circle cx="{scale.place(value):.1f}" cy="{y:.1f}" r="4" fill="#1f4e79" '
            f'fill-opacity="{max(0.9 * 0.7 ** age, 0.1):.2f}"><title>{title}</title></circle>\n')


def grid(scale, bottom):
    """A line for each power of ten."""
    for value, words in scale.powers():
        x = scale.place(value)
        yield f'<line x1="{x:.1f}" y1="{TOP - 14}" x2="{x:.1f}" y2="{bottom}" stroke="#bbb"/>\n'
        yield text(x, TOP - 20, words, "middle")


def rows(cases, scale):
    """A row for each case."""
    for number, (case, told) in enumerate(cases.items()):
        y = TOP + ROW * number
        yield text(LABELS - 12, y + 4, case, "end")
        yield from (dot(scale, y, run, len(told) - at) for at, run in enumerate(told, 1))


def drawn(script, figure):
    """The picture of a figure of a script. Only what is above 0 has a place on the scale."""
    cases = {}
    for run in runs(script, figure):
        if run[3] > 0:
            cases.setdefault(run[2], []).append(run)
    if not cases:
        sys.exit(f"plot.py: {RUNS} has no {figure} of {script}")
    scale = Scale([run[3] for told in cases.values() for run in told])
    width, height = LABELS + SCALE + 60, TOP + ROW * len(cases)
    return (f'<svg xmlns="http://www.w3.org/2000/svg" width="{width}" height="{height}" '
            f'font-family="sans-serif" font-size="12">\n'
            f'<rect width="{width}" height="{height}" fill="white"/>\n'
            + text(12, 20, f"{figure} of bench/{script}.sh") + "".join(grid(scale, height - 10))
            + "".join(rows(cases, scale)) + "</svg>\n")


def main():
    if len(sys.argv) == 3:
        sys.stdout.write(drawn(*sys.argv[1:]))
        return
    folder = os.path.dirname(RUNS)
    for name in sorted(os.listdir(folder)):
        if name.endswith(".svg"):
            with open(os.path.join(folder, name), "w", encoding="utf-8") as file:
                file.write(drawn(*name.removesuffix(".svg").split("-")))


if __name__ == "__main__":
    main()
