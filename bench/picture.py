#!/usr/bin/env python3
"""Draws the tables of times in bench/README.md as bench/growth.svg: nanoseconds a byte against bytes, a line for each
input, so that growth is seen at a glance. A picture is drawn for each table, one below another.

Usage: bench/picture.py, once the tables of bench/README.md are those of a new run of bench/growth.py.
"""

import math
from html import escape
from itertools import groupby
from pathlib import Path

BENCH = Path(__file__).resolve().parent
HEADERS = ("| input | count | bytes | ms | ns a byte |", "| input | steps | bytes | ms | ns a byte |")
# Eight colours that are told apart without seeing all of them (Okabe and Ito); past them lines are dashed.
COLOURS = ("#000000", "#E69F00", "#56B4E9", "#009E73", "#0072B2", "#D55E00", "#CC79A7", "#999999")
LEFT, WIDTH, LEGEND, TOP, HEIGHT, GAP = 60, 520, 300, 40, 240, 60


def tables(text):
    """The tables of times: of each its lines, an input's name with its points of bytes and nanoseconds a byte."""
    for found, group in groupby(text.splitlines(), key=lambda line: line.startswith("|")):
        rows = list(group)
        if found and rows[0] in HEADERS:
            cells = [[cell.strip() for cell in row.strip("|").split("|")] for row in rows[2:]]
            points = [(name, int(size.replace(",", "")), int(each)) for name, _, size, _, each in cells]
            yield [(name, [point[1:] for point in same]) for name, same in groupby(points, key=lambda point: point[0])]


def axes(top, least, most, tallest):
    """The frame of one picture: a mark at each power of ten of bytes, and at quarters of the most nanoseconds."""
    bottom = top + HEIGHT
    yield f'<rect x="{LEFT}" y="{top}" width="{WIDTH}" height="{HEIGHT}" fill="none" stroke="#666"/>'
    for power in range(least, most + 1):
        x = LEFT + WIDTH * (power - least) / (most - least)
        yield f'<text x="{x:.0f}" y="{bottom + 16}" text-anchor="middle">{10**power:,}</text>'
    for quarter in range(5):
        y = bottom - HEIGHT * quarter / 4
        yield f'<text x="{LEFT - 6}" y="{y + 4:.0f}" text-anchor="end">{tallest * quarter / 4:.0f}</text>'
        yield f'<line x1="{LEFT}" x2="{LEFT + WIDTH}" y1="{y:.1f}" y2="{y:.1f}" stroke="#ddd"/>'
    yield f'<text x="{LEFT}" y="{top - 8}">ns a byte, against bytes</text>'


def picture(lines, top):
    """The picture of one table, below the ones that stand."""
    sizes = [size for _, points in lines for size, _ in points]
    least, most = math.floor(math.log10(min(sizes))), math.ceil(math.log10(max(sizes)))
    tallest = 20 * math.ceil(max(each for _, points in lines for _, each in points) / 20)
    yield from axes(top, least, most, tallest)
    for index, (name, points) in enumerate(lines):
        style = f'stroke="{COLOURS[index % len(COLOURS)]}"' + (' stroke-dasharray="5 3"' if index >= len(COLOURS) else "")
        path = " ".join(
            f"{LEFT + WIDTH * (math.log10(size) - least) / (most - least):.1f},{top + HEIGHT * (1 - each / tallest):.1f}"
            for size, each in points
        )
        y = top + 8 + 15 * index
        yield f'<polyline points="{path}" fill="none" stroke-width="1.5" {style}/>'
        yield f'<line x1="{LEFT + WIDTH + 15}" x2="{LEFT + WIDTH + 40}" y1="{y}" y2="{y}" stroke-width="1.5" {style}/>'
        yield f'<text x="{LEFT + WIDTH + 46}" y="{y + 4}">{escape(name.replace("`", ""))}</text>'


def main():
    found = list(tables((BENCH / "README.md").read_text(encoding="utf-8")))
    parts = [part for index, lines in enumerate(found) for part in picture(lines, TOP + index * (HEIGHT + GAP))]
    size = f'width="{LEFT + WIDTH + LEGEND}" height="{TOP + len(found) * (HEIGHT + GAP)}"'
    head = f'<svg xmlns="http://www.w3.org/2000/svg" {size} font-family="sans-serif" font-size="12">'
    svg = "\n".join([head, '<rect width="100%" height="100%" fill="#fff"/>', *parts, "</svg>", ""])
    (BENCH / "growth.svg").write_text(svg, encoding="utf-8")


if __name__ == "__main__":
    main()
