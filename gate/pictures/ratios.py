#!/usr/bin/env python3
"""Draws what crates/interning_speed/compare.sh printed: for each call the time that it takes as a ratio to plain code's.

    gate/pictures/ratios.py < docs/speed.txt > docs/speed.svg
"""

import math
import re
import sys
from dataclasses import dataclass
from html import escape

STYLE = """
  text { font: 12px system-ui, sans-serif; fill: #1f2328; }
  .group { font-weight: 600; }
  .axis { stroke: #8c959f; stroke-width: 1; }
  .one { stroke: #1f2328; stroke-width: 1.5; }
  .faster { fill: #2da44e; }
  .slower { fill: #bf8700; }
  @media (prefers-color-scheme: dark) {
    text { fill: #e6edf3; }
    .axis { stroke: #6e7681; }
    .one { stroke: #e6edf3; }
    .faster { fill: #3fb950; }
    .slower { fill: #d29922; }
  }
"""
LEFT, WIDTH, ROW = 330, 420, 20
COLUMNS = (LEFT + WIDTH + 85, LEFT + WIDTH + 175)  # where the figures end, ours and the other's
LOW, HIGH = 1 / 32, 32


@dataclass
class Bar:
    """What is compared: the group that it stands in, its name there, our figure and the other's, and what they count."""

    group: str
    name: str
    ours: float
    plain: float
    unit: str = "ns"


def read(lines):
    """The lines that have a ratio, each with what was run as its group."""
    bars = []
    for line in lines:
        words = re.split(r"\s{2,}", line.strip())
        if len(words) == 5 and re.fullmatch(r"[0-9.]+", words[4]):
            bars.append(Bar(group_name(words[0]), words[1], float(words[2]), float(words[3])))
    return bars


def group_name(what):
    subject, number, bits, threads = what.split()
    number = f"{int(number):,}"
    if subject == "table":
        return f"Table, {number} texts"
    if subject == "hot":
        return "Set, a few texts over and over"
    if subject == "live":
        return f"Set of {2 ** int(bits):,} buckets, {number} live texts"
    if subject == "named":
        return f"Set with a name, {2 ** int(bits):,} buckets, {number} live texts"
    if subject == "named_crowd":
        return f"Set with a name, {number} texts, threads: {threads}"
    return f"Set, {number} texts, threads: {threads}"


def across(ratio):
    """Where a ratio stands, on a scale of logarithms."""
    ratio = min(max(ratio, LOW), HIGH)
    return LEFT + WIDTH * math.log(ratio / LOW) / math.log(HIGH / LOW)


def drawn_bar(y, bar):
    ratio = bar.ours / bar.plain if bar.plain else 1.0
    start, end = sorted((across(1), across(ratio)))
    kind = "faster" if ratio <= 1 else "slower"
    yield f'<text x="{LEFT - 8}" y="{y + 14}" text-anchor="end">{escape(bar.name)}</text>'
    yield f'<rect class="{kind}" x="{start:.1f}" y="{y + 4}" width="{max(end - start, 1):.1f}" height="{ROW - 7}" rx="2"/>'
    figures = (bar.ours, bar.plain)
    places = 0 if bar.ours >= 20 or all(figure.is_integer() for figure in figures) else 1
    for x, figure in zip(COLUMNS, figures):
        yield f'<text x="{x}" y="{y + 14}" text-anchor="end">{figure:,.{places}f} {bar.unit}</text>'


def drawn(bars, same, heads):
    """The lines of the picture, and how high it is. The words of `same` stand where a ratio is 1, and the heads above the two figures."""
    lines, y, last = [], 34, None
    for bar in bars:
        if bar.group != last:
            lines.append(f'<text class="group" x="12" y="{y + 14}">{escape(bar.group)}</text>')
            y, last = y + ROW, bar.group
        lines.extend(drawn_bar(y, bar))
        y += ROW
    scale = []
    for ratio, name in ((1 / 16, "1/16"), (1 / 4, "1/4"), (1, same), (4, "4"), (16, "16")):
        x = across(ratio)
        kind = "one" if ratio == 1 else "axis"
        scale.append(f'<line class="{kind}" x1="{x:.1f}" y1="28" x2="{x:.1f}" y2="{y}"/>')
        scale.append(f'<text x="{x:.1f}" y="20" text-anchor="middle">{name}</text>')
    scale += [f'<text class="group" x="{x}" y="20" text-anchor="end">{head}</text>' for x, head in zip(COLUMNS, heads)]
    return scale + lines, y + 12


def print_picture(bars, what, same, heads):
    """Prints the picture of these bars, and what it shows for who doesn't see it."""
    body, height = drawn(bars, same, heads)
    width = LEFT + WIDTH + 190
    print(f'<svg xmlns="http://www.w3.org/2000/svg" viewBox="0 0 {width} {height}" role="img"')
    print(f'  aria-label="{what}">')
    print(f"<style>{STYLE}</style>")
    print("\n".join(body))
    print("</svg>")


def main():
    bars = read(sys.stdin)
    if not bars:
        sys.exit("no line has a ratio: ask compare.sh")
    print_picture(bars, "The time of each call as a ratio to plain code over std; bars to the left are faster", "the same time", ("ours", "plain code"))


if __name__ == "__main__":
    main()
