#!/usr/bin/env python3
"""Draws what crates/interning_speed/growth.sh printed: how the time of a call grows with the number of live texts.

    gate/pictures/curves.py < docs/growth.txt > docs/growth.svg
"""

import math
import re
import sys
from html import escape

STYLE = """
  text { font: 12px system-ui, sans-serif; fill: #1f2328; }
  .title { font-weight: 600; }
  .grid { stroke: #d0d7de; stroke-width: 1; }
  .line { fill: none; stroke-width: 2; }
  .bits8 { stroke: #bf8700; } .bits12 { stroke: #0969da; } .bits14 { stroke: #2da44e; }
  .dot { stroke: none; } .dot.bits8 { fill: #bf8700; } .dot.bits12 { fill: #0969da; } .dot.bits14 { fill: #2da44e; }
  @media (prefers-color-scheme: dark) {
    text { fill: #e6edf3; }
    .grid { stroke: #30363d; }
    .bits8 { stroke: #d29922; } .bits12 { stroke: #58a6ff; } .bits14 { stroke: #3fb950; }
    .dot.bits8 { fill: #d29922; } .dot.bits12 { fill: #58a6ff; } .dot.bits14 { fill: #3fb950; }
  }
"""
CALLS = ("intern of a text that is there", "intern of one more new text", "last drop, of any")
WIDTH, HEIGHT, LEFT, TOP, APART = 250, 260, 70, 40, 110
TEXTS = (1_000, 10_000, 100_000, 1_000_000)
NANOS = (10, 100, 1_000, 10_000, 100_000)


def read(lines):
    """The times by call and bits: pairs of the number of texts and nanoseconds."""
    curves = {}
    for line in lines:
        words = re.split(r"\s{2,}", line.strip())
        if len(words) == 4 and words[0].isdigit():
            curves.setdefault((words[2], int(words[0])), []).append((int(words[1]), float(words[3])))
    return curves


def between(low, high, value):
    return math.log(value / low) / math.log(high / low)


def across(left, texts):
    return left + WIDTH * between(TEXTS[0], TEXTS[-1], texts)


def down(nanos):
    return TOP + HEIGHT * (1 - between(NANOS[0], NANOS[-1], nanos))


def short(number):
    for unit, name in ((1_000_000, "M"), (1_000, "k")):
        if number >= unit:
            return f"{number // unit}{name}"
    return str(number)


def time_name(nanos):
    return f"{nanos // 1000} µs" if nanos >= 1000 else f"{nanos} ns"


def grid(left, call):
    yield f'<text class="title" x="{left}" y="22">{escape(call)}</text>'
    for nanos in NANOS:
        y = down(nanos)
        yield f'<line class="grid" x1="{left}" y1="{y:.1f}" x2="{left + WIDTH}" y2="{y:.1f}"/>'
        yield f'<text x="{left - 6}" y="{y + 4:.1f}" text-anchor="end">{time_name(nanos)}</text>'
    for texts in TEXTS:
        x = across(left, texts)
        yield f'<line class="grid" x1="{x:.1f}" y1="{TOP}" x2="{x:.1f}" y2="{TOP + HEIGHT}"/>'
        yield f'<text x="{x:.1f}" y="{TOP + HEIGHT + 16}" text-anchor="middle">{short(texts)}</text>'


def curve(left, bits, points, is_lowest):
    """A curve with its name at its end: well below the lowest one, and above the others."""
    places = [(across(left, texts), down(nanos)) for texts, nanos in sorted(points)]
    path = " ".join(f"{x:.1f},{y:.1f}" for x, y in places)
    yield f'<polyline class="line bits{bits}" points="{path}"/>'
    yield from (f'<circle class="dot bits{bits}" cx="{x:.1f}" cy="{y:.1f}" r="2.5"/>' for x, y in places)
    x, y = places[-1]
    anchor, right, under = ("middle", 0, 54) if is_lowest else ("middle", 12, -9)
    yield f'<text x="{x + right:.1f}" y="{y + under:.1f}" text-anchor="{anchor}">{2**bits:,} buckets</text>'


def main():
    curves = read(sys.stdin)
    if not curves:
        sys.exit("no line has a time: ask growth.sh")
    width = LEFT + len(CALLS) * (WIDTH + APART)
    print(f'<svg xmlns="http://www.w3.org/2000/svg" viewBox="0 0 {width} {TOP + HEIGHT + 44}" role="img"')
    print('  aria-label="The time of a call over the number of live texts, on scales of logarithms">')
    print(f"<style>{STYLE}</style>")
    for number, call in enumerate(CALLS):
        left = LEFT + number * (WIDTH + APART)
        print("\n".join(grid(left, call)))
        most = max(bits for _, bits in curves)
        for (name, bits), points in sorted(curves.items()):
            if name == call:
                print("\n".join(curve(left, bits, points, bits == most)))
    print(f'<text x="{LEFT}" y="{TOP + HEIGHT + 36}">live texts, and the time of one call</text>')
    print("</svg>")


if __name__ == "__main__":
    main()
