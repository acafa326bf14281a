#!/usr/bin/env python3
"""Draws the tables of docs/BENCHMARKS.md on the table for C: for each thing that one would use in its place, the time of a call and the memory
as a ratio to that thing's.

What one would use in Python stands beside our module for Python, and all else beside the table for C.

    gate/pictures/clients.py < docs/BENCHMARKS.md > docs/clients.svg
"""

import re
import sys

from ratios import Bar, print_picture

SECTION = "## The table for C"
MODULE = "string_cache.py"  # the row of our module for Python
GROUPS = {
    "new": "A text that is new, of {}",
    "there": "A text that is there, of {}",
    "the text of a word": "The text of a word, of {}",
    "end of all": "The end of all, for each of {}",
    "memory": "Memory for each of {}",
}


def tables(text):
    """The tables of the section: of each, its number of texts, the names of its columns and its rows."""
    section = text.partition(f"\n{SECTION}\n")[2].partition("\n## ")[0]
    for block in re.findall(r"^\|(?:.*\n\|)*.*$", section, re.MULTILINE):
        head, _, *rows = [[cell.strip() for cell in line.strip("|").split("|")] for line in block.splitlines()]
        if head[0].endswith(" texts"):
            yield head[0], head[1:], [(row[0].replace("`", ""), [figure_of(cell) for cell in row[1:]]) for row in rows]


def figure_of(cell):
    """The figure at the front of a cell, or None where it has none."""
    found = re.match(r"[0-9][0-9,.]*", cell)
    return float(found[0].replace(",", "")) if found else None


def short(name):
    """A row's name without what it says of itself, and for Python with the module that it stands beside."""
    name = re.sub(r" \(.*\)|(?<=uthash 2\.3),.*| with its own hash$| of Box<str>$| of strings that are there$", "", name)
    return re.sub(r"^Python(?:, |'s )(.*)", rf"Python's \1 (beside {MODULE})", name)


def bars(text):
    """The bars, call by call."""
    for texts, calls, rows in tables(text):
        (_, table), *others = rows
        module = next((figures for name, figures in others if MODULE in name), table)
        for at, call in enumerate(calls):
            for name, figures in others:
                ours = (module if name.startswith("Python") else table)[at]
                if MODULE not in name and figures[at] is not None and ours is not None:
                    yield Bar(GROUPS[call].format(texts), short(name), ours, figures[at], "bytes" if call == "memory" else "ns")


def main():
    found = list(bars(sys.stdin.read()))
    if not found:
        sys.exit("no table has the times of the table for C: ask docs/BENCHMARKS.md")
    what = "Times and memory of the table for C, and of its module for Python, as ratios to what one would use instead; bars to the left are less"
    print_picture(found, what, "the same", ("ours", "the other"))


if __name__ == "__main__":
    main()
