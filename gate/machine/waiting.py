#!/usr/bin/env python3
"""Compares how many functions of each crate may wait, as `rt ci` counted them, with `may_wait=N` in crates.txt, of which `rt verdict` asks that it is
the same, and `rt ci` doesn't. A crate that `rt ci` had proved before isn't counted anew.

usage: gate/machine/waiting.py FILE     the file has what `rt ci` said
"""

import re
import sys
from pathlib import Path

sys.path.append(str(Path(__file__).resolve().parent.parent))
import find_modules  # has Python find the next ones
from repository import TOP

LISTED = re.compile(r"^(\w+)([^:#\n]*):", re.MULTILINE)  # a crate in crates.txt, and what stands before its colon
COUNTED = re.compile(r"^logic=.*?(?: may-wait=(\d+))? sum=")  # the line in which the checker counts functions
PROVED = re.compile(r"^rt: (\w+) proved$")
TESTS = re.compile(r"^rt: \w+: its tests are proved$")  # of which another line counts


def listed(text):
    """How many functions may wait by the text of crates.txt, by the names of crates."""
    found = {name: re.search(r" may_wait=(\d+)", words) for name, words in LISTED.findall(text)}
    return {name: int(number[1]) if number else 0 for name, number in found.items()}


def counted(said):
    """How many may by what `rt ci` said, by the names of the crates that it proved."""
    found, last = {}, None
    for line in said.splitlines():
        if number := COUNTED.match(line):
            last = int(number[1] or 0)
        elif TESTS.match(line):
            last = None
        elif (proved := PROVED.match(line)) and last is not None:
            found[proved[1]], last = last, None
    return found


def main():
    numbers = listed((TOP / "crates.txt").read_text(encoding="utf-8"))
    found = counted(Path(sys.argv[1]).read_text(encoding="utf-8", errors="replace"))
    wrong = {name: number for name, number in found.items() if number != numbers.get(name)}
    for name, number in wrong.items():
        print(f"waiting {name}: WRONG: {number} functions may wait, and crates.txt says {numbers.get(name)}")
    return 1 if wrong else 0


if __name__ == "__main__":
    sys.exit(main())
