#!/usr/bin/env python3
"""Writes into docs/CALLS.md, behind each call that it lists, the first sentence that the sources say of it. gate/pages/pages.py sees that
each public call is listed there, in its own form and with that sentence.

usage: gate/pages/calls.py
"""

import sys
from pathlib import Path

sys.path.append(str(Path(__file__).resolve().parent.parent))
import find_modules  # has Python find the next ones
from public_calls import listed_calls, page_of
from repository import TOP

PAGE = TOP / "docs" / "CALLS.md"


def main():
    text = PAGE.read_text(encoding="utf-8")
    PAGE.write_text(page_of(text, listed_calls(TOP)), encoding="utf-8")


if __name__ == "__main__":
    main()
