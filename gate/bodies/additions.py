"""Items that an edit adds to a file outside its functions, so that nothing is changed for what doesn't name them."""

import re

from functions import type_of

DERIVED = r"(?:#\[derive\([\w, ]*\)\] )?"
ITEM = re.compile(rf"{DERIVED}(?:pub\(crate\) )?(?:const )?(?:unsafe )?(?:fn|struct|enum|const|static) (\w+)|(?:unsafe )?impl\b")
DEPTHS = {"(": 1, "[": 1, "{": 1, ")": -1, "]": -1, "}": -1}


class CantShare(Exception):
    """The edit changes more than bodies of functions, or adds what others may meet."""


def items_in(text):
    """The parts of a text of which each ends as an item does, and what is behind them."""
    parts, depth, begun = [], 0, 0
    for at, it in enumerate(text, 1):
        depth += DEPTHS.get(it, 0)
        if depth == 0 and it in ";}":
            parts.append(text[begun:at].strip())
            begun = at
    return [*parts, text[begun:].strip()]


def names_in(text):
    """The names of the items in a text that has nothing else: functions, types and constants that other crates can't see, and impls of these
    types."""
    *items, rest = items_in(text)
    found = [ITEM.match(item) for item in items]
    if rest or None in found or "//" in text or "/*" in text:
        raise CantShare(f"it changes more than bodies of functions, and adds what is no item: {text}")
    names = {it[1] for it in found if it[1]}
    if not names.issuperset(type_of(item.partition("{")[0]) for item, it in zip(items, found) if not it[1]):
        raise CantShare(f"it gives an impl to a type that it doesn't declare: {text}")
    return names


def has_place(lines):
    """Whether an item has a place behind these lines: in no block but an impl of a type's own, and below no attribute."""
    last = next((it for it in reversed(lines) if it.strip() and not it.strip().startswith("//")), "")
    outer = next((it for it in reversed(lines) if it[:1].strip()), "")
    is_impl = outer.startswith(("impl", "unsafe impl")) and " for " not in outer
    return not last.endswith("]") and (is_impl or not outer or outer.startswith("//") or outer.endswith((";", "}")))


def added(lines, at, new):
    """The items that this new text has before and behind that of the line of this number, and nothing else."""
    old = lines[at].strip()
    before, found, behind = new.partition(old) if old else ("", "", "")
    if not found or before.strip() and not has_place(lines[:at]) or behind.strip() and not has_place(lines[: at + 1]):
        raise CantShare(f"it changes more than bodies of functions: {old}")
    for text in (before, behind):
        names_in(text)
    return before.strip(), behind.strip()


def with_added(lines, additions):
    """The lines, with what edits add before and behind some, by the numbers of these. What several of them add alike stands once."""
    lines = list(lines)
    for at, pairs in additions.items():
        before, behind = (dict.fromkeys(text for text in texts if text) for texts in zip(*pairs))
        lines[at] = " ".join([*before, lines[at], *behind])
    return lines
