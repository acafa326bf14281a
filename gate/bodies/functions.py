"""The functions of a file that `rt fmt` laid out: where they and their bodies begin and end, and what they are methods of. A brace that closes
stands under the first word of what it closes.
"""

import re

from edits import FUNCTION, BadEdit

GENERICS = re.compile(r"<[^<>]*>")
OF_TRAIT = re.compile(r"(?:unsafe )?impl\b.* for ")


def starts_of(lines):
    """Where each line begins in the text, and where the text ends."""
    starts = [0]
    for line in lines:
        starts.append(starts[-1] + len(line) + 1)
    return starts


def braces(lines, head):
    """The lines that open and close the body of the function that begins in this line, or None where it has none."""
    indent = FUNCTION.match(lines[head])[1]
    for at in range(head, len(lines)):
        if at == head or not lines[at].startswith(f"{indent} "):
            if lines[at].endswith("{"):
                return at, lines.index(f"{indent}}}", at)
            if lines[at].endswith((";", "}")):
                return None
    return None


def spans(lines):
    """The lines at which functions begin, and those that open and close their bodies, but for constant functions, and those inside of bodies."""
    at = 0
    while at < len(lines):
        found = braces(lines, at) if FUNCTION.match(lines[at]) and "const fn " not in lines[at] else None
        if found:
            yield at, *found
            at = found[1]
        at += 1


def around(lines, head):
    """The line by which the impl begins in which the function of this line stands, or an empty one."""
    indent = FUNCTION.match(lines[head])[1]
    return next((it for it in reversed(lines[:head]) if indent and it.startswith(("impl", "unsafe impl"))), "")


def head_at(lines, starts, place):
    """The line at which the function begins in which this place lies, or None."""
    number = next(it for it in range(len(lines)) if starts[it + 1] > place)
    return next((it for it in range(number, -1, -1) if FUNCTION.match(lines[it])), None)


def function_at(text, place):
    """The name of the function in whose body this place lies, the type of its impl or None, and where the body begins and ends."""
    lines = text.split("\n")
    starts = starts_of(lines)
    head = head_at(lines, starts, place)
    if head is None:
        raise BadEdit("it changes what is no function's body")
    found, name = braces(lines, head), FUNCTION.match(lines[head])[2]
    if not found:
        raise BadEdit(f"{name} has no body")
    return name, type_of(around(lines, head)), starts[found[0] + 1], starts[found[1]]


def whole_function(text, place):
    """Where the function in whose body this place lies begins, with what stands above it, and where it ends. None for a method of a trait."""
    lines = text.split("\n")
    starts = starts_of(lines)
    head = head_at(lines, starts, place)
    if OF_TRAIT.match(around(lines, head)):
        return None
    first = head
    while first and lines[first - 1].strip().startswith(("///", "#[")):
        first -= 1
    return starts[first], starts[braces(lines, head)[1] + 1]


def type_of(head):
    """The type of an impl that begins so, or None where it is a parameter."""
    head = head.replace("->", "")
    while GENERICS.search(head):
        head = GENERICS.sub("", head)
    words = re.findall(r"\w+", head.partition(" where ")[0].rpartition(" for ")[2])
    return words[-1] if words and len(words[-1]) > 1 else None


def plain_bodies(text):
    """The bodies of the functions that stand alone or in an impl of a type's own, but for constant ones: by the names of the type, if any,
    and the function, how far it is indented, and where the body begins and ends."""
    lines = text.split("\n")
    starts = starts_of(lines)
    for head, opens, closes in spans(lines):
        indent, name = FUNCTION.match(lines[head]).groups()
        outer = next((it for it in reversed(lines[:head]) if it[:1].isalpha() and it.endswith("{")), "") if indent else ""
        if not indent or outer.startswith(("impl", "unsafe impl")) and " for " not in outer:
            yield [*([type_of(outer)] if indent else []), name], indent, starts[opens + 1], starts[closes]
