#!/usr/bin/env python3
"""Writes into docs/DEFINITIONS.md, after its marker, what the comments in crates/*/specs say of each definition that another file uses, or that
docs/PROMISES.md or the README of its crate names: a section for each crate and module, in the order of crates.txt, and a line for each name.
What is above the marker stays. A module whose head says that it is for private contracts is left out, and so is a definition whose comment says
so. gate/pages/pages.py sees that the page has what the sources say, and that each of these definitions has a comment.

usage: gate/pages/definitions.py
"""

import re
import sys
from dataclasses import dataclass
from pathlib import Path

sys.path.append(str(Path(__file__).resolve().parent.parent))
import find_modules  # has Python find the next ones
from public_calls import first_sentence
from repository import TOP

MARKER = "<!-- What follows is written by gate/pages/definitions.py. -->\n"

DEFINITION = re.compile(r"^(?: *(?:abbrev|unfoldable) pub|pub(?: record| data)?(?= \S+ .*:)| *pub (?:record|data)) (\S+)", re.M)
IMPORT = re.compile(r"Rattle\.\w+\.specs\.(\w+)\.\{([^}]*)\}")
UNFOLDED = re.compile(r"specs::(\w+)::(\w+)")
PRIVATE = re.compile(r"private contracts")


@dataclass(frozen=True)
class Module:
    """A module of definitions: its crate, its name, the comment at its head, and the name and the comment of each definition."""

    crate: str
    name: str
    head: str
    definitions: tuple


def comment_above(lines):
    """The comment that these lines end with, as one line."""
    found = []
    for line in reversed(lines):
        if not line.lstrip().startswith("--") or line.lstrip().startswith("-- ----"):
            break
        found.append(line.strip()[2:].strip())
    return " ".join(reversed(found))


def module_of(file):
    """What a file defines, in its order."""
    text = file.read_text(encoding="utf-8")
    head = re.match(r"(?:--.*\n)*", text)[0].splitlines()
    found = ((it[1], comment_above(text[: it.start()].splitlines())) for it in DEFINITION.finditer(text))
    return Module(file.parent.parent.name, file.stem, comment_above(head), tuple(found))


def used_elsewhere(top):
    """The module and the name of each definition that another file imports or unfolds."""
    files = [*top.glob("crates/*/src/**/*.rt"), *top.glob("crates/*/specs/*.antt")]
    texts = [file.read_text(encoding="utf-8") for file in files]
    imported = {(found[1], name.split()[0]) for text in texts for found in IMPORT.finditer(text) for name in found[2].split(",") if name.strip()}
    return imported | {pair for text in texts for pair in UNFOLDED.findall(text)}


def names_in(page):
    """What a page, if it is there, has between backquotes."""
    return set(re.findall(r"`([^`\s]+)`", page.read_text(encoding="utf-8"))) if page.is_file() else set()


def modules(top):
    """The modules that the page lists, each with those of its definitions that it lists, in the order of crates.txt."""
    used, named = used_elsewhere(top), names_in(top / "docs" / "PROMISES.md")
    crates = re.findall(r"^(\w+)[ :]", (top / "crates.txt").read_text(encoding="utf-8"), re.M)
    for folder in (top / "crates" / crate for crate in crates):
        shown = named | names_in(folder / "README.md")
        for module in map(module_of, sorted((folder / "specs").glob("*.antt"))):
            kept = tuple(it for it in module.definitions if ((module.name, it[0]) in used or it[0] in shown) and not PRIVATE.search(it[1]))
            if kept and not PRIVATE.search(module.head):
                yield Module(module.crate, module.name, module.head, kept)


def listed(top):
    """The lines of the page after its marker."""
    crate = ""
    for module in modules(top):
        yield from () if module.crate == crate else ("", f"## {module.crate}")
        crate = module.crate
        yield from ("", f"### {module.name}", "", first_sentence(module.head), "")
        yield from (f"- `{name}`: {comment}" for name, comment in module.definitions)


def page_of(text, top):
    """The page with what the sources say after its marker."""
    return text.partition(MARKER)[0] + MARKER + "\n".join(listed(top)) + "\n"


def main():
    page = TOP / "docs" / "DEFINITIONS.md"
    page.write_text(page_of(page.read_text(encoding="utf-8"), TOP), encoding="utf-8")


if __name__ == "__main__":
    main()
