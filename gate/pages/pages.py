#!/usr/bin/env python3
"""Sees that what the pages show stands in the crates:

- each item of a Rust block, with its contract or without one, each name that it imports, and each answer of a proof;
- each line of crates.txt;
- each call that docs/CALLS.md lists, in that form and with the first sentence said of it, and there each public call of the crates that it
  is about (gate/pages/calls.py writes these sentences);
- what docs/DEFINITIONS.md says of definitions, with the comment of each (gate/pages/definitions.py writes it);
- what each link leads to: a file, and a heading in it;
- the files that have `unsafe`, as docs/PROMISES.md lists them: no other has it, and each of them does.

usage: gate/pages/pages.py [TOP]     of this repository, or of the one in that folder
"""

import re
import sys
from pathlib import Path

sys.path.append(str(Path(__file__).resolve().parent.parent))
import find_modules  # has Python find the next ones
import definitions
import repository
from public_calls import ROW, USE, imports, listed_calls, packed, row_of

TOP = Path(sys.argv[1]).resolve() if sys.argv[1:] else repository.TOP
CRATES = TOP / "crates"
CALLS = TOP / "docs" / "CALLS.md"
PROMISES = TOP / "docs" / "PROMISES.md"

UNSAFE = re.compile(r"\bunsafe\s*(?:[{(]|(?:impl|fn|extern|trait)\b)")
CLAUSE = re.compile(r"^ +(?:requires|ensures)\b.*$", re.M)


def read(path):
    return path.read_text(encoding="utf-8")


def line_of(text, at):
    return text.count("\n", 0, at) + 1


# ---- blocks


def items_of(block):
    """The items of a block, which are parted by empty lines: what it imports is left out."""
    return [item for item in re.split(r"\n\n+(?=\S)", USE.sub("", block).strip()) if item.strip()]


class Sources:
    """The files of the crates with one suffix: what they have, with contracts and without, and what they import."""

    def __init__(self, suffix):
        texts = [read(path) for path in sorted(CRATES.glob(f"*/**/*.{suffix}")) if "out" not in path.parts]
        self.imports = {path for text in texts for path in imports(text)}
        texts = [USE.sub("", text) for text in texts]
        self.texts = [packed(text) for text in texts] + [packed(CLAUSE.sub("", text)) for text in texts]

    def wrong(self, block):
        """What of a block they don't have, and None for what they have, one after another."""
        for path in sorted(imports(block)):
            yield None if path in self.imports else f"no crate imports {path}"
        for item in items_of(block):
            has = any(packed(item) in text for text in self.texts)
            yield None if has else f"it stands in no crate: {item.strip().splitlines()[0]}"


def wrong_blocks(pages):
    for kind, suffix in (("rust", "rt"), ("antt", "antt")):
        sources = Sources(suffix)
        for page in pages:
            text = read(page)
            for found in re.finditer(rf"^```{kind}\n(.*?)^```", text, re.M | re.S):
                for why in sources.wrong(found[1]):
                    yield page, line_of(text, found.start()), why


# ---- crates.txt


def wrong_lines(pages):
    lines = read(TOP / "crates.txt").splitlines()
    names = {re.split("[ :]", line)[0] for line in lines if line and not line.startswith("#")}
    words = {word for line in lines for word in line.partition(": ")[2].split()}
    for page in pages:
        text = read(page)
        for found in re.finditer(r"(?:^|`)((\w+)(?: [\w=+]+)*: ([\w ]+))(?:`|$)", text, re.M):
            if found[2] in names and words & set(found[3].split()):
                yield page, line_of(text, found.start()), None if found[1] in lines else f"crates.txt has another line of {found[2]}"


# ---- calls


def wrong_calls():
    calls, text, seen = listed_calls(TOP), read(CALLS), set()
    for found in ROW.finditer(text):
        call, row = row_of(found, calls)
        seen.add(call)
        why = f"the sources say: {row}" if call else f"the sources have no call {found[1]}::{found[2]} of that form"
        yield CALLS, line_of(text, found.start()), None if call and call.meaning and row == found[0] else why
    for call in (it for found in calls.values() for it in found if it.is_shown):
        yield CALLS, 1, None if call in seen else f"{call.owner}::{call.name} isn't listed"


# ---- definitions


def wrong_definitions():
    """The lines of the page after its marker, and those that it should have."""
    page = TOP / "docs" / "DEFINITIONS.md"
    head, _, rest = read(page).partition(definitions.MARKER)
    has, wanted = rest.splitlines(), list(definitions.listed(TOP))
    for number, line in enumerate(has, head.count("\n") + 2):
        if line not in wanted:
            yield page, number, f"the sources don't say: {line}"
    for line in wanted:
        if line not in has:
            yield page, 1, f"the sources say: {line}"
    if has != wanted and set(has) == set(wanted):
        yield page, 1, "the sources have another order"
    for module in definitions.modules(TOP):
        for name, comment in module.definitions:
            yield page, 1, None if comment else f"{name} has no comment in {module.crate}/specs/{module.name}.antt"


# ---- links


def headings(page):
    """The anchors of a page's headings."""
    lines = re.sub(r"^```.*?^```", "", read(page), flags=re.M | re.S)
    titles = re.findall(r"^#+ (.*)$", lines, re.M)
    return {re.sub(r"[^\w\- ]", "", title.lower()).strip().replace(" ", "-") for title in titles}


def wrong_links(pages):
    for page in pages:
        text = read(page)
        for found in re.finditer(r"\]\((?!https?:)([^)\s#]*)(?:#([^)\s]+))?\)", text):
            to = (page.parent / found[1]) if found[1] else page
            is_there = to.exists() and (not found[2] or found[2] in headings(to))
            yield page, line_of(text, found.start()), None if is_there else f"nothing is at {found[0][2:-1]}"


# ---- `unsafe`


def wrong_unsafe():
    """The files with `unsafe` in their code, and those that the table under "Where `unsafe` stands" names."""
    table = read(PROMISES).partition("\n## Where `unsafe` stands\n")[2].partition("\n## ")[0]
    rows = re.findall(r"^\| `([\w/]+)`: (.*?) \|", table, re.M)
    named = {f"{crate}/{file}" for crate, files in rows for file in re.findall(r"`([\w/.]+)`", files)}
    has = {str(path.relative_to(CRATES)) for path in CRATES.glob("*/src/**/*.rt") if UNSAFE.search(re.sub(r"//.*", "", read(path)))}
    for file in sorted(named | has):
        why = "has `unsafe`, and isn't named" if file not in named else "is named, and has no `unsafe`" if file not in has else ""
        yield PROMISES, 1, f"{file} {why}" if why else None


def main():
    pages = [TOP / "README.md", *sorted(TOP.glob("docs/*.md")), *sorted(CRATES.glob("*/README.md")), *sorted(CRATES.glob("*/CALLING.md"))]
    all_pages = pages + sorted(TOP.glob("clients/**/README.md"))
    results = []
    for name, found in [
        ("blocks", wrong_blocks(pages)), ("lines of crates.txt", wrong_lines(all_pages)), ("calls", wrong_calls()), ("definitions", wrong_definitions()),
        ("links", wrong_links(all_pages)), ("files with unsafe", wrong_unsafe()),
    ]:
        found = list(found)
        for page, line, why in found:
            if why:
                print(f"pages {page.relative_to(TOP)}:{line}: WRONG: {why}")
        print(f"pages {name}: {len(found)} on {len({it[0] for it in found})} pages{'' if found else ': WRONG: none were found'}")
        results += [not any(it[2] for it in found if it[0] == page) for page in {it[0] for it in found}] or [False]
    print(f"{results.count(True)} passed, {results.count(False)} failed")
    return 0 if all(results) else 1


if __name__ == "__main__":
    sys.exit(main())
