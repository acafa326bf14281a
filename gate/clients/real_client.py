#!/usr/bin/env python3
"""Builds programs that were written for string_cache 0.8 twice, over Debian's string_cache and over clients/rust_facade_0_8, and sees that both
builds of one write the same, byte for byte:

- html5ever, in clients/page_tree: the trees of pages that are made here, and of those of /usr/share/doc where there are any, up to some number and
  size. Neither is changed; of tendril, which today's compiler refuses, one line is, in a copy.
- lalrpop, which isn't changed: the parsers of a grammar that is made here, and of lalrpop's own.

All is built in the folder ROOM, without a network. Where Debian's package of one isn't there, a line says so, and nothing else is done for it.

usage: gate/clients/real_client.py LIBRARY ROOM [NAME..]     LIBRARY is a folder that tools/c_library.sh filled; with names only these programs
"""

import os
import random
import shutil
import subprocess
import sys
from pathlib import Path

TOP = Path(__file__).resolve().parents[2]
REGISTRY = Path("/usr/share/cargo/registry")
DOCUMENTS = Path("/usr/share/doc")
HTML, TENDRIL, LALRPOP = (REGISTRY / name for name in ("html5ever-0.26.0", "tendril-0.4.0", "lalrpop-0.19.8"))
DEBIAN = ["--config", 'source.crates-io.replace-with="debian"', "--config", f'source.debian.directory="{REGISTRY}"']
FACADE = "rust_facade_0_8"
# Old sources take some of today's warnings for errors.
LINTS = {"RUSTFLAGS": "--cap-lints warn"}
# What takes the compiler the least time: what it builds runs once.
QUICK = {"CARGO_PROFILE_DEV_PANIC": "abort", "CARGO_PROFILE_DEV_CODEGEN_UNITS": "1"}
QUICK |= {name: "false" for name in ("CARGO_INCREMENTAL", "CARGO_PROFILE_DEV_DEBUG", "CARGO_PROFILE_DEV_DEBUG_ASSERTIONS")}
# The layout of a header that Rust may refer to: the packed one is no longer taken.
OLD_LINE, NEW_LINE = "#[repr(packed)]", "#[repr(C)]"
MADE = 40  # pages
MOST_FOUND = 40  # pages
MOST_BYTES = 2_000_000  # of those that were found
OPERATORS = 12  # of the grammar that is made
LEAST_LINES = 1000  # that a program writes
SECONDS = 1800
NAMES = (
    "div span p a b i em table tr td th tbody ul ol li form input select option template script style title svg math mi foreignObject "
    "linearGradient blockquote figcaption button my-own-element a-much-longer-custom-element x1 nobr frameset textarea pre h1 h6"
).split()
ATTRIBUTES = "id class href xlink:href xml:lang data-a-long-name definitionurl viewBox style onclick aria-labelledby CLASS x".split()
TEXTS = ["text", "a &amp; b", "&notanentity; &#x1F600;", "<!-- a comment -->", "日本語の長い名前", "\t\n ", "<![CDATA[x]]>", "<?target data?>", "\0"]
OLD_DOCTYPE = '<!DOCTYPE html PUBLIC "-//W3C//DTD HTML 3.2//EN">'
BEGINNINGS = ["<!doctype html>", "", OLD_DOCTYPE, "<html lang=en><head><title>x</title></head>", "\ufeff<!-- first -->"]


def said_by(*words, **how):
    """What a command wrote to its output."""
    ran = subprocess.run([*map(str, words)], stdin=subprocess.DEVNULL, capture_output=True, timeout=SECONDS, check=False, **how)
    if ran.returncode:
        sys.exit(f"{Path(words[0]).name} ended with status {ran.returncode}:\n{ran.stderr.decode(errors='replace')[-3000:]}")
    return ran.stdout


def made_page(number):
    """A page of elements, attributes and texts by chance, of which many aren't closed."""
    chance = random.Random(number)
    parts, opened = [chance.choice(BEGINNINGS)], []
    for _ in range(300):
        if opened and chance.random() < 0.4:
            parts.append(f"</{opened.pop(chance.randrange(len(opened)))}>")
        elif chance.random() < 0.4:
            parts.append(chance.choice(TEXTS))
        else:
            opened.append(chance.choice(NAMES) + chance.choice(["", "", f"-{number}", f"-of-page-{number}-{chance.randrange(9)}"]))
            pairs = [f'{chance.choice(ATTRIBUTES)}="{chance.choice(TEXTS)}"' for _ in range(chance.randrange(4))]
            parts.append(f"<{' '.join([opened[-1], *pairs])}{chance.choice(['', '', '/'])}>")
    return "".join(parts)


def made_grammar():
    """A grammar of lists of terms, with operators that each bind closer than the one before."""
    parts = ["grammar;", "pub Terms: Vec<i64> = Separated<Level1>;"]
    parts.append('Separated<Item>: Vec<Item> = {\n    <mut all:(<Item> ",")*> <last:Item?> => { all.extend(last); all },\n};')
    for at in range(1, OPERATORS + 1):
        more = f'<one:Level{at}> "operator{at}" <other:Level{at + 1}> => one + {at} * other'
        parts.append(f"Level{at}: i64 = {{\n    {more},\n    Level{at + 1},\n}};")
    parts.append(f'Level{OPERATORS + 1}: i64 = {{\n    r"[0-9]+" => <>.parse().unwrap(),\n    "(" <Level1> ")",\n}};')
    return "\n\n".join([*parts, ""])


def pages(room):
    """The files of the pages that were made, and of those that were found."""
    folder = room / "pages"
    folder.mkdir()
    made = [folder / f"{number}.html" for number in range(MADE)]
    for number, path in enumerate(made):
        path.write_text(made_page(number), encoding="utf-8", newline="")
    found, size = [], 0
    for path in sorted(DOCUMENTS.rglob("*.html")) if DOCUMENTS.is_dir() else []:
        if len(found) < MOST_FOUND and path.is_file() and size + path.stat().st_size <= MOST_BYTES:
            found.append(path)
            size += path.stat().st_size
    return [*made, *found]


def copied(source, target):
    """A copy of a crate, without what was built of it."""
    return shutil.copytree(source, target, ignore=shutil.ignore_patterns("target", "Cargo.lock"))


def patched_tendril(room):
    """A copy of tendril with its line."""
    copy = copied(TENDRIL, room / "tendril")
    source = copy / "src" / "tendril.rs"
    text = source.read_text(encoding="utf-8")
    source.write_text(text.replace(OLD_LINE, NEW_LINE, 1), encoding="utf-8")
    return copy


def facade_in(room):
    """The facade, in a copy beside what it stands on."""
    for name in ("rust", "rust_facade", FACADE, "precomputed_hash"):
        if not (room / name).is_dir():
            copied(TOP / "clients" / name, room / name)
    return room / FACADE


def built(room, library, copy, crates):
    """Builds a program with these crates in the place of Debian's. What was built, and the string_cache that it stands over."""
    places = [word for crate, path in crates.items() for word in ("--config", f"patch.crates-io.{crate}.path='{path}'")]
    how = {"cwd": copy, "env": {**os.environ, "STRING_CACHE_DIR": str(library), **LINTS, **QUICK}}
    said_by("cargo", "build", "--quiet", "--offline", *DEBIAN, *places, "--target-dir", room / "target", **how)
    said = said_by("cargo", "tree", "--offline", *DEBIAN, *places, "--invert", "string_cache", "--prefix", "none", **how)
    return room / "target" / "debug", said.splitlines()[0].decode()


def same(room, library, source, crates, written):
    """What both builds of a program write, text by text, and the name of Debian's string_cache."""
    folder, original = built(room, library, copied(source, room / "over_debian" / source.name), crates)
    wanted = written(folder)
    folder, facade = built(room, library, copied(source, room / "over_facade" / source.name), {**crates, "string_cache": facade_in(room)})
    found = written(folder)
    if FACADE not in facade or FACADE in original:
        sys.exit(f"the programs stand over {original} and {facade}")
    if found != wanted or any(text.count(b"\n") < LEAST_LINES for text in wanted):
        pairs = zip(b"\n".join(wanted).splitlines(), b"\n".join(found).splitlines())
        first = next((f"{one!r} and {other!r}" for one, other in pairs if one != other), "their lengths")
        sys.exit(f"{source.name} writes texts that differ: {first}")
    return wanted, original


def html5ever(room, library):
    """Sees that pages have the same trees."""
    if not (HTML.is_dir() and TENDRIL.is_dir()):
        return f"SKIPPED: there is no {HTML}: Debian's package librust-html5ever-dev has it"
    files = pages(room)
    source, crates = TOP / "clients" / "page_tree", {"tendril": patched_tendril(room)}
    _, original = same(room, library, source, crates, lambda folder: [said_by(folder / "page_tree", *files)])
    size = sum(path.stat().st_size for path in files)
    return f"html5ever over the facade: {len(files)} pages of {size} bytes have the trees that they have over {original}"


def lalrpop(room, library):
    """Sees that grammars have the same parsers."""
    if not LALRPOP.is_dir():
        return f"SKIPPED: there is no {LALRPOP}: Debian's package librust-lalrpop-dev has it"
    folder = room / "grammars"
    folder.mkdir()
    (folder / "made.lalrpop").write_text(made_grammar(), encoding="utf-8")
    shutil.copy(LALRPOP / "src" / "parser" / "lrgrammar.lalrpop", folder / "own.lalrpop")

    def written(programs):
        texts = []
        for name in ("made", "own"):
            said_by(programs / "lalrpop", "--force", f"{name}.lalrpop", cwd=folder)
            texts.append((folder / f"{name}.rs").read_bytes())
            (folder / f"{name}.rs").unlink()
        return texts

    texts, original = same(room, library, LALRPOP, {}, written)
    sizes = " and ".join(str(len(text)) for text in texts)
    return f"lalrpop over the facade: the parsers of two grammars, of {sizes} bytes, are those that it makes over {original}"


PROGRAMS = {"html5ever": html5ever, "lalrpop": lalrpop}


def main():
    library, room = Path(sys.argv[1]).resolve(), Path(sys.argv[2]).resolve()
    for name in sys.argv[3:] or PROGRAMS:
        print(PROGRAMS[name](room, library) if shutil.which("cargo") else "SKIPPED: there is no cargo", flush=True)
    return 0


if __name__ == "__main__":
    sys.exit(main())
