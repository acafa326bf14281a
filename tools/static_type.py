#!/usr/bin/env python3
"""Writes a static type over a list of names, one a line:

    tools/static_type.py Names crates/mine < names
    tools/static_type.py --packed Names crates/mine < names

That is the module crates/mine/src/names.rt, for a crate that uses `string_cache`: the static tables, the type `Names`, the alias `Name` of its
atoms, the word of each name as a constant, as `Names::BLOCKQUOTE`, what the checker reads, and a test that each name is found and has its
word. A name of up to 7 bytes is inline under any type, so it gets a constant and no place in the tables. Where a name makes no constant's
name, or the same as another, one stands behind it, after a tab. A type or an alias that is called as something that the module uses is refused,
as `Atom`: for a type `Atoms` --alias has to give another one. So is a module that is called as a keyword of Rust or Rattle, or lies in a folder
that is: for a type `Match` --module has to give another one.

Packed tables hold all texts in one. The checker takes thousands of them, where it takes some hundreds that are listed one by one as in the
original. A packed type's constants stand with its tables, as `NamesTables::BLOCKQUOTE`, and its crate uses `text_forms` too.

The program `atoms` makes the tables, so it has to be built: `cd crates/atoms && rt run -- check < /dev/null`. With --tables the standard
input has what it printed, in place of names, and the module has the type alone: no alias, no constants and no test.

The module is in the layout of `rt fmt`, and needs no trust: the checker refuses a type whose tables aren't usable.
"""

import argparse
import re
import subprocess
import sys
from pathlib import Path

from static_forms import MOST_INLINE, Listed, Name, Packed, Refused, read

TOP = Path(__file__).resolve().parent.parent
PROGRAM = TOP / "crates" / "atoms" / "out" / "atoms"
KEYS = 100  # that are tried

# What no module may be called: the keywords of Rust in small letters, strict and reserved ones, as its reference lists them up to edition 2024, and
# those of Rattle. Rust's weak ones, as `union`, may name a module.
KEYWORDS = frozenset(
    "as async await break const continue crate dyn else enum extern false fn for if impl in let loop match mod move mut pub ref return self static "
    "struct super trait true type unsafe use where while "
    "abstract become box do final gen macro override priv try typeof unsized virtual yield "
    "ensures ghost requires".split()
)


# ---- names


def constant_of(text):
    """What the constant of a text is called: its letters and digits in upper case, its words parted by `_`. None where that is no name."""
    parted = re.sub(r"(?<=[a-z0-9])(?=[A-Z])", "_", text)
    made = re.sub(r"[^A-Za-z0-9]+", "_", parted).strip("_").upper()
    return made if text.isascii() and re.fullmatch(r"[A-Z]\w*", made) else None


def name_of(line, number):
    """The name that a line has: a text, and after a tab what its constant is called where that can't be made of the text."""
    if not line:
        raise Refused(f"line {number} is empty: a name has to stand there, and no line feed")
    if line.endswith("\r"):
        raise Refused(f"line {number} ends with a carriage return: only a line feed may part names")
    text, _, constant = line.partition("\t")
    if not text:
        raise Refused(f"line {number} has no name before its tab")
    if "\t" in line and not re.fullmatch(r"[A-Z][A-Z0-9_]*", constant):
        raise Refused(f"line {number}: {constant!r} is no constant's name, which has capitals, digits and `_`, and begins with a capital")
    constant = constant or constant_of(text)
    if not constant:
        raise Refused(f"line {number}: {text!r} makes no constant's name: put one behind it, after a tab")
    return Name(text, constant)


def text_of(data):
    """The text that the bytes are."""
    try:
        return data.decode("utf-8")
    except UnicodeDecodeError as why:
        raise Refused(f"byte {why.start} isn't UTF-8") from None


def names_of(data):
    """The names that the bytes list, one a line."""
    lines = text_of(data).split("\n")
    if lines[-1] == "":
        lines.pop()
    if not lines:
        raise Refused("no names")
    texts, constants, names = {}, {}, []
    for number, line in enumerate(lines, 1):
        name = name_of(line, number)
        if name.text in texts:
            raise Refused(f"line {number}: {name.text!r} stands in line {texts[name.text]} too")
        if name.constant in constants:
            other = constants[name.constant]
            raise Refused(f"line {number}: {name.text!r} and {other!r} are both {name.constant}: put another word behind one, after a tab")
        texts[name.text], constants[name.constant] = number, name.text
        names.append(name)
    return names


def listed_of(names, with_short):
    """The texts that get a place in the tables."""
    texts = [name.text for name in names if with_short or not name.is_inline()]
    if not texts:
        raise Refused(f"no name has more than {MOST_INLINE} bytes, so each is inline under any type: `EmptyStaticAtomSet` serves (or --short)")
    return texts


def tables_of(texts, bound, program):
    """The table text of these texts, under the first key that places them."""
    if not program.is_file():
        raise Refused(f"there is no program {program}: `cd crates/atoms && rt run -- check < /dev/null` builds it")
    for key in range(KEYS):
        words = [program, "generate", str(key), str(bound)]
        ran = subprocess.run(words, input="".join(f"{text}\n" for text in texts).encode("utf-8"), capture_output=True, check=False)
        if ran.returncode == 0:
            return ran.stdout.decode("utf-8")
        said = ran.stderr.decode("utf-8", errors="replace").strip()
        if "no tables within the bound" not in said:
            raise Refused(f"{program.name} says: {said or ran.returncode}")
    raise Refused(f"no key below {KEYS} places these names with a bound of {bound}: one name more or less, or a greater --bound, helps")


# ---- the module


def write(file, text, heads=()):
    """Writes the file, unless one lies there that doesn't begin with one of the heads."""
    if heads and file.exists() and not file.read_text(encoding="utf-8").startswith(heads):
        raise Refused(f"{file} is there, and not written by this script")
    file.parent.mkdir(parents=True, exist_ok=True)
    file.write_text(text, encoding="utf-8")


def alias_of(kind):
    """What an atom of the type is called: as the type without its `s`."""
    return kind[:-1] if re.fullmatch(r"\w+[^s]s", kind) else f"{kind}Atom"


def place_of(given):
    """The module's file below src, without .rt."""
    place = given.module or re.sub(r"(?<=[a-z0-9])(?=[A-Z])", "_", given.type).lower()
    if not re.fullmatch(r"[a-z]\w*(/[a-z]\w*)*", place, re.ASCII):
        raise Refused(f"{place} is no module's file")
    for name in place.split("/"):
        if name in KEYWORDS:
            raise Refused(f"a module of {place} would be called {name}, which is a keyword: --module calls it otherwise")
    return place


def run(given, data):
    """Writes the module of the names, or of the table text, that the data has."""
    crate, place = Path(given.crate), place_of(given)
    if not (crate / "src").is_dir():
        raise Refused(f"{crate} is no crate: it has no src")
    form = Packed if given.packed else Listed
    module = form(given.type, given.alias or alias_of(given.type), crate.resolve().name, place)
    names = [] if given.tables else names_of(data)
    module.refuse_taken(names)
    if given.tables:
        tables = read(text_of(data))
        module.refuse_many([Name(text, "") for text in tables.atoms], tables.atoms)
    else:
        texts = listed_of(names, given.short)
        module.refuse_many(names, texts)
        tables = read(tables_of(texts, given.bound, Path(given.atoms)))
    write(crate / "src" / f"{place}.rt", module.source(tables, names), (Listed.head, Packed.head))
    write_answers(crate / "proofs" / place / f"{given.type}StaticAtomSet" / "get" / "Answers.antt", module.answers(tables))
    print(f"{crate}/src/{place}.rt: {len(names) or len(tables.atoms)} names under the key {tables.key}, {len(tables.atoms)} of them in the tables")
    inline = sum(name.is_inline() for name in names)
    if inline and not given.short:
        print(f"{inline} of up to {MOST_INLINE} bytes are left out of the tables, since each is inline: they have their words all the same")


def write_answers(file, text):
    """Writes the proof that the type needs, and takes away one that it doesn't."""
    if text:
        write(file, text)
    elif file.exists():
        file.unlink()


def main():
    parser = argparse.ArgumentParser(description=__doc__, formatter_class=argparse.RawDescriptionHelpFormatter)
    parser.add_argument("type", metavar="TYPE", help="what the type is called, as Names")
    parser.add_argument("crate", metavar="CRATE", help="the folder of the crate that gets the module")
    parser.add_argument("--packed", action="store_true", help="all texts lie in one, for more than some hundreds of names")
    parser.add_argument("--tables", action="store_true", help="the standard input is a table text, and the module has the type alone")
    parser.add_argument("--module", help="its file below src, without .rt and keywords: the type's name in small letters if left out")
    parser.add_argument("--alias", help="what an atom of the type is called: as the type without its s if left out")
    parser.add_argument("--bound", type=int, default=1024, help="of the displacements (1024)")
    parser.add_argument("--short", action="store_true", help="names of up to 7 bytes get a place in the tables too")
    parser.add_argument("--atoms", default=PROGRAM, help="the program that makes the tables")
    given = parser.parse_args()
    for name in filter(None, (given.type, given.alias)):
        if not re.fullmatch(r"[A-Z][A-Za-z0-9]*", name):
            parser.error(f"{name} is no type's name")
    try:
        run(given, sys.stdin.buffer.read())
    except (Refused, OSError) as why:
        sys.exit(f"static_type.py: {why}")


if __name__ == "__main__":
    main()
