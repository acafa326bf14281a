#!/usr/bin/env python3
"""The tests of tools/static_type.py: the types that lie in this repository are what it writes, what it writes is in `rt fmt`'s layout, lists
that give no type are refused, and keywords as modules' names, and whole calls of it write what they have to, or nothing.

usage: gate/users/static_type_test.py [WORD..]     with words: only the rows of whose kind one is a part (ROWS has the kinds)
"""

import contextlib
import subprocess
import sys
import tempfile
from argparse import Namespace
from pathlib import Path

sys.path.append(str(Path(__file__).resolve().parent.parent))
import find_modules  # has Python find the next ones
from static_forms import MANY, MOST_PACKED, MOST_PRODUCT, Listed, Name, Packed, Refused, Tables, read
from static_type import TOP, alias_of, listed_of, names_of, place_of

CRATES = TOP / "crates"

# The table text of a type whose crate has none.
ELEMENTS = """key 1
disp 7 0
disp 43 1
atom 7e2f39ca8e6c17ed noscript
atom 42ca62e856db04ad template
atom 8c819ea2ba8a8bc5 blockquote
atom bf25ab629a4d8006 datalist
atom 708dbf4d19526e84 figcaption
atom 4adca3a8d7da27f8 fieldset
atom 42aab8034f99b555 progress
atom ed58bbed132153fc optgroup
atom fc81a3dd79fb4e5e colgroup
"""

# The types of this repository: the module, the file of its names (none: the type alone), and that of its table text, or the text.
MODULES = [
    (Listed("Dishes", "Dish", "example_sets", "dishes"), None, "dishes.tables"),
    (Listed("Elements", "Element", "interning_speed", "elements"), None, ELEMENTS),
    (Listed("Names", "Name", "test_across", "names/static_names"), "names", "names.tables"),
    (Packed("Dishes", "Dish", "test_packed", "dishes"), None, "dishes.tables"),
    (Packed("Elements", "Element", "test_packed", "elements"), None, "elements.tables"),
    (Packed("PageNames", "PageName", "example_page_names", "names"), "names", "names.tables"),
]

# Lists, and a part of what is said of each.
REFUSED = [
    (b"", "no names"),
    (b"\n", "line 1 is empty"),
    (b"blockquote\n\nfigcaption\n", "line 2 is empty"),
    (b"blockquote\r\n", "carriage return"),
    (b"\xff\n", "byte 0 isn't UTF-8"),
    (b"blockquote\nfigcaption\nblockquote\n", "line 3: 'blockquote' stands in line 1 too"),
    (b"max-width\nmaxWidth\n", "line 2: 'maxWidth' and 'max-width' are both MAX_WIDTH"),
    (b"blockquote\nquotation\tBLOCKQUOTE\n", "are both BLOCKQUOTE"),
    ("crème brûlée\n".encode(), "makes no constant's name"),
    (b"3d-transform\n", "makes no constant's name"),
    (b"---\n", "makes no constant's name"),
    (b"blockquote\t\n", "is no constant's name"),
    (b"blockquote\tquote\n", "'quote' is no constant's name"),
    (b"\tQUOTE\n", "no name before its tab"),
]

# Lines, and the names that they are.
NAMES = [
    (b"blockquote", Name("blockquote", "BLOCKQUOTE")),
    (b"background-color\n", Name("background-color", "BACKGROUND_COLOR")),
    (b"getElementById\n", Name("getElementById", "GET_ELEMENT_BY_ID")),
    (b"http2 push\n", Name("http2 push", "HTTP2_PUSH")),
    (b"utf8Decoder\n", Name("utf8Decoder", "UTF8_DECODER")),
    ("味噌汁\tMISO_SOUP\n".encode(), Name("味噌汁", "MISO_SOUP")),
]

# Two names with the table text that the program prints of them, in which the second stands first.
PAIR = b"minestrone\nsoup \"du jour\" \\ bread\tSOUP\n"
TABLES = "key 2\ndisp 0 1\natom a88f6f8b8dd470e4 soup \"du jour\" \\ bread\natom 89ec7caec7b87cfe minestrone\n"

# Two names of which the second is inline, with the table texts of the first alone and of both.
SHORT = b"gazpacho\nborscht\n"
FIRST = "key 0\ndisp 0 0\natom 7c545eca6c1fbede gazpacho\n"
BOTH = "key 0\ndisp 0 0\natom 15bc07bc217f8d90 borscht\natom 7c545eca6c1fbede gazpacho\n"

# What a stand-in for the program prints of texts under the keys that place them, and the stand-in.
PRINTED = {
    "".join(f"{name.text}\n" for name in names_of(PAIR)).encode(): {"2": TABLES, "5": TABLES.replace("key 2", "key 5")},
    b"gazpacho\n": {"0": FIRST},
    SHORT: {"0": BOTH},
}
PROGRAM = f"""#!{sys.executable}
import sys
printed = {PRINTED!r}.get(sys.stdin.buffer.read())
if printed is None:
    sys.exit("atoms: other texts")
if sys.argv[1::2] != ["generate", "1024"] or sys.argv[2] not in printed:
    sys.exit("atoms: no tables within the bound")
sys.stdout.buffer.write(printed[sys.argv[2]].encode())
"""

# Whole calls: the arguments, the input, what stands in the module and what doesn't.
BORSCHT = "    pub const BORSCHT: u64 = 0x7468_6373_726f_6271;"
WRITTEN = [
    ([], PAIR, ["key: 2,", "pub type Soup<'s> = Atom<'s, Soups>;", "word_of::<Soups>(text)"], ["key: 5,"]),
    (["--packed"], PAIR, ["key: 2,", "pub type Soup<'s> = Atom<'s, Soups>;"], ["key: 5,"]),
    (["--alias", "Bowl"], PAIR, ["pub type Bowl<'s> = Atom<'s, Soups>;", "word_of::<Soups>(text)"], ["Soup<'s>", "Soup::"]),
    (["--alias", "Bowl", "--packed"], PAIR, ["pub type Bowl<'s> = Atom<'s, Soups>;"], ["Soup<'s>"]),
    ([], SHORT, ['atoms: &["gazpacho"],', BORSCHT, "GAZPACHO: u64 = 0x0000_0000_0000_0002;"], ['"borscht"]']),
    (["--short"], SHORT, ['atoms: &["borscht", "gazpacho"],', BORSCHT, "GAZPACHO: u64 = 0x0000_0001_0000_0002;"], []),
    (["--short", "--packed"], SHORT, ['SOUPS_TEXT: &str = "borschtgazpacho";', "SOUPS_SPANS: [(u32, u32); 2] = ", BORSCHT], []),
]

# A table text of more texts than can be listed.
LONG_LIST = b"key 0\ndisp 0 0\n" + b"".join(b"atom %016x minestrone%03d\n" % (number, number) for number in range(700))

# Whole calls that are refused: the arguments behind the program and the crate, the input, and a part of what is said.
CALLS = [
    (["--packed", "Soups"], b"", "no names"),
    (["--packed", "Soups"], b"max-width\nmaxWidth\n", "are both MAX_WIDTH"),
    (["--packed", "Soups"], b"soup\n", "inline under any type"),
    (["--packed", "Soups"], b"minestrone\n", "other texts"),
    (["--packed", "Soups", "--bound", "7"], PAIR, "no key below 100 places these names"),
    (["--packed", "Soups", "--module", "lib"], PAIR, "not written by this script"),
    (["--packed", "Soups", "--module", "../lib"], PAIR, "is no module's file"),
    (["--tables", "Soups"], b"key 0\n", "no table text"),
    (["--tables", "Soups"], b"key 0\ndisp 0 0\nsoup\n", "line 3 is none of a table text"),
    (["--tables", "Soups"], LONG_LIST, "700 names with 9100 bytes are too many to be listed"),
    (["soups"], PAIR, "no type's name"),
    (["--alias", "soup", "Soups"], PAIR, "no type's name"),
    (["Atoms"], PAIR, "would be called Atom, as something else in the module is: --alias"),
    (["--packed", "Atoms"], PAIR, "would be called Atom, as something else in the module is: --alias"),
    (["--packed", "Packed"], PAIR, "would define Packed"),
    (["Match"], PAIR, "a module of match would be called match, which is a keyword: --module calls it otherwise"),
    (["--packed", "--module", "words/type", "Soups"], PAIR, "would be called type, which is a keyword"),
    (["--tables", "--module", "try", "Soups"], TABLES.encode(), "would be called try, which is a keyword"),
]

# Types, the modules that are given for them (none: none is), and the keyword that refuses them, or the module's file.
PLACES = [
    ("Match", None, "match", None),
    ("Soups", "fn", "fn", None),
    ("Soups", "async", "async", None),
    ("Soups", "self", "self", None),
    ("Soups", "crate", "crate", None),
    ("Soups", "true", "true", None),
    ("Soups", "abstract", "abstract", None),
    ("Soups", "gen", "gen", None),
    ("Soups", "ghost", "ghost", None),
    ("Soups", "loop/soups", "loop", None),
    ("Soups", "soups/words/yield", "yield", None),
    ("Match", "matched", None, "matched"),
    ("Matches", None, None, "matches"),
    ("Types", None, None, "types"),
    ("MatchType", None, None, "match_type"),
    ("Union", None, None, "union"),
    ("Soups", "macro_rules", None, "macro_rules"),
    ("Soups", "type_/fn2", None, "type_/fn2"),
]

# Forms, types, their atoms, and the part of what is said of these, with names and without.
TAKEN = [
    (Listed, "Soups", "Soup", "", ""),
    (Packed, "Soups", "Soup", "", ""),
    (Listed, "Atoms", "Atom", "--alias", ""),
    (Packed, "Atoms", "Atom", "--alias", ""),
    (Listed, "Atoms", "Bowl", "", ""),
    (Listed, "Atom", "Bowl", "would define Atom,", ""),
    (Listed, "Options", "Option", "--alias", ""),
    (Listed, "Soups", "Soups", "--alias", ""),
    (Packed, "Soups", "SoupsTables", "--alias", ""),
    (Listed, "Soups", "SoupsTables", "", ""),
    (Listed, "Soups", "PhfStrSet", "--alias", ""),
    (Packed, "Soups", "PhfStrSet", "", ""),
    (Listed, "StaticAtomSet", "Bowl", "would define StaticAtomSet,", "would define StaticAtomSet,"),
    (Packed, "Packed", "Bowl", "would define Packed,", "would define Packed,"),
    (Listed, "Packed", "Bowl", "", ""),
    (Packed, "Static", "Bowl", "would define StaticTables,", ""),
    (Listed, "None", "Bowl", "would define None,", "would define None,"),
]


def is_written(module, names, tables):
    """Whether the module that lies in its crate is what is written of the names and the tables."""
    data = CRATES / module.crate / "data"
    made = names_of((data / names).read_bytes()) if names else ()
    text = tables if "\n" in tables else (data / tables).read_text(encoding="utf-8")
    written = module.source(read(text), made)
    return written == (CRATES / module.crate / "src" / f"{module.place}.rt").read_text(encoding="utf-8")


def refusal_of(call, *args):
    """What is said of it, or nothing where it isn't refused."""
    try:
        call(*args)
    except Refused as why:
        return str(why)
    return ""


def many(count, length):
    """So many names of this length."""
    return [Name(f"{number:0{length}}", f"N{number}") for number in range(count)]


def wrong_names():
    """What is wrong in what lists are, and None for what isn't, one after another."""
    for data, wanted in REFUSED:
        said = refusal_of(names_of, data)
        yield None if wanted in said else f"of {data} it says {said!r}, and not {wanted!r}"
    for data, name in NAMES:
        yield None if names_of(data) == [name] else f"{data} is {names_of(data)}"
    short = [Name("figure", "FIGURE")]
    yield None if "inline under any type" in refusal_of(listed_of, short, False) else "short names alone are taken"
    yield None if not refusal_of(listed_of, short, True) and listed_of(short, True) == ["figure"] else "a short name that is asked for is left out"
    # The tag of six bytes, and the bytes behind it: 1 + 16 * 6 is 0x61.
    yield None if short[0].inline_word() == 0x65_7275_6769_6661 else f"the word of figure is {short[0].inline_word():#x}"
    yield None if [alias_of(it) for it in ("Names", "Glass", "Sheep")] == ["Name", "GlassAtom", "SheepAtom"] else "an alias is another"


def wrong_taken():
    """What is wrong in what a type and its atoms may be called."""
    for form, kind, alias, *wanted in TAKEN:
        for names, said in zip((names_of(PAIR), []), wanted):
            found = refusal_of(form(kind, alias, "mine", "soups").refuse_taken, names)
            is_right = said in found if said else not found
            of = f"a {form.__name__} type {kind} with atoms {alias} and {len(names)} names"
            yield None if is_right else f"of {of} it says {found!r}, and not {said!r}"


def wrong_places():
    """What is wrong in what modules may be called."""
    for kind, module, keyword, place in PLACES:
        given = Namespace(type=kind, module=module)
        said = refusal_of(place_of, given)
        is_right = f"would be called {keyword}, which is a keyword" in said if keyword else not said and place_of(given) == place
        yield None if is_right else f"of a module {module} of a type {kind} it says {said!r}"


def wrong_limits():
    """What is wrong in how many names are taken."""
    for form, limit, taken, refused in [
        (Listed, MOST_PRODUCT, many(550, 13), many(700, 13)), (Packed, MOST_PACKED, many(10_000, 13), many(10_000, 24)),
    ]:
        module = form("Names", "Name", "mine", "names")
        for names, wanted in [(taken, ""), (refused, f"{limit:,}")]:
            said = refusal_of(module.refuse_many, names, [name.text for name in names])
            is_right = wanted in said if wanted else not said
            yield None if is_right else f"of {len(names)} {form.__name__} names it says {said!r}"
    module = Listed("Names", "Name", "mine", "words/names")
    few, enough = (module.answers(Tables("0", (), ("a",) * count, ())) for count in (MANY - 1, MANY))
    is_cited = few is None and "use Rattle.mine.proofs.words.names.NamesStaticAtomSet.get.Goals" in (enough or "")
    yield None if is_cited else f"the proof of many listed names is {enough!r}, and of fewer {few!r}"


@contextlib.contextmanager
def small_crate():
    """A crate in a folder of its own, and a stand-in for the program there."""
    with tempfile.TemporaryDirectory() as top:
        crate, program = Path(top) / "crates" / "mine", Path(top) / "atoms"
        (crate / "src").mkdir(parents=True)
        (crate / "src" / "lib.rt").write_text("//! Soups.\n#![tactic(auto)]\n\npub mod soups;\n", encoding="utf-8")
        (Path(top) / "crates.txt").write_text("mine: text_forms string_cache\n", encoding="utf-8")
        program.write_text(PROGRAM, encoding="utf-8")
        program.chmod(0o755)
        yield crate, program


def call(crate, program, args, data):
    """A whole call of the script."""
    words = [sys.executable, TOP / "tools" / "static_type.py", "--atoms", program, *args, crate]
    return subprocess.run(words, input=data, capture_output=True, check=False)


def wrong_call(crate, program, args, data, wanted):
    """What is wrong in a call that has to be refused: it says why, has another status than 0, and writes nothing."""
    before = {file: file.read_bytes() for file in crate.rglob("*.*") if file.is_file()}
    ran = call(crate, program, args, data)
    after = {file: file.read_bytes() for file in crate.rglob("*.*") if file.is_file()}
    if ran.returncode == 0 or wanted.encode() not in ran.stderr or b"Traceback" in ran.stderr:
        return f"{args} of {data} has the status {ran.returncode} and says {ran.stderr.decode()!r}"
    return None if before == after else f"{args} of {data} writes though it is refused"


def wrong_module(crate, program, form, args, data):
    """What is wrong in a call that writes a module: it is what the form has of these tables, and `rt fmt` changes nothing in it."""
    names = [] if "--tables" in args else names_of(data)
    wanted = form("Soups", "Soup", "mine", "soups").source(read(TABLES), names)
    ran = call(crate, program, [*args, "Soups"], data)
    if ran.returncode != 0:
        return f"{args} has the status {ran.returncode} and says {ran.stderr.decode()!r}"
    file = crate / "src" / "soups.rt"
    if file.read_text(encoding="utf-8") != wanted:
        return f"{args} writes another module"
    laid = subprocess.run(["rt", "fmt"], cwd=crate, capture_output=True, check=False)
    is_laid = laid.returncode == 0 and file.read_text(encoding="utf-8") == wanted
    return None if is_laid else f"rt fmt changes what {args} writes: {laid.stdout.decode()}{laid.stderr.decode()}"


def wrong_text(crate, program, args, data, has, lacks):
    """What is wrong in a call whose module has to have some texts, as they are written here, and not to have others."""
    ran = call(crate, program, [*args, "Soups"], data)
    text = (crate / "src" / "soups.rt").read_text(encoding="utf-8") if ran.returncode == 0 else ""
    wrong = [it for it in has if it not in text] + [it for it in lacks if it in text]
    return f"{args} of {data} has the status {ran.returncode}, and {wrong} wrong: {ran.stderr.decode()}" if wrong or not text else None


def wrong_refusals():
    """What is wrong in whole calls that have to be refused, over a stand-in for the program."""
    with small_crate() as (crate, program):
        for args, data, wanted in CALLS:
            yield wrong_call(crate, program, args, data, wanted)
        yield wrong_call(crate, program.with_name("none"), ["Soups"], PAIR, "there is no program")
        yield wrong_call(crate / "none", program, ["Soups"], PAIR, "is no crate")


def wrong_modules():
    """What is wrong in the layout of what whole calls write."""
    with small_crate() as (crate, program):
        for form, args, data in [
            (Listed, [], PAIR), (Packed, ["--packed"], PAIR),
            (Listed, ["--tables"], TABLES.encode()), (Packed, ["--packed", "--tables"], TABLES.encode()),
        ]:
            yield wrong_module(crate, program, form, args, data)


def wrong_texts():
    """What is wrong in what stands in modules that whole calls write."""
    with small_crate() as (crate, program):
        for row in WRITTEN:
            yield wrong_text(crate, program, *row)


def wrong_proofs():
    """What is wrong in the proof beside a module: many listed names need one, and what doesn't need it has none, also if one was there."""
    with small_crate() as (crate, program):
        proof = crate / "proofs" / "soups" / "SoupsStaticAtomSet" / "get" / "Answers.antt"
        lines = "".join(f"atom {number:016x} minestrone {number}\n" for number in range(MANY))
        for args, atoms, is_there in [([], lines, True), ([], FIRST, False), ([], lines, True), (["--packed"], lines, False)]:
            tables = atoms if atoms == FIRST else f"key 0\ndisp 0 0\n{atoms}"
            ran = call(crate, program, [*args, "--tables", "Soups"], tables.encode())
            is_right, of = ran.returncode == 0 and proof.is_file() == is_there, f"{args} of {tables.count('atom ')} texts"
            yield None if is_right else f"{of} says {ran.stderr.decode()!r}, and a proof is there: {proof.is_file()}"


def wrong_files():
    """What is wrong in the types that lie in this repository."""
    for module, names, tables in MODULES:
        yield None if is_written(module, names, tables) else f"{module.crate}/src/{module.place}.rt isn't what the script writes"


ROWS = {
    "files": wrong_files,
    "names": wrong_names,
    "taken": wrong_taken,
    "places": wrong_places,
    "limits": wrong_limits,
    "refusals": wrong_refusals,
    "modules": wrong_modules,
    "texts": wrong_texts,
    "proofs": wrong_proofs,
}


def main():
    """Says how many of these are right, and what is wrong."""
    words = sys.argv[1:]
    found = [it for kind, rows in ROWS.items() if not words or any(word in kind for word in words) for it in rows()]
    wrong = [it for it in found if it]
    for it in wrong:
        print(f"WRONG: {it}")
    print(f"{len(found) - len(wrong)} passed, {len(wrong)} failed")
    return 1 if wrong or not found else 0


if __name__ == "__main__":
    sys.exit(main())
