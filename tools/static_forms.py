"""The text of a static type's module, for tools/static_type.py: with its texts listed one by one, or packed into one, in the layout of `rt fmt`."""

import re
from dataclasses import dataclass

MOST_INLINE = 7  # bytes
MOST_PRODUCT = 4_000_000  # names times bytes that the checker takes in one static
MOST_PAIRS = 100_000  # and in a static of the test, beside the words
MANY = 250  # names from which on the checker needs to be told that `get` gives listed tables
WRITER = ", which `tools/static_type.py` wrote.\n"  # the end of a module's first line


class Refused(Exception):
    """There is no type over such a list."""


# ---- what a module has


@dataclass(frozen=True)
class Name:
    """A name, and what its constant is called."""

    text: str
    constant: str

    def is_inline(self):
        return size(self.text) <= MOST_INLINE

    def inline_word(self):
        """The word of a text of up to 7 bytes: a tag with its length, and its bytes, the lowest first."""
        data = self.text.encode("utf-8")
        return int.from_bytes(bytes([1 + 16 * len(data)]) + data, "little")


@dataclass(frozen=True)
class Tables:
    """Static tables as the program prints them: numbers are words."""

    key: str
    disps: tuple
    atoms: tuple
    hashes: tuple

    def spans(self):
        """Where each text begins and ends, as they lie one after another."""
        at, spans = 0, []
        for text in self.atoms:
            end = at + size(text)
            spans.append(f"({at}, {end})")
            at = end
        return spans


def size(text):
    """How many bytes the text has."""
    return len(text.encode("utf-8"))


def product(texts):
    """The number of texts times that of their bytes, which the checker's time goes by where a static lists them."""
    return len(texts) * sum(map(size, texts))


def read(text):
    """The tables that a table text has."""
    key, disps, atoms = None, [], []
    for number, line in enumerate(text.removesuffix("\n").split("\n"), 1):
        word, _, rest = line.partition(" ")
        first, _, second = rest.partition(" ")
        if word == "key" and number == 1:
            key = rest
        elif word == "disp":
            disps.append(f"({first}, {second})")
        elif word == "atom":
            atoms.append((second, grouped(first)))
        else:
            raise Refused(f"line {number} is none of a table text: ask `atoms check`")
    if key is None or not disps or not atoms:
        raise Refused("the input is no table text: ask `atoms check`")
    return Tables(key, tuple(disps), tuple(it for it, _ in atoms), tuple(it for _, it in atoms))


# ---- the layout of rt fmt

MOST_ALONE = 60  # characters of the items of an array, or of a tuple, in one line
MOST_SINGLE = 85  # characters of an only item there
MOST_SHORT = 10  # bytes of an item that shares its line with others
MOST_WIDE = 99  # characters of a line of items
MOST_LINE = 100
ESCAPES = {"\\": "\\\\", '"': '\\"', "\0": "\\0", "\t": "\\t", "\r": "\\r", "\n": "\\n"}


def literal(text):
    """The text as a string literal, with the characters that can't be seen written as their numbers."""
    return '"' + "".join(ESCAPES.get(it) or (it if it.isprintable() else f"\\u{{{ord(it):x}}}") for it in text) + '"'


def bytes_of(text):
    """The text as clauses have it: each character stands for a byte."""
    return literal(text.encode("utf-8").decode("latin-1"))


def grouped(digits):
    return "0x" + "_".join(re.findall("....", digits))


def filled(items, indent):
    """Lines of items, each as many as a line holds."""
    lines = [""]
    for item in items:
        more = f"{lines[-1]} {item}," if lines[-1] else f"{indent}{item},"
        if len(more) <= MOST_WIDE:
            lines[-1] = more
        else:
            lines.append(f"{indent}{item},")
    return lines


def rows(items):
    """The items of a static that `rt fmt` leaves as it stands."""
    return "\n".join(filled(items, "    "))


def array(items):
    """A borrowed array in a field."""
    alone = ", ".join(items)
    if len(alone) <= (MOST_SINGLE if len(items) == 1 else MOST_ALONE):
        return f"&[{alone}]"
    is_short = all(size(it) <= MOST_SHORT and it[0] != "(" for it in items)
    lines = filled(items, "        ") if is_short else [f"        {it}," for it in items]
    return "\n".join(["&[", *lines, "    ]"])


def upright(parts, indent):
    """A tuple in a line for each part."""
    return "\n".join(["(", *(f"{indent}    {part}," for part in parts), f"{indent})"])


def array_of_tuples(start, tuples):
    """A static array of tuples, behind the start of its line."""
    flat = [", ".join(parts) for parts in tuples]
    alone = ", ".join(f"({it})" for it in flat)
    if len(alone) <= MOST_ALONE + (2 if len(flat) == 1 else 0) and len(start) + len(alone) + 3 <= MOST_LINE:
        return f"{start}[{alone}];"
    if len(tuples) == 1:
        return f"{start}[{upright(tuples[0], '')}];"
    lines = [f"({it})" if len(it) <= MOST_ALONE else upright(parts, "    ") for it, parts in zip(flat, tuples)]
    return "\n".join([f"{start}[", *(f"    {line}," for line in lines), "];"])


# ---- words and tests, which both forms have

WORDS = '''/// An atom of it.
pub type {alias}<'s> = Atom<'s, {type}>;

/// The word of each name, which an atom's `unsafe_data` can be matched with.
impl {holder} {{
{words}}}

'''

LIST_IMPORTS = """#[cfg(test)]
use string_cache::static_sets::{{StaticTables, are_perfect}};
#[cfg(test)]
use string_cache::word::pack_inline_word;
use string_cache::{{{used}}};"""

LIST_TEST = '''
/// The names, one a line.
#[cfg(test)]
#[rattlefmt::skip]
static {constant}_LIST: &str = {list};

/// The word of each of them.
#[cfg(test)]
#[rattlefmt::skip]
static {constant}_WORDS: [u64; {count}] = [
{rows}
];

/// The word of a static text.
#[cfg(test)]
fn static_word<S: StaticTables>(text: &str) -> Option<u64> {{
    Some(Atom::<S>::try_static(text)?.unsafe_data())
}}

/// The word of a text that is inline or static.
#[cfg(test)]
fn word_of<S: StaticTables>(text: &str) -> Option<u64> {{
    match pack_inline_word(text) {{
        Some(word) => Some(word),
        None => static_word::<S>(text),
    }}
}}

/// Each text is at its place, and each name is found and has its word.
#[test]
fn names_are_found(rt: HostRuntime) {{
    assert!(rt; are_perfect::<{type}>());
    for (text, word) in {constant}_LIST.split('\\n').zip(&{constant}_WORDS) {{
        assert!(rt; word_of::<{type}>(text) == Some(*word), "of {{text}}");
    }}
}}
'''


# What a module uses, besides what it imports.
USED = ("Eq", "HostRuntime", "None", "Option", "Ord", "PartialEq", "PartialOrd", "Self", "Some")


@dataclass(frozen=True)
class Module:
    """What the module is called, and what its type and the type's atoms are."""

    type: str
    alias: str
    crate: str = ""
    place: str = ""  # its file below src, without .rt

    def constant(self):
        """What the statics' names begin with."""
        return re.sub(r"(?<=[a-z0-9])(?=[A-Z])", "_", self.type).upper()

    def refuse_taken(self, names):
        """Refuses to call the type, or its atoms where the module has names for these, as what the module uses or defines is called."""
        used = {*USED, *re.findall(r"\b[A-Z]\w*", self.imports(names))}
        for taken in self.types():
            if taken in used:
                raise Refused(f"the module of a type {self.type} would define {taken}, and it uses another {taken}: call the type otherwise")
        if names and self.alias in {*used, *self.types()}:
            raise Refused(f"an atom of the type would be called {self.alias}, as something else in the module is: --alias calls it otherwise")

    def types(self):
        """What the types are called that the module defines, without the alias of the atoms."""
        return [self.type]

    def words(self, names, tables, holder):
        """The alias, and the constants of the names' words."""
        places, lines = {text: place for place, text in enumerate(tables.atoms)}, []
        for name in names:
            word = name.inline_word() if name.is_inline() else places[name.text] << 32 | 2
            start, value = f"    pub const {name.constant}: u64 =", f"{grouped(f'{word:016x}')};"
            lines.append(f"    /// Of {literal(name.text)}.")
            lines += [f"{start} {value}"] if len(start) + 1 + len(value) <= MOST_LINE else [start, f"        {value}"]
        return WORDS.format(alias=self.alias, type=self.type, holder=holder, words="".join(f"{line}\n" for line in lines))

    def list_test(self, names, holder):
        """The test over one text of all names, and what it needs."""
        words = [f"{holder}::{name.constant}" for name in names]
        return LIST_TEST.format(
            type=self.type, constant=self.constant(), count=len(names),
            list=literal("\n".join(name.text for name in names)), rows=rows(words),
        )


# ---- listed texts

LISTED_HEAD = "//! A static type over generated tables"

LISTED = LISTED_HEAD + WRITER + '''
ghost use Rattle.std.specs.Prelude.{{[], ◌∷◌, codes}};

{imports}

/// The tables, as they were generated.
pub static {constant}_TABLES: PhfStrSet = PhfStrSet {{
    key: {key},
    disps: {disps},
    atoms: {atoms},
    hashes: {hashes},
}};

/// The static type of these texts.
#[derive(PartialEq, Eq, PartialOrd, Ord)]
pub struct {type};

{words}impl StaticAtomSet for {type} {{
    ghost use Rattle.std.proofs.Common.{{lit<, refl}};
    ghost use Rattle.std.specs.Prelude.{{[], ◌∷◌, codes}};

    ghost tables = {{ record {{ key = {key}; disps = {ghost_disps}; atoms = {ghost_atoms}; hashes = {ghost_hashes} }} }};

    ghost usable = {{ record {{ displaced = lit< tt; listed = lit< tt; few_disps = lit< tt; few_atoms = lit< tt; hashed = refl }} }};

    fn get() -> &'static PhfStrSet {{
        &{constant}_TABLES
    }}
}}
'''

LISTED_IMPORTS = "use string_cache::{PhfStrSet, StaticAtomSet};"
PAIRS_IMPORTS = """#[cfg(test)]
use string_cache::word::pack_inline_word;
use string_cache::{Atom, PhfStrSet, StaticAtomSet};"""

PAIRS_TEST = '''
#[cfg(test)]
{pairs}

/// The word of a static text.
#[cfg(test)]
fn static_word<S: StaticAtomSet>(text: &str) -> Option<u64> {{
    Some(Atom::<S>::try_static(text)?.unsafe_data())
}}

/// The word of a text that is inline or static.
#[cfg(test)]
fn word_of<S: StaticAtomSet>(text: &str) -> Option<u64> {{
    match pack_inline_word(text) {{
        Some(word) => Some(word),
        None => static_word::<S>(text),
    }}
}}

/// Whether each text is at its place.
#[cfg(test)]
fn are_perfect<S: StaticAtomSet>() -> bool {{
    S::get().check()
}}

/// Each text is at its place, and each name is found and has its word.
#[test]
fn names_are_found(rt: HostRuntime) {{
    assert!(rt; are_perfect::<{type}>());
    for (text, word) in &{constant}_WORDS {{
        assert!(rt; word_of::<{type}>(text) == Some(*word), "of {{text}}");
    }}
}}
'''

ANSWERS = '''use Rattle.std.proofs.Common.{{refl}}
use Rattle.{crate}.proofs.{path}.{type}StaticAtomSet.get.Goals as goal

pub returns : goal.returns
returns c = refl
'''


class Listed(Module):
    """A module whose tables list their texts, as the original's do."""

    head = LISTED_HEAD

    def refuse_many(self, _names, texts):
        """Refuses more texts in the tables than the checker takes."""
        if product(texts) > MOST_PRODUCT:
            raise Refused(
                f"{len(texts)} names with {product(texts) // len(texts)} bytes are too many to be listed: the checker takes names times bytes "
                f"up to some {MOST_PRODUCT:,}, as 550 names of 13 bytes. With --packed it takes thousands"
            )

    def source(self, tables, names=()):
        """The text of the module. Without names it has the tables and the type, and no more."""
        def listed(items):
            return " ∷ ".join([*items, "[]"])

        atoms = tables.atoms
        imports, test = self.test(names)
        return LISTED.format(
            imports=imports, words=self.words(names, tables, self.type) if names else "",
            type=self.type, constant=self.constant(), key=tables.key,
            disps=array(tables.disps), atoms=array([literal(it) for it in atoms]), hashes=array(tables.hashes),
            ghost_disps=listed(tables.disps), ghost_atoms=listed([f"codes {bytes_of(it)}" for it in atoms]), ghost_hashes=listed(tables.hashes),
        ) + test

    def imports(self, names):
        return self.test(names)[0]

    def test(self, names):
        """What the module uses, and its test: over pairs of a text and a word, as long as the checker takes these."""
        if not names:
            return LISTED_IMPORTS, ""
        if product([name.text for name in names]) > MOST_PAIRS:
            return LIST_IMPORTS.format(used="Atom, PhfStrSet, StaticAtomSet"), self.list_test(names, self.type)
        start = f"static {self.constant()}_WORDS: [(&str, u64); {len(names)}] = "
        pairs = array_of_tuples(start, [(literal(name.text), f"{self.type}::{name.constant}") for name in names])
        return PAIRS_IMPORTS, PAIRS_TEST.format(pairs=pairs, constant=self.constant(), type=self.type)

    def answers(self, tables):
        """The proof that `get` gives the tables, where there are too many for the checker's own search."""
        path = self.place.replace("/", ".")
        return ANSWERS.format(crate=self.crate, path=path, type=self.type) if len(tables.atoms) >= MANY else None


# ---- packed texts

PACKED_HEAD = "//! A packed static type over generated tables"
MOST_PACKED = 140_000  # bytes of all names with their line feeds: of one literal

PACKED = PACKED_HEAD + WRITER + '''
{imports}

/// The pairs of displacements.
#[rattlefmt::skip]
pub static {constant}_DISPS: [(u32, u32); {pairs}] = [
{disps}
];

/// The texts, one after another.
#[rattlefmt::skip]
pub static {constant}_TEXT: &str = {text};

/// Where each text begins and ends, in bytes.
#[rattlefmt::skip]
pub static {constant}_SPANS: [(u32, u32); {count}] = [
{spans}
];

/// The number that an atom of each text hashes as.
#[rattlefmt::skip]
pub static {constant}_HASHES: [u64; {count}] = [
{hashes}
];

/// The static type of these texts.
pub type {type} = Packed<{type}Tables>;

/// The tables of `{type}`.
#[derive(PartialEq, Eq, PartialOrd, Ord)]
pub struct {type}Tables;

{words}impl PackedAtomSet for {type}Tables {{
    ghost use Rattle.std.proofs.Common.{{lit<, refl}};
    ghost use Rattle.text_forms.specs.Packed.{{packed}};
    ghost use Rattle.{crate}.specs.declared.{path}.TheConstants.{{{constant}_DISPS, {constant}_HASHES, {constant}_SPANS, {constant}_TEXT}};

    ghost text = {{ {constant}_TEXT.now }};

    ghost spans = {{ {constant}_SPANS }};

    ghost tables = {{ packed {key} {constant}_DISPS {constant}_TEXT.now {constant}_SPANS {constant}_HASHES }};

    ghost cut = {{ refl }};

    ghost usable = {{ record {{ displaced = lit< tt; listed = lit< tt; few_disps = lit< tt; few_atoms = lit< tt; hashed = refl }} }};

    fn get() -> PackedStrSet {{
        PackedStrSet {{
            key: {key},
            disps: &{constant}_DISPS,
            text: {constant}_TEXT,
            spans: &{constant}_SPANS,
            hashes: &{constant}_HASHES,
        }}
    }}
}}
'''

PACKED_IMPORTS = "use string_cache::{Packed, PackedAtomSet, PackedStrSet};"


class Packed(Module):
    """A module whose tables have one text, in which all texts lie one after another."""

    head = PACKED_HEAD

    def refuse_many(self, names, _texts):
        """Refuses more names than the checker takes."""
        length = sum(size(name.text) + 1 for name in names)
        if length > MOST_PACKED:
            raise Refused(
                f"{len(names)} names with their line feeds have {length:,} bytes, which are too many for one type: the checker takes literals of up to "
                f"some {MOST_PACKED:,}, as 10,000 names of 13 bytes. Make several types of them, or leave some out"
            )

    def types(self):
        return [self.type, f"{self.type}Tables"]

    def imports(self, names):
        return LIST_IMPORTS.format(used="Atom, Packed, PackedAtomSet, PackedStrSet") if names else PACKED_IMPORTS

    def source(self, tables, names=()):
        """The text of the module. Without names it has the tables and the type, and no more."""
        holder = f"{self.type}Tables"
        return PACKED.format(
            imports=self.imports(names), words=self.words(names, tables, holder) if names else "",
            type=self.type, constant=self.constant(), crate=self.crate, path=self.place.replace("/", "."), key=tables.key,
            pairs=len(tables.disps), disps=rows(tables.disps), count=len(tables.atoms), text=literal("".join(tables.atoms)),
            spans=rows(tables.spans()), hashes=rows(tables.hashes),
        ) + (self.list_test(names, holder) if names else "")

    def answers(self, _tables):
        """Packed tables need no proof."""
        return None
