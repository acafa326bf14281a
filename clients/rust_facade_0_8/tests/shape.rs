//! What `string_cache` 0.8 does otherwise than 0.11.

use string_cache::{Atom, DefaultAtom, EmptyStaticAtomSet, PhfStrSet, StaticAtomSet};

/// A static type with one short text and a hash of 32 bits, as build scripts wrote them.
#[derive(PartialEq, Eq, PartialOrd, Ord)]
struct OneText;

impl StaticAtomSet for OneText {
    fn get() -> &'static PhfStrSet {
        static TABLES: PhfStrSet = PhfStrSet { key: 0, disps: &[(0, 0)], atoms: &["div"], hashes: &[77] };
        &TABLES
    }
    fn empty_string_index() -> u32 {
        0
    }
}

type StaticAtom = Atom<OneText>;

#[test]
fn a_short_text_that_is_listed_is_static() {
    let div = StaticAtom::from("div");
    assert_eq!((div.is_static(), div.unsafe_data(), div.get_hash(), &*div), (true, 2, 77, "div"));
    assert_eq!(div, StaticAtom::pack_static(0));
    assert!(StaticAtom::from("span").is_inline() && DefaultAtom::from("div").is_inline());
    assert!(StaticAtom::from("blockquote").is_dynamic());
}

#[test]
fn a_constant_stands_in_a_match() {
    const DIV: StaticAtom = StaticAtom::pack_static(0);
    let form = |text: &str| match StaticAtom::from(text) {
        DIV => 1,
        _ => 2,
    };
    assert_eq!(["div", "span", "blockquote"].map(form), [1, 2, 2]);
}

/// `as_ref` alone says which, where 0.11 has two.
#[test]
fn an_atom_is_lent_in_one_way() {
    let atom = DefaultAtom::from("a longer name");
    assert_eq!(format!("{:?} {}", atom.as_ref(), atom.as_ref().len()), "\"a longer name\" 13");
}

#[test]
fn the_empty_text_is_static() {
    assert_eq!(EmptyStaticAtomSet::empty_string_index(), 0);
    assert_eq!((DefaultAtom::default(), DefaultAtom::from("").is_static(), &*DefaultAtom::from("")), (DefaultAtom::from(""), true, ""));
    assert_eq!(StaticAtom::default(), StaticAtom::pack_static(OneText::empty_string_index()));
}

/// Of the text's hash the first 32 bits, and of an inline one both halves of its word.
#[test]
fn hashes_have_32_bits() {
    let hashes: [u32; 3] = ["sentence", "abc", "abcdefg"].map(|text| DefaultAtom::from(text).get_hash());
    assert_eq!(hashes, [0xed02_e6f1, 0x6362_6131, 0x6362_6171 ^ 0x6766_6564]);
}

#[test]
fn an_atom_has_its_hash_at_hand() {
    use precomputed_hash::PrecomputedHash;

    let atom = DefaultAtom::from("sentence");
    assert_eq!(atom.precomputed_hash(), atom.get_hash());
}
