//! What programs that were written for `string_cache` ask of an atom.

use std::borrow::Cow;
use std::collections::{BTreeSet, HashMap, HashSet};
use string_cache::{Atom, DefaultAtom, PhfStrSet, StaticAtomSet};

/// A static type with one text.
#[derive(PartialEq, Eq, PartialOrd, Ord)]
struct OneText;

impl StaticAtomSet for OneText {
    fn get() -> &'static PhfStrSet {
        static TABLES: PhfStrSet = PhfStrSet { key: 0, disps: &[(0, 0)], atoms: &["sentence"], hashes: &[0xed02_e6f1_6c03_c165] };
        &TABLES
    }
}

type StaticAtom = Atom<OneText>;

/// A static type with six texts in two buckets, as another program placed them.
#[derive(PartialEq, Eq, PartialOrd, Ord)]
struct SixTexts;

impl StaticAtomSet for SixTexts {
    fn get() -> &'static PhfStrSet {
        static TABLES: PhfStrSet = PhfStrSet {
            key: 7,
            disps: &[(3, 1), (4, 2)],
            atoms: &["annotation", "figcaption", "javascript", "blockquote", "stylesheet", "background"],
            hashes: &[
                0x770a_4ee2_cd73_c60e,
                0x7fa2_5184_857c_f130,
                0x2ea7_b737_3ea9_6456,
                0x96f7_e13e_9a6e_7d18,
                0xaef5_971d_8ab3_8393,
                0x9ccf_20ec_b5ab_1c3f,
            ],
        };
        &TABLES
    }
}

#[test]
fn a_text_is_kept() {
    for text in ["", "a", "1234567", "12345678", "café", "a longer name", "\0\0", "日本語の長い名前"] {
        let atom = DefaultAtom::from(text);
        assert_eq!(&*atom, text);
        assert_eq!((atom.as_str(), atom.as_bytes(), atom.to_string().as_str()), (text, text.as_bytes(), text));
        assert_eq!(atom, DefaultAtom::from(text.to_owned()));
        assert_eq!(atom, DefaultAtom::from(Cow::Borrowed(text)));
        assert!(atom == *text && *text == atom && atom == text.to_owned());
        let other = "z".repeat(text.len());
        assert!(text.is_empty() || (atom != *other && *other != atom && atom != other));
    }
    assert_eq!(DefaultAtom::default(), DefaultAtom::from(""));
}

#[test]
fn an_atom_has_one_form() {
    assert_eq!((std::mem::size_of::<DefaultAtom>(), std::mem::size_of::<Option<DefaultAtom>>()), (16, 16));
    let (inline, dynamic, fixed) = (StaticAtom::from("short"), StaticAtom::from("a longer name"), StaticAtom::from("sentence"));
    assert_eq!((inline.is_inline(), inline.is_static(), inline.is_dynamic()), (true, false, false));
    assert_eq!((fixed.is_inline(), fixed.is_static(), fixed.is_dynamic()), (false, true, false));
    assert_eq!((dynamic.is_inline(), dynamic.is_static(), dynamic.is_dynamic()), (false, false, true));
    assert_eq!(
        format!("{inline:?} {fixed:?} {dynamic:?}"),
        "Atom('short' type=inline) Atom('sentence' type=static) Atom('a longer name' type=dynamic)"
    );
    assert_eq!(StaticAtom::try_static("sentence"), Some(StaticAtom::pack_static(0)));
    assert_eq!(StaticAtom::try_static("another text"), None);
    assert!(DefaultAtom::from("sentence").is_dynamic());
}

#[test]
fn static_texts_are_found() {
    let tables = SixTexts::get();
    for (index, text) in tables.atoms.iter().enumerate() {
        let atom = Atom::<SixTexts>::from(*text);
        assert_eq!((atom.unsafe_data(), atom.as_str(), atom.get_hash()), ((index as u64) << 32 | 2, *text, tables.hashes[index]));
    }
    assert!(Atom::<SixTexts>::from("another text").is_dynamic());
    for (one, other) in tables.atoms.iter().flat_map(|one| tables.atoms.iter().map(move |other| (*one, *other))) {
        assert_eq!(Atom::<SixTexts>::from(one).cmp(&Atom::from(other)), one.cmp(other));
    }
}

#[test]
fn words_are_as_macros_pack_them() {
    const ABC: DefaultAtom = DefaultAtom::pack_inline(0x6362_6100, 3);
    const FIRST: StaticAtom = StaticAtom::pack_static(0);
    assert_eq!((ABC, ABC.unsafe_data()), (DefaultAtom::from("abc"), 0x6362_6131));
    assert_eq!((FIRST, FIRST.as_str(), FIRST.unsafe_data()), (StaticAtom::from("sentence"), "sentence", 2));
}

#[test]
fn a_constant_stands_in_a_match() {
    const ABC: StaticAtom = StaticAtom::pack_inline(0x6362_6100, 3);
    const FIRST: StaticAtom = StaticAtom::pack_static(0);
    let form = |text: &str| match StaticAtom::from(text) {
        ABC => 1,
        FIRST => 2,
        _ => 3,
    };
    assert_eq!(["abc", "sentence", "abd", "a longer name"].map(form), [1, 2, 3, 3]);
}

#[test]
fn equal_texts_are_equal_atoms() {
    let texts =
        ["short", "a longer name", "another long name", "sentence", "", "a", "a\0", "ab", "abcdefg", "b", "\u{7f}", "é", "日本", "zz"];
    for one in texts {
        for other in texts {
            assert_eq!(StaticAtom::from(one) == StaticAtom::from(other), one == other);
            assert_eq!(StaticAtom::from(one).cmp(&StaticAtom::from(other)), one.cmp(other));
            assert_eq!(StaticAtom::from(one).get_hash() == StaticAtom::from(other).get_hash(), one == other);
        }
    }
    assert_eq!(StaticAtom::from("sentence").get_hash(), 0xed02_e6f1_6c03_c165);
    assert_eq!(DefaultAtom::from("sentence").get_hash(), 0xed02_e6f1_6c03_c165);
}

#[test]
fn atoms_are_keys() {
    let words = "interned and short and interned once more and then another one".split(' ');
    let mut counts: HashMap<DefaultAtom, usize> = HashMap::new();
    words.clone().for_each(|word| *counts.entry(word.into()).or_default() += 1);
    assert_eq!((counts[&"and".into()], counts[&"interned".into()], counts.len()), (3, 2, 8));
    let ordered: BTreeSet<DefaultAtom> = words.map(DefaultAtom::from).collect();
    assert!(ordered.iter().zip(ordered.iter().skip(1)).all(|(one, next)| one.as_str() < next.as_str()));
}

#[test]
fn case_is_changed() {
    let mixed = DefaultAtom::from("CamelCase and é");
    assert_eq!(&*mixed.to_ascii_uppercase(), "CAMELCASE AND é");
    assert_eq!(&*mixed.to_ascii_lowercase(), "camelcase and é");
    assert_eq!(DefaultAtom::from("already").to_ascii_lowercase(), DefaultAtom::from("already"));
    assert_eq!(&*DefaultAtom::from("Écoles ET É").to_ascii_lowercase(), "Écoles et É");
    assert!(mixed.eq_ignore_ascii_case(&"cAMELcASE AND é".into()) && !mixed.eq_ignore_ascii_case(&"camelcase and É".into()));
    assert!(mixed.eq_str_ignore_ascii_case("CAMELCASE AND é"));
}

#[test]
fn an_atom_stands_for_its_text() {
    fn length(text: impl AsRef<str>) -> usize {
        text.as_ref().len()
    }
    let atom = DefaultAtom::from("a longer name");
    assert_eq!((length(&atom), AsRef::<[u8]>::as_ref(&atom).len(), atom.split(' ').count()), (13, 13, 3));
    assert_eq!(DefaultAtom::from(&atom), atom);
    assert_eq!(format!("{atom:>15}"), "  a longer name");
}

#[test]
fn threads_share_atoms() {
    fn is_shared<T: Send + Sync + 'static>(_: &T) {}
    is_shared(&DefaultAtom::from("a longer name"));
    let work = |seed: usize| {
        let texts: Vec<String> = (0..50).map(|at| format!("name number {at}")).collect();
        let mut kept = HashSet::new();
        for round in 0..2000 {
            let text = &texts[(round * 7 + seed) % 50];
            let atom = DefaultAtom::from(text.as_str());
            assert_eq!(&*atom, text);
            match round % 3 {
                0 => drop(kept.insert(atom)),
                1 => drop(kept.remove(&atom)),
                _ => assert_eq!(atom.clone(), atom),
            }
        }
    };
    let threads: Vec<_> = (0..8).map(|seed| std::thread::spawn(move || work(seed))).collect();
    assert!(threads.into_iter().all(|thread| thread.join().is_ok()));
}
