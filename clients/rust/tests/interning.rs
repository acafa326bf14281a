//! What interners are known by, of this one: equal names, look-ups, the way back, order, growth, and names that go.

use interned_names::{hashes_of, Fault, Interner, Symbol};
use std::collections::{BTreeMap, HashMap, HashSet};

fn new_interner() -> Interner {
    Interner::new().expect("an interner")
}

fn intern(names: &mut Interner, name: &str) -> Symbol {
    names.intern(name).expect("a symbol")
}

/// Different names of every length that matters: none, inline, the first that is not, long.
fn samples() -> Vec<String> {
    let mut samples = vec![String::new(), "x".repeat(1 << 20), "é".repeat(4), "日本".into(), "日本語".into(), "日本語の長い名前".into()];
    samples.extend((1..100).map(|length| "a".repeat(length)));
    samples.extend((1..100).map(|length| "b".repeat(length)));
    samples.push("\0".into());
    samples.push("\0\0\0\0\0\0\0\0\0".into());
    samples
}

#[test]
fn equal_names_have_equal_symbols() {
    let mut names = new_interner();
    for name in samples() {
        let symbol = intern(&mut names, &name);
        assert_eq!(intern(&mut names, &name.clone()), symbol, "{name}");
    }
}

#[test]
fn different_names_have_different_symbols() {
    let mut names = new_interner();
    let symbols: HashSet<Symbol> = samples().iter().map(|name| intern(&mut names, name)).collect();
    assert_eq!(symbols.len(), samples().len());
}

#[test]
fn a_symbol_has_its_text() {
    let mut names = new_interner();
    let symbols: Vec<Symbol> = samples().iter().map(|name| intern(&mut names, name)).collect();
    let mut room = String::new();
    for (symbol, name) in symbols.into_iter().zip(samples()) {
        assert_eq!(names.text(symbol).as_ref(), Some(&name));
        assert!(names.text_into(symbol, &mut room) && room == name);
    }
}

#[test]
fn a_symbol_lends_a_short_name() {
    let mut names = new_interner();
    for name in samples() {
        let symbol = intern(&mut names, &name);
        let copy = symbol;
        assert_eq!(copy.inline_bytes(), (name.len() <= 7).then_some(name.as_bytes()), "{name}");
    }
    // Words that no interner gives: of no tag of ours, and of a name of 8 bytes.
    for word in [2, 3, 1 << 32 | 2, 1 << 34, 0x85, 0x81, 0xF1] {
        assert_eq!(Symbol::from_word(word).and_then(|symbol| symbol.inline_bytes().map(<[u8]>::to_vec)), None, "{word:#x}");
    }
}

/// Of any word the symbol lends what an interner that holds nothing has for its text: bytes that are no text, or that stand behind one, are none.
#[test]
fn a_symbol_lends_nothing_where_its_word_is_none() {
    let names = new_interner();
    let given = ["", "a", "é", "日本", "1234567"].map(|name| names.get(name).expect("a short name").word());
    let others = given.iter().flat_map(|word| (0..64).map(move |bit| word ^ 1 << bit));
    // A byte of no text, the first half of a letter, a surrogate, and a letter behind one and behind none.
    let chosen = [0xff11, 0xc311, 0x80_a0ed_31, 0x62_6111, 0x6101, 0xff00_0000_0000_0061];
    let symbols: Vec<Symbol> = given.into_iter().chain(others).chain(chosen).filter_map(Symbol::from_word).collect();
    for symbol in &symbols {
        assert_eq!(symbol.inline_text(), names.text(*symbol).as_deref(), "{symbol:?}");
        assert_eq!(symbol.inline_bytes(), symbol.inline_text().map(str::as_bytes), "{symbol:?}");
    }
    assert!(chosen.iter().all(|&word| Symbol::from_word(word).is_some_and(|symbol| symbol.inline_bytes().is_none())));
}

#[test]
fn a_name_is_found_once_it_is_interned() {
    let mut names = new_interner();
    for name in samples() {
        assert_eq!(names.get(&name).is_some(), name.len() <= 7);
        let symbol = intern(&mut names, &name);
        assert_eq!(names.get(&name), Some(symbol));
        assert!(names.contains(symbol));
    }
}

#[test]
fn looking_up_interns_nothing() {
    let names = new_interner();
    assert_eq!(names.get("a longer name"), None);
    assert!(names.is_empty());
    assert_eq!(names.iter().next(), None);
}

#[test]
fn names_come_in_order() {
    let mut names = new_interner();
    let wanted: Vec<String> = (0..500).map(|at| format!("name number {at}")).collect();
    for name in wanted.iter().chain(&wanted) {
        intern(&mut names, name);
    }
    let found: Vec<String> = names.iter().map(|(_, name)| name).collect();
    assert_eq!(found, wanted);
    for (symbol, name) in &names {
        assert_eq!(names.get(&name), Some(symbol));
    }
}

#[test]
fn iterating_knows_how_many_are_left() {
    let mut names = new_interner();
    for name in ["the first name", "short", "the second name", "the third name"] {
        intern(&mut names, name);
    }
    let mut iter = names.iter();
    assert_eq!((iter.len(), names.len()), (3, 3));
    assert_eq!(iter.next().map(|(_, name)| name).as_deref(), Some("the first name"));
    assert_eq!(iter.len(), 2);
    assert_eq!(iter.by_ref().count(), 2);
    assert_eq!((iter.next(), iter.len()), (None, 0));
}

#[test]
fn the_last_name_comes_in_the_place_of_one_that_goes() {
    let mut names = new_interner();
    let first = intern(&mut names, "the first name");
    intern(&mut names, "the second name");
    intern(&mut names, "the third name");
    assert!(names.release(first));
    let found: Vec<String> = names.iter().map(|(_, name)| name).collect();
    assert_eq!(found, ["the third name", "the second name"]);
}

#[test]
fn a_name_goes_with_its_last_holder() {
    let mut names = new_interner();
    let symbol = intern(&mut names, "a longer name");
    assert_eq!(intern(&mut names, "a longer name"), symbol);
    assert_eq!(names.hold(symbol), Ok(()));
    for left in [2, 1] {
        assert!(names.release(symbol));
        assert_eq!(names.holders(symbol), Some(left));
    }
    assert!(names.release(symbol) && !names.release(symbol));
    assert_eq!((names.len(), names.text_bytes(), names.holders(symbol)), (0, 0, None));
    assert_eq!(names.hold(symbol), Err(Fault::NotHeld));
    assert_eq!(names.text(symbol), None);
    assert_ne!(intern(&mut names, "a longer name"), symbol);
}

#[test]
fn a_text_that_was_there_is_gone_where_there_is_none() {
    let mut names = new_interner();
    let symbol = intern(&mut names, "a longer name");
    names.clear();
    let mut room = String::from("what was here before");
    assert!(!names.text_into(symbol, &mut room) && room.is_empty());
}

#[test]
fn a_cleared_interner_starts_anew() {
    let mut names = new_interner();
    let symbols: HashSet<Symbol> = (0..100).map(|at| intern(&mut names, &format!("name number {at}"))).collect();
    names.clear();
    assert!(names.is_empty() && symbols.iter().all(|&symbol| !names.contains(symbol)));
    assert!((0..100).all(|at| !symbols.contains(&intern(&mut names, &format!("name number {at}")))));
}

#[test]
fn symbols_are_small_keys() {
    assert_eq!((std::mem::size_of::<Symbol>(), std::mem::size_of::<Option<Symbol>>()), (8, 8));
    let mut names = new_interner();
    let mut counts: HashMap<Symbol, u32> = HashMap::new();
    let mut ordered: BTreeMap<Symbol, u32> = BTreeMap::new();
    for word in "the quick brown fox jumps over the lazy interned dog and the interned fox".split(' ') {
        *counts.entry(intern(&mut names, word)).or_default() += 1;
        *ordered.entry(intern(&mut names, word)).or_default() += 1;
    }
    assert_eq!(counts[&names.get("the").unwrap()], 3);
    assert_eq!(counts[&names.get("interned").unwrap()], 2);
    assert!(counts.len() == 10 && ordered.into_iter().all(|(symbol, count)| counts[&symbol] == count));
}

#[test]
fn any_number_may_be_asked_for() {
    let mut names = new_interner();
    let symbol = intern(&mut names, "a longer name");
    assert_eq!(Symbol::from_word(symbol.word()), Some(symbol));
    assert_eq!(Symbol::from_word(0), None);
    for other in (0..64).filter_map(|shift| Symbol::from_word(symbol.word() ^ 1 << shift)) {
        assert!(!names.contains(other) && names.text(other).is_none() && !names.release(other));
    }
    assert_eq!(names.len(), 1);
}

#[test]
fn limits_are_kept() {
    let mut names = Interner::with_limits(2, 1, 0).expect("an interner");
    let symbol = intern(&mut names, "a longer name");
    assert_eq!(intern(&mut names, "a longer name"), symbol);
    assert_eq!(names.intern("a longer name"), Err(Fault::FullCount));
    assert_eq!(names.hold(symbol), Err(Fault::FullCount));
    assert_eq!(names.intern("another long name"), Err(Fault::TicketsSpent));
    assert_eq!((names.len(), names.holders(symbol)), (1, Some(2)));
    for (holders, tickets, bits) in [(0, 1, 0), (1, 0, 0), (1 << 63, 1, 0), (1, 1 << 48, 0), (1, 1, 15)] {
        assert_eq!(Interner::with_limits(holders, tickets, bits).err(), Some(Fault::NotLimits));
    }
}

#[test]
fn a_given_key_changes_no_symbol() {
    let mut drawn = new_interner();
    let mut given = Interner::with_key(3, 9, 12, [1, 2]).expect("an interner");
    let mut other = Interner::with_key(3, 9, 12, [u64::MAX, 3]).expect("an interner");
    for name in ["a longer name", "日本語の長い名前", "short"] {
        let symbol = intern(&mut drawn, name);
        assert_eq!((intern(&mut given, name), intern(&mut other, name)), (symbol, symbol));
    }
    assert_eq!(Interner::with_key(1, 1, 15, [1, 2]).err(), Some(Fault::NotLimits));
}

/// By how much the memory grows where 1,000 names go and come again: that hangs on the key (`clients/c/tests/counted.c`).
fn growth_under(key: [u64; 2]) -> u64 {
    let mut names = Interner::with_key(9, 99, 12, key).expect("an interner");
    let texts: Vec<String> = (0..1000).map(|at| format!("text number {at}")).collect();
    let symbols: Vec<Symbol> = texts.iter().map(|text| intern(&mut names, text)).collect();
    let full = names.memory();
    assert!((0..1000).all(|at| names.release(symbols[at * 7 % 1000])));
    for text in &texts {
        intern(&mut names, text);
    }
    names.memory() - full
}

#[test]
fn a_given_key_is_the_interners() {
    assert_eq!([[1, 2], [1, 30], [1, 47]].map(growth_under), [0, 128 * 496, 128 * 496]);
}

#[test]
fn limits_under_a_key_are_kept() {
    let mut names = Interner::with_key(2, 1, 0, [1, 2]).expect("an interner");
    let symbol = intern(&mut names, "a longer name");
    assert_eq!((names.hold(symbol), names.hold(symbol)), (Ok(()), Err(Fault::FullCount)));
    assert_eq!(names.intern("another long name"), Err(Fault::TicketsSpent));
}

#[test]
fn each_fault_prints_what_it_is() {
    let rows = [
        (Fault::Memory, "there is no memory"),
        (Fault::FullCount, "the name has as many holders as the limits allow"),
        (Fault::TicketsSpent, "the bucket of the name has no ticket left"),
        (Fault::NotHeld, "the interner holds no such symbol"),
        (Fault::NotLimits, "a limit or the number of buckets is out of range"),
        (Fault::Random, "the system gave no random bytes"),
        (Fault::Other(99), "the library answered 99"),
    ];
    assert!(rows.iter().all(|(fault, text)| fault.to_string() == *text));
}

#[test]
fn room_that_no_machine_has_is_refused() {
    let mut names = new_interner();
    assert_eq!(names.reserve(usize::MAX / 2), Err(Fault::Memory));
    assert_eq!(names.reserve(10_000), Ok(()));
    assert!(names.is_empty());
}

/// With one bucket, a second name in the first group of places takes its own bytes and no more.
#[test]
fn memory_is_told() {
    let mut names = Interner::with_limits(9, 9, 0).expect("an interner");
    let empty = names.memory();
    intern(&mut names, "a longer name");
    let one = names.memory();
    assert!(empty > 8 && one == empty + 13 + 496 + 208 + 1);
    intern(&mut names, "short");
    let second = intern(&mut names, "日本語の名前");
    assert_eq!(names.memory(), one + 18);
    assert!(names.release(second));
    assert_eq!(names.memory(), one);
    names.clear();
    assert_eq!(names.memory(), one - 13);
    names.reserve(1000).expect("room");
    assert!(names.memory() > one + 64 * 1000);
}

#[test]
fn an_interner_goes_to_another_thread() {
    let mut names = new_interner();
    let symbol = intern(&mut names, "a longer name");
    let names = std::thread::spawn(move || {
        assert_eq!(intern(&mut names, "a longer name"), symbol);
        names
    });
    let names = names.join().expect("the thread");
    assert_eq!(names.holders(symbol), Some(2));
}

#[test]
fn an_interner_prints_its_names() {
    let mut names = Interner::with_limits(1, 1, 0).expect("an interner");
    intern(&mut names, "a longer name");
    assert_eq!(format!("{names:?}"), r#"{Symbol(0x10000): "a longer name"}"#);
    assert_eq!(Fault::Memory.to_string(), "there is no memory");
}

/// As another program has it.
#[test]
fn a_text_has_its_hash() {
    let hashes = hashes_of("sentence", 0);
    assert_eq!((hashes.g, hashes.f1), (0xed02_e6f1, 0x6c03_c165));
    assert_ne!(hashes_of("sentence", 1), hashes);
}

#[test]
#[allow(deprecated)]
fn former_names_answer_the_same() {
    let mut names = new_interner();
    let (symbol, mut room) = (intern(&mut names, "a longer name"), String::from("what was here before"));
    assert_eq!(names.resolve(symbol), names.text(symbol));
    assert!(names.resolve_into(symbol, &mut room) && room == "a longer name");
    names.clear();
    assert!(names.resolve(symbol).is_none() && !names.resolve_into(symbol, &mut room) && room.is_empty());
}

#[test]
fn a_million_names_are_kept() {
    const NAMES: usize = 1_000_000;
    let mut names = new_interner();
    let symbols: Vec<Symbol> = (0..NAMES).map(|at| intern(&mut names, &format!("name number {at}"))).collect();
    assert_eq!(names.len(), NAMES);
    assert_eq!(symbols.iter().collect::<HashSet<_>>().len(), NAMES);
    let mut room = String::new();
    for (at, &symbol) in symbols.iter().enumerate() {
        let name = format!("name number {at}");
        assert!(names.text_into(symbol, &mut room) && room == name);
        assert_eq!(names.get(&name), Some(symbol));
    }
    assert!(symbols.iter().rev().all(|&symbol| names.release(symbol)));
    assert!(names.is_empty());
}

#[test]
fn threads_read_one_interner() {
    let mut names = new_interner();
    let texts: Vec<String> = (0..500).map(|at| format!("name number {at}")).collect();
    let symbols: Vec<Symbol> = texts.iter().map(|text| intern(&mut names, text)).collect();
    let shared = &names;
    std::thread::scope(|scope| {
        for _ in 0..4 {
            scope.spawn(|| {
                for (text, &symbol) in texts.iter().zip(&symbols) {
                    assert_eq!(shared.get(text), Some(symbol));
                    assert_eq!(shared.text(symbol).as_deref(), Some(&text[..]));
                    assert_eq!(shared.holders(symbol), Some(1));
                }
                assert_eq!(shared.iter().count(), 500);
                assert!(shared.memory() > shared.text_bytes());
            });
        }
    });
}
