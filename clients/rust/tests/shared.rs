//! What threads ask of an interner that they share.

use interned_names::{hashes_of, Fault, Interner, SharedInterner, SharedSymbol, Symbol};
use std::collections::{HashMap, HashSet};
use std::sync::mpsc;
use std::thread;
use std::time::Duration;

fn new_interner() -> SharedInterner {
    SharedInterner::new().expect("an interner")
}

fn intern<'a>(names: &'a SharedInterner, name: &str) -> SharedSymbol<'a> {
    names.intern(name).expect("a symbol")
}

fn numbered(number: usize) -> String {
    match number % 8 {
        0 => format!("n{number}"),
        _ => format!("name number {number}"),
    }
}

#[test]
fn it_is_shared_and_sent() {
    fn is_shared<T: Send + Sync>() {}
    is_shared::<SharedInterner>();
    is_shared::<SharedSymbol<'static>>();
}

#[test]
fn a_symbol_has_its_name() {
    let names = new_interner();
    for name in ["", "a", "1234567", "12345678", "é", "日本語の長い名前", "\0\0\0\0\0\0\0\0\0", &"x".repeat(1 << 20)] {
        let symbol = intern(&names, name);
        assert_eq!((symbol.text(), symbol.to_string(), format!("{symbol:?}")), (name.into(), name.into(), format!("{name:?}")));
        assert_eq!(symbol, intern(&names, &name.to_owned()));
        assert_eq!(names.try_get(name), Ok(Some(symbol.clone())));
        assert_eq!((symbol.holders(), symbol.word()), ((name.len() > 7).then_some(1), symbol.symbol().word()));
    }
    assert!(names.is_empty());
}

#[test]
fn a_name_goes_with_its_last_symbol() {
    let names = new_interner();
    let first = intern(&names, "a longer name");
    let copy = first.clone();
    assert_eq!((names.len(), names.text_bytes(), copy.holders(), copy.interner().len()), (1, 13, Some(2), 1));
    let symbol = first.symbol();
    drop(first);
    assert_eq!((copy.text().as_str(), copy.holders()), ("a longer name", Some(1)));
    drop(copy);
    assert_eq!((names.len(), names.text_bytes(), names.try_get("a longer name")), (0, 0, Ok(None)));
    assert!(!names.lock_symbol(symbol).is_held() && !names.lock_symbol(symbol).release());
    assert_ne!(intern(&names, "a longer name").symbol(), symbol);
}

/// The name goes while two symbols stand for it, by one release for each: what its docs say of them.
#[test]
fn symbols_whose_holders_are_released_stand_for_nothing() {
    let names = new_interner();
    let (first, second) = (intern(&names, "a longer name"), intern(&names, "a longer name"));
    assert!(names.lock_symbol(first.symbol()).release());
    assert_eq!((first.text().as_str(), second.holders()), ("a longer name", Some(1)));
    assert!(names.lock_symbol(first.symbol()).release() && !names.lock_symbol(first.symbol()).release());
    for symbol in [&first, &second] {
        assert_eq!((symbol.text(), symbol.to_string(), symbol.holders()), (String::new(), String::new(), None));
        assert_eq!(symbol.try_clone(), Err(Fault::NotHeld));
    }
    assert!(names.is_empty() && thread::scope(|scope| scope.spawn(|| first.clone()).join().is_err()));
    let again = intern(&names, "a longer name");
    assert!(first == second && first != again);
    drop((first, second));
    assert_eq!((again.text().as_str(), again.holders(), names.len()), ("a longer name", Some(1), 1));
}

#[test]
fn symbols_of_two_interners_differ() {
    let (names, others) = (new_interner(), new_interner());
    assert_ne!(intern(&names, "a longer name"), intern(&others, "a longer name"));
    assert_ne!(intern(&names, "short"), intern(&others, "short"));
    assert_eq!(intern(&names, "short").symbol(), intern(&others, "short").symbol());
}

/// As the tests of the shared interner for C and C++ have them.
#[test]
fn words_are_those_of_each_language() {
    let names = new_interner();
    for (name, word) in [("a longer name", 0x122cc), ("another long name", 0x13130), ("日本語の長い名前", 0x10ea4)] {
        assert_eq!(intern(&names, name).word(), word);
    }
}

/// The first tickets of all shards are the same number.
#[test]
fn two_names_never_share_a_symbol() {
    for (shard_bits, bucket_bits, count) in [(0, 14, 3000), (0, 0, 3000), (3, 4, 3000), (6, 0, 40_000), (6, 6, 40_000), (14, 0, 3000)] {
        let names = SharedInterner::<()>::with_limits(shard_bits, 9, 1 << 40, bucket_bits).expect("an interner");
        let symbols: Vec<SharedSymbol<'_>> = (0..count).map(|number| intern(&names, &numbered(number))).collect();
        assert_eq!(symbols.iter().map(SharedSymbol::symbol).collect::<HashSet<Symbol>>().len(), count);
        assert!(symbols.iter().enumerate().all(|(number, symbol)| symbol.text() == numbered(number)));
    }
}

#[test]
fn any_symbol_may_be_asked_for() {
    let names = SharedInterner::<()>::with_limits(3, 9, 9, 4).expect("an interner");
    let held = intern(&names, "a longer name");
    // Also with one bit alone, as a shard without a ticket; those of a short name are held.
    let words = (0..64).flat_map(|shift| [held.symbol().word() ^ 1 << shift, 1 << shift]).filter(|&word| word != 1);
    for other in words.filter_map(Symbol::from_word) {
        let mut locked = names.lock_symbol(other);
        assert!(!locked.is_held() && locked.text().is_none() && locked.holders().is_none() && !locked.release());
        assert_eq!(locked.hold(), Err(Fault::NotHeld));
    }
    assert_eq!(held.holders(), Some(1));
}

#[test]
fn limits_are_kept() {
    let names = SharedInterner::<()>::with_limits(0, 2, 1, 0).expect("an interner");
    let symbol = intern(&names, "a longer name");
    let _copy = symbol.clone();
    assert_eq!(symbol.try_clone(), Err(Fault::FullCount));
    assert_eq!(names.intern("a longer name"), Err(Fault::FullCount));
    assert_eq!(names.try_get("a longer name"), Err(Fault::FullCount));
    assert_eq!(names.intern("another long name"), Err(Fault::TicketsSpent));
    assert_eq!(symbol.holders(), Some(2));
    let rows = [(2, 0, 1, 2), (2, 1, 0, 2), (2, 1 << 63, 1, 2), (2, 1, 1 << 48, 2), (15, 1, 1, 0), (7, 1, 1, 8), (0, 1, 1, 15)];
    for (shards, holders, tickets, bits) in rows {
        assert_eq!(SharedInterner::<()>::with_limits(shards, holders, tickets, bits).err(), Some(Fault::NotLimits));
    }
}

#[test]
fn memory_is_told() {
    let names = SharedInterner::<()>::with_limits(3, 9, 9, 0).expect("an interner");
    let empty = names.memory();
    assert!(empty >= 8 * 64);
    let symbol = intern(&names, "a longer name");
    assert_eq!(names.memory(), empty + 13 + 496 + 208 + 1);
    drop(symbol);
    assert_eq!(names.memory(), empty + 496 + 208 + 1);
    assert_eq!(format!("{names:?}"), "SharedInterner(0 names)");
}

/// Each name is alone in its interner, and all four shards have one.
#[test]
fn all_shards_are_added_up() {
    let texts: Vec<String> = (0..40).map(|number| format!("name number {number}")).collect();
    assert_eq!(texts.iter().map(|text| hashes_of(text, 0).g & 3).collect::<HashSet<_>>().len(), 4);
    let table = Interner::with_limits(9, 9, 0).expect("an interner").memory();
    for text in &texts {
        let names = SharedInterner::<()>::with_limits(2, 9, 9, 0).expect("an interner");
        let empty = names.memory();
        assert!(names.is_empty() && empty >= 4 * (table + 64));
        let _symbol = intern(&names, text);
        assert_eq!((names.len(), names.is_empty(), names.text_bytes()), (1, false, text.len() as u64));
        assert_eq!(names.memory(), empty + text.len() as u64 + 496 + 208 + 1);
    }
}

/// A thread that panics while it has a lock leaves the shard to the others, and each call of its own has changed all or nothing.
#[test]
fn a_panic_under_a_lock_takes_nothing_from_the_others() {
    let names = new_interner();
    let held = intern(&names, "a longer name");
    let panicked = thread::scope(|scope| {
        let thread = scope.spawn(|| {
            let mut locked = names.lock_name("a longer name");
            let symbol = locked.intern().expect("a symbol");
            assert_ne!(locked.get(), Some(symbol), "a panic that is meant");
        });
        thread.join().is_err()
    });
    assert!(panicked && names.len() == 1 && names.memory() > names.text_bytes());
    assert_eq!((held.text().as_str(), held.holders()), ("a longer name", Some(2)));
    assert_eq!(names.try_get("a longer name"), Ok(Some(held.clone())));
    assert!(names.lock_symbol(held.symbol()).release());
    drop(held);
    assert!(names.is_empty());
}

/// Another thread has the lock of the only shard all the while. If a call waited for it, the thread would end once it is given back.
#[test]
fn calls_with_a_short_name_take_no_lock() {
    let names = &SharedInterner::with_limits(0, 9, 9, 0).expect("an interner");
    let locked = names.lock_name("a longer name");
    let (answer, answers) = mpsc::channel();
    thread::scope(|scope| {
        scope.spawn(move || {
            let symbol = intern(names, "short");
            let same = names.try_get("short") == Ok(Some(symbol.clone()));
            answer.send((symbol.text(), symbol.holders(), same)).expect("who asks");
        });
        let told = answers.recv_timeout(Duration::from_secs(30));
        drop(locked);
        assert_eq!(told, Ok(("short".into(), None, true)));
    });
}

/// The name comes and goes, and each look-up gives a symbol that `intern` gave, or none: one that interned after another call would give a new one.
#[test]
fn a_look_up_interns_nothing() {
    let (names, mut given) = (new_interner(), HashSet::new());
    let look = || -> HashSet<Symbol> {
        let found = (0..400_000).filter_map(|_| names.try_get("a longer name").expect("a look-up"));
        found.map(|symbol| symbol.symbol()).collect()
    };
    thread::scope(|scope| {
        let threads = [scope.spawn(look), scope.spawn(look)];
        while threads.iter().any(|thread| !thread.is_finished()) {
            given.insert(intern(&names, "a longer name").symbol());
        }
        assert!(threads.into_iter().all(|thread| thread.join().expect("a thread").is_subset(&given)));
    });
    assert!(names.is_empty());
}

#[test]
fn a_symbol_is_written_in_its_width() {
    let names = new_interner();
    for (name, right, middle, cut) in [("short", "     short", "..short...", "sho"), ("nine name", " nine name", "nine name.", "nin")] {
        let symbol = intern(&names, name);
        assert_eq!((format!("{symbol:>10}"), format!("{symbol:.^10}"), format!("{symbol:.3}")), (right.into(), middle.into(), cut.into()));
    }
}

#[test]
#[allow(deprecated)]
fn former_names_answer_the_same() {
    let names = SharedInterner::<()>::with_limits(0, 3, 9, 0).expect("an interner");
    assert_eq!(names.get("a longer name"), Ok(None));
    let symbol = intern(&names, "a longer name");
    let resolved = names.lock_symbol(symbol.symbol()).resolve();
    assert_eq!((symbol.name(), resolved), (symbol.text(), Some(symbol.text())));
    assert_eq!(names.get("a longer name"), names.try_get("a longer name"));
    let _copies = [symbol.clone(), symbol.clone()];
    assert_eq!(names.get("a longer name"), Err(Fault::FullCount));
}

/// How often each name of a shard was locked.
#[test]
fn a_program_keeps_more_beside_its_names() {
    let names = SharedInterner::<HashMap<Symbol, u32>>::with_limits(2, 99, 99, 0).expect("an interner");
    for number in (0..40).chain(0..40) {
        let name = format!("name number {number}");
        let mut locked = names.lock_hashed(&name, hashes_of(&name, 0));
        let symbol = locked.intern().expect("a symbol");
        assert_eq!(locked.get(), Some(symbol));
        *locked.beside().entry(symbol).or_default() += 1;
    }
    for number in 0..40 {
        let symbol = names.lock_name(&format!("name number {number}")).get().expect("a name that is held");
        let mut locked = names.lock_symbol(symbol);
        assert_eq!((locked.holders(), locked.beside().remove(&symbol)), (Some(2), Some(2)));
        assert!(locked.release() && locked.release() && !locked.is_held());
    }
}

/// What one thread does: it holds, copies, reads and drops the symbols of many names.
fn work(names: &SharedInterner, seed: usize) {
    const NAMES: usize = 100;
    let mut held: HashMap<usize, Vec<SharedSymbol<'_>>> = HashMap::new();
    for step in 0..1500 {
        let number = (step * 31 + seed * 17) % NAMES;
        let own = held.entry(number).or_default();
        match (step % 4, own.first().cloned()) {
            (0, _) | (_, None) => own.push(intern(names, &numbered(number))),
            (1, Some(copy)) => own.push(copy),
            (2, _) => drop(own.pop()),
            (_, Some(symbol)) => assert_eq!(symbol.text(), numbered(number)),
        }
        assert!(own.iter().all(|symbol| *symbol == own[0]));
    }
    let bytes = names.text_bytes(); // first, since the memory that is told later has room for these names still
    assert!(names.len() <= NAMES && names.memory() > bytes);
}

fn threads_share(count: usize, shard_bits: u8) {
    let interner = SharedInterner::with_limits(shard_bits, 1 << 62, 1 << 47, 2).expect("an interner");
    let names = &interner;
    thread::scope(|scope| {
        let threads: Vec<_> = (0..count).map(|seed| scope.spawn(move || work(names, seed))).collect();
        assert!(threads.into_iter().all(|thread| thread.join().is_ok()));
    });
    assert_eq!((names.len(), names.text_bytes()), (0, 0));
}

#[test]
fn two_threads_share() {
    threads_share(2, 0);
    threads_share(2, 6);
}

#[test]
fn eight_threads_share() {
    threads_share(8, 1);
    threads_share(8, 6);
}

#[test]
fn sixty_four_threads_share() {
    threads_share(64, 0);
    threads_share(64, 6);
}

/// Threads find one another's names, and see one symbol for each.
#[test]
fn threads_agree() {
    let names = new_interner();
    let found: Vec<Vec<SharedSymbol<'_>>> = thread::scope(|scope| {
        let threads: Vec<_> = (0..8).map(|_| scope.spawn(|| (0..500).map(|number| intern(&names, &numbered(number))).collect())).collect();
        threads.into_iter().map(|thread| thread.join().expect("a thread")).collect()
    });
    assert!(found.iter().all(|symbols| *symbols == found[0]));
    assert!(found[0].iter().all(|symbol| symbol.holders().unwrap_or(8) == 8));
}
