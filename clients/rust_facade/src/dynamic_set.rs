//! The texts that are interned while the program runs, of all threads.

use crate::shape::{hash_of_text, TextHash};
use interned_names::{Hashes, SharedInterner, Symbol};
use std::sync::{Arc, OnceLock, Weak};

/// 64 tables of one bucket each, so that the symbols of a table come in their order.
const SHARD_BITS: u8 = 6;
const BUCKET_BITS: u8 = 0;
const MOST_HOLDERS: u64 = (1 << 63) - 1;
const MOST_TICKETS: u64 = (1 << 48) - 1;
/// Where the serial begins in a word.
const SERIAL_SHIFT: u32 = 16;
/// How many slots may be empty before half of them are.
const FEW: usize = 32;

/// A text that atoms share. It is one holder of its symbol.
pub(crate) struct Entry {
    pub(crate) symbol: Symbol,
    pub(crate) text: Box<str>,
    pub(crate) hash: TextHash,
}

/// While both live, two entries are of one text and one static type exactly if they have one symbol.
impl PartialEq for Entry {
    fn eq(&self, other: &Self) -> bool {
        self.symbol == other.symbol
    }
}

impl Eq for Entry {}

/// A symbol of a table, and the entry that atoms share. None is left of it once the symbol isn't held any more.
struct Slot {
    symbol: Symbol,
    entry: Option<Weak<Entry>>,
}

/// The entries of a table, in the order of their symbols: a new one comes last, since serials rise. What goes leaves an empty slot, and once half
/// of the slots are empty they are left out.
#[derive(Default)]
struct Slots {
    list: Vec<Slot>,
    empty: usize,
}

impl Slots {
    /// The place of a symbol. Each slot before it has a serial of its own, so the place is at most the distance of its serial from the first one, and
    /// is that if nothing has gone.
    fn place_of(&self, symbol: Symbol) -> Option<usize> {
        let first = self.list.first()?.symbol.word() >> SERIAL_SHIFT;
        let most = (symbol.word() >> SERIAL_SHIFT).checked_sub(first)?.min(self.list.len() as u64 - 1) as usize;
        match self.list[most].symbol == symbol {
            true => Some(most),
            false => self.list[..most].binary_search_by_key(&symbol, |slot| slot.symbol).ok(),
        }
    }

    /// The entry of a symbol, unless its last atom is just ending.
    fn entry_of(&self, symbol: Symbol) -> Option<Arc<Entry>> {
        self.list[self.place_of(symbol)?].entry.as_ref()?.upgrade()
    }

    /// Has new atoms share this entry from now on.
    fn put(&mut self, entry: &Arc<Entry>) {
        let slot = Slot { symbol: entry.symbol, entry: Some(Arc::downgrade(entry)) };
        match self.place_of(entry.symbol) {
            Some(place) => self.list[place] = slot,
            None => self.list.push(slot),
        }
    }

    /// Empties the slot of a symbol that is no longer held.
    fn remove(&mut self, symbol: Symbol) {
        if let Some(place) = self.place_of(symbol) {
            self.list[place].entry = None;
            self.empty += 1;
        }
        if self.empty > FEW + self.list.len() / 2 {
            self.list.retain(|slot| slot.entry.is_some());
            self.empty = 0;
        }
    }
}

/// The tables of the process. In each, nobody else is there while a text or a symbol has it locked.
fn names() -> &'static SharedInterner<Slots> {
    static NAMES: OnceLock<SharedInterner<Slots>> = OnceLock::new();
    NAMES.get_or_init(|| SharedInterner::with_limits(SHARD_BITS, MOST_HOLDERS, MOST_TICKETS, BUCKET_BITS).expect("tables"))
}

/// The entry of a text, which has these hashes under the key of its static type.
pub(crate) fn intern(text: &str, hashes: Hashes) -> Arc<Entry> {
    let hash = hash_of_text(hashes);
    // Ends after the lock does: it may be the last of its entry, whose drop takes the lock.
    let _other;
    let mut name = names().lock_hashed(text, hashes);
    match name.get().and_then(|symbol| name.beside().entry_of(symbol)) {
        Some(entry) if entry.hash == hash => entry,
        // A static type with another key may have the same text here, with another hash.
        found => {
            _other = found;
            let symbol = name.intern().expect("a symbol");
            let entry = Arc::new(Entry { symbol, text: text.into(), hash });
            name.beside().put(&entry);
            entry
        }
    }
}

/// How many texts are held.
#[cfg(test)]
pub(crate) fn held() -> usize {
    names().len()
}

/// Gives its holder back. The text may have been interned anew meanwhile: then it has another holder, and another entry.
impl Drop for Entry {
    fn drop(&mut self) {
        let mut symbol = names().lock_symbol(self.symbol);
        symbol.release();
        if !symbol.is_held() {
            symbol.beside().remove(self.symbol);
        }
    }
}

#[cfg(test)]
mod tests {
    use super::{hash_of_text, held, intern, Entry, Slots};
    use interned_names::{hashes_of, Hashes, Symbol};
    use std::sync::Arc;

    fn interned(text: &str, key: u64) -> Arc<Entry> {
        intern(text, hashes_of(text, key))
    }

    fn interns_and_drops() {
        for at in 0..10_000 {
            let text = ["one long name", "another name"][at % 2];
            assert_eq!(&*interned(text, 0).text, text);
        }
    }

    /// The only test in this program that interns, so that it sees all that is held.
    #[test]
    fn a_text_goes_with_its_last_entry() {
        let first = interned("a longer name", 0);
        let second = interned("a longer name", 0);
        assert!(Arc::ptr_eq(&first, &second));
        assert_eq!(held(), 1);
        drop(first);
        assert_eq!(held(), 1);
        let symbol = second.symbol;
        drop(second);
        assert_eq!(held(), 0);
        assert_ne!(interned("a longer name", 0).symbol, symbol);
        let threads: Vec<_> = (0..8).map(|_| std::thread::spawn(interns_and_drops)).collect();
        assert!(threads.into_iter().all(|thread| thread.join().is_ok()));
        assert_eq!(held(), 0);
        each_key_has_its_hash();
        many_texts_come_and_go();
    }

    /// Two static types may have one text in one table, if the parts of the hash that choose it are the same.
    fn each_key_has_its_hash() {
        let one = Hashes { g: 64, f1: 1, f2: 2 };
        let other = Hashes { g: 128, f1: 3, f2: 4 };
        let (first, second) = (intern("a longer name", one), intern("a longer name", other));
        assert_eq!((first.symbol, held()), (second.symbol, 1));
        assert_eq!((first.hash, second.hash), (hash_of_text(one), hash_of_text(other)));
        drop(second);
        assert_eq!((held(), intern("a longer name", other).hash), (1, hash_of_text(other)));
        drop(first);
        assert_eq!(held(), 0);
    }

    fn many_texts_come_and_go() {
        let texts: Vec<String> = (0..20_000).map(|number| format!("text number {number}")).collect();
        let mut entries: Vec<_> = texts.iter().map(|text| Some(interned(text, 0))).collect();
        for step in [3, 2, 7, 1] {
            (0..texts.len()).step_by(step).for_each(|at| entries[at] = None);
            let left = entries.iter().flatten().count();
            assert_eq!(held(), left);
            for (entry, text) in entries.iter().zip(&texts) {
                assert!(entry.as_ref().map_or(true, |entry| Arc::ptr_eq(entry, &interned(text, 0)) && *entry.text == **text));
            }
            assert_eq!(held(), left);
        }
    }

    /// Symbols stay in order and are found, however many have gone.
    #[test]
    fn slots_are_found_by_their_symbols() {
        let symbol = |serial: u64| Symbol::from_word(serial << 16).expect("a symbol");
        let mut slots = Slots::default();
        for serial in 10..2010 {
            slots.list.push(super::Slot { symbol: symbol(serial), entry: Some(std::sync::Weak::new()) });
        }
        let gone = |serial: u64| serial % 5 != 0;
        (10..2010).filter(|&serial| gone(serial)).for_each(|serial| slots.remove(symbol(serial)));
        assert!(slots.list.len() < 1000);
        for serial in 0..2100 {
            let place = slots.place_of(symbol(serial + 1));
            let there = place.is_some_and(|place| slots.list[place].symbol == symbol(serial + 1) && slots.list[place].entry.is_some());
            assert_eq!(there, (10..2010).contains(&(serial + 1)) && !gone(serial + 1));
        }
    }
}
