//! Interned names: each different text is kept once, and a [`Symbol`] of 8 bytes stands for it.
//!
//! ```
//! use interned_names::Interner;
//!
//! let mut names = Interner::new()?;
//! let first = names.intern("a longer name")?;
//! assert_eq!(names.intern("a longer name")?, first);
//! assert_eq!(names.text(first).as_deref(), Some("a longer name"));
//! # Ok::<(), interned_names::Fault>(())
//! ```
//!
//! A symbol is a number and may be copied freely. The names of an interner live as long as it does, unless they are given back: each
//! [`Interner::intern`] counts one holder, and each [`Interner::release`] takes one off; with the last one the name goes. The symbol of a name
//! that went never comes back, so that a stale one has no text, and never that of another name.
//!
//! Threads share the names of a [`SharedInterner`].
//!
//! A name of at most 7 bytes lies in its symbol. It takes no memory, is always there, and isn't counted by [`Interner::len`].
//!
//! What a table does is proved; that this crate hands its arguments over rightly is tested.

mod shared;
mod sys;

pub use shared::{LockedName, LockedSymbol, SharedInterner, SharedSymbol};

use std::ffi::c_char;
use std::fmt;
use std::iter::FusedIterator;
use std::num::NonZeroU64;

/// Why a call was refused. It has changed nothing then, but that a table may keep room: see [`Interner::reserve`].
#[derive(Clone, Copy, Debug, PartialEq, Eq, Hash)]
#[non_exhaustive]
pub enum Fault {
    /// There is no memory.
    Memory,
    /// The name has as many holders as the limits allow.
    FullCount,
    /// The bucket of the name has no ticket left.
    TicketsSpent,
    /// The interner holds no such symbol.
    NotHeld,
    /// A limit, or the number of buckets, is out of range.
    NotLimits,
    /// The system gave no random bytes for the interner's key.
    Random,
    /// The library answered a number that these calls have no use for.
    Other(u32),
}

impl Fault {
    fn of(number: u32) -> Fault {
        match number {
            sys::NO_MEMORY => Fault::Memory,
            sys::FULL_COUNT => Fault::FullCount,
            sys::TICKETS_SPENT => Fault::TicketsSpent,
            sys::NOT_HELD => Fault::NotHeld,
            sys::NOT_LIMITS => Fault::NotLimits,
            sys::NO_RANDOM => Fault::Random,
            other => Fault::Other(other),
        }
    }
}

impl fmt::Display for Fault {
    fn fmt(&self, out: &mut fmt::Formatter<'_>) -> fmt::Result {
        match self {
            Fault::Memory => out.write_str("there is no memory"),
            Fault::FullCount => out.write_str("the name has as many holders as the limits allow"),
            Fault::TicketsSpent => out.write_str("the bucket of the name has no ticket left"),
            Fault::NotHeld => out.write_str("the interner holds no such symbol"),
            Fault::NotLimits => out.write_str("a limit or the number of buckets is out of range"),
            Fault::Random => out.write_str("the system gave no random bytes"),
            Fault::Other(number) => write!(out, "the library answered {number}"),
        }
    }
}

impl std::error::Error for Fault {}

/// `Ok` if the library answered that all is done.
fn done(number: u32) -> Result<(), Fault> {
    match number {
        sys::OK => Ok(()),
        refused => Err(Fault::of(refused)),
    }
}

/// What stands for a name. Two symbols of one interner are equal exactly if their names are; their order is that of their words.
#[derive(Clone, Copy, PartialEq, Eq, PartialOrd, Ord, Hash)]
pub struct Symbol(NonZeroU64);

impl Symbol {
    /// The symbol with this word, as [`Symbol::word`] told it. Any number is safe: an interner has a text for what it holds, and for nothing else.
    pub const fn from_word(word: u64) -> Option<Symbol> {
        match NonZeroU64::new(word) {
            Some(word) => Some(Symbol(word)),
            None => None,
        }
    }

    /// Its word, the number that stands for the name in its interner.
    pub const fn word(self) -> u64 {
        self.0.get()
    }

    /// The bytes of a name of at most 7, as `inline_text` lends it.
    #[inline]
    pub fn inline_bytes(&self) -> Option<&[u8]> {
        self.inline_text().map(str::as_bytes)
    }

    /// A name of at most 7 bytes, lent from the symbol in which it lies. `None` of any other symbol, also of one that no interner gives.
    ///
    /// ```
    /// use interned_names::Interner;
    ///
    /// let mut names = Interner::new()?;
    /// assert_eq!(names.intern("short")?.inline_text(), Some("short"));
    /// assert_eq!(names.intern("a longer name")?.inline_text(), None);
    /// # Ok::<(), interned_names::Fault>(())
    /// ```
    #[inline]
    pub fn inline_text(&self) -> Option<&str> {
        // SAFETY: a symbol is eight bytes, and any eight bytes are an array of them.
        let [head, bytes @ ..] = unsafe { &*(&self.0 as *const NonZeroU64).cast::<[u8; 8]>() };
        let name = match head & TAG_MASK == INLINE_TAG {
            true => bytes.get(..usize::from(head >> LENGTH_SHIFT))?,
            false => return None,
        };
        let behind = self.word().checked_shr(8 * (name.len() as u32 + 1)).unwrap_or(0);
        // The word tells sooner than the name that all is ASCII, as in most names.
        let is_text = self.word() & NOT_ASCII == 0 || std::str::from_utf8(name).is_ok();
        // SAFETY: the bytes are UTF-8, as was just seen.
        (behind == 0 && is_text).then(|| unsafe { std::str::from_utf8_unchecked(name) })
    }
}

// The low byte of an inline text's word, which has its tag and its length, is the first in memory, since the library is for x86-64.
const TAG_MASK: u8 = 15;
const INLINE_TAG: u8 = 1;
const LENGTH_SHIFT: u32 = 4;
/// In each byte the bit that no letter of ASCII has, nor the first byte of a word of an inline text.
const NOT_ASCII: u64 = 0x8080_8080_8080_8080;

impl fmt::Debug for Symbol {
    fn fmt(&self, out: &mut fmt::Formatter<'_>) -> fmt::Result {
        write!(out, "Symbol({:#x})", self.0)
    }
}

/// Interned names. What takes `&self` only reads, so threads may share an interner to look up names.
pub struct Interner {
    /// The table is open from `new` to `drop`. Only calls of the library change it, none of which calls back.
    table: sys::Table,
}

// SAFETY: a table's memory is of malloc, which any thread may free, and it keeps nothing that belongs to a thread.
unsafe impl Send for Interner {}

// SAFETY: each call of the library that is made with `&self` takes a `const sc_table`, and any number of those may run at a time.
unsafe impl Sync for Interner {}

impl Interner {
    /// An interner in which nothing is held. It finds names by a hash under a key of its own, which is drawn here, so names that somebody chose
    /// cost no more than others. [`Fault::Random`] and [`Fault::Memory`].
    pub fn new() -> Result<Interner, Fault> {
        let mut table = sys::Table::CLOSED;
        // SAFETY: the table is closed, and ours.
        done(unsafe { sys::sc_open(&mut table) })?;
        Ok(Interner { table })
    }

    /// An interner with limits: each name has at most so many holders, from 1 to 2^63 - 1, and each of 2 to the power of `bucket_bits`
    /// buckets gives so many tickets, from 1 to 2^48 - 1. The bits are 0 to 14. [`Fault::Random`], [`Fault::NotLimits`] outside these ranges,
    /// and [`Fault::Memory`].
    pub fn with_limits(holders: u64, tickets: u64, bucket_bits: u8) -> Result<Interner, Fault> {
        let mut table = sys::Table::CLOSED;
        // SAFETY: the table is closed, and ours.
        done(unsafe { sys::sc_open_with(&mut table, holders, tickets, bucket_bits) })?;
        Ok(Interner { table })
    }

    /// The same under a given key, for runs that take the same steps each time. Symbols are the same under every key. Whoever knows it can choose
    /// names that slow the interner down. [`Fault::NotLimits`] and [`Fault::Memory`].
    pub fn with_key(holders: u64, tickets: u64, bucket_bits: u8, [low, high]: [u64; 2]) -> Result<Interner, Fault> {
        let mut table = sys::Table::CLOSED;
        // SAFETY: the table is closed, and ours.
        done(unsafe { sys::sc_open_keyed(&mut table, holders, tickets, bucket_bits, sys::Key { low, high }) })?;
        Ok(Interner { table })
    }

    /// The symbol of a name, with one holder more.
    ///
    /// [`Fault::Memory`], and under limits [`Fault::FullCount`] and [`Fault::TicketsSpent`]; none of them for a name of at most 7 bytes.
    pub fn intern(&mut self, name: &str) -> Result<Symbol, Fault> {
        let mut word = 0;
        // SAFETY: the name has so many bytes, and the table is used by nobody else.
        done(unsafe { sys::sc_intern(&mut self.table, text_of(name), name.len(), &mut word) })?;
        Symbol::from_word(word).ok_or(Fault::Other(sys::OK))
    }

    /// The symbol of a name that has one: names of at most 7 bytes always do. It gets no holder more.
    pub fn get(&self, name: &str) -> Option<Symbol> {
        let mut word = 0;
        // SAFETY: the name has so many bytes, and nobody writes the table.
        match unsafe { sys::sc_get(&self.table, text_of(name), name.len(), &mut word) } {
            sys::OK => Symbol::from_word(word),
            _ => None,
        }
    }

    /// The text of a symbol, which is its name. `None` if it isn't held.
    pub fn text(&self, symbol: Symbol) -> Option<String> {
        let mut text = String::new();
        self.text_into(symbol, &mut text).then_some(text)
    }

    /// Puts the text of a symbol in place of another, whose memory it takes over. Whether it is held: the text is empty if it isn't.
    pub fn text_into(&self, symbol: Symbol, text: &mut String) -> bool {
        let mut room = std::mem::take(text).into_bytes();
        room.clear();
        room.reserve(32);
        let mut copied = self.copy_text(symbol, &mut room);
        if let Err((sys::TOO_SMALL, length)) = copied {
            room.reserve(length);
            copied = self.copy_text(symbol, &mut room);
        }
        *text = String::from_utf8(room).unwrap_or_default();
        copied.is_ok()
    }

    /// The former name of [`Interner::text`].
    #[deprecated(since = "0.1.2", note = "it is `text` now")]
    pub fn resolve(&self, symbol: Symbol) -> Option<String> {
        self.text(symbol)
    }

    /// The former name of [`Interner::text_into`].
    #[deprecated(since = "0.1.2", note = "it is `text_into` now")]
    pub fn resolve_into(&self, symbol: Symbol, name: &mut String) -> bool {
        self.text_into(symbol, name)
    }

    /// Makes the text of a symbol all that the room has, if its memory is enough for it. The number of the refusal and the length otherwise.
    ///
    /// The memory isn't filled before: if a long text was once there, that would take as long for each text that comes after it.
    fn copy_text(&self, symbol: Symbol, room: &mut Vec<u8>) -> Result<(), (u32, usize)> {
        let mut length = 0;
        let front = room.as_mut_ptr().cast::<c_char>();
        // SAFETY: the room has memory for so many bytes, which the call writes and never reads, and nobody writes the table.
        match unsafe { sys::sc_text(&self.table, symbol.word(), front, room.capacity(), &mut length) } {
            sys::OK => {
                // SAFETY: a call that says OK has written so many bytes to the front, and no more than there is memory for.
                unsafe { room.set_len(length) };
                Ok(())
            }
            refused => Err((refused, length)),
        }
    }

    /// Whether a symbol is held: that of a name of at most 7 bytes always is.
    pub fn contains(&self, symbol: Symbol) -> bool {
        // SAFETY: nobody writes the table. The same holds for each call that takes `&self` below.
        unsafe { sys::sc_holds(&self.table, symbol.word()) }
    }

    /// How many holders the name of a symbol has. `None` if it isn't held, and for a name of at most 7 bytes.
    pub fn holders(&self, symbol: Symbol) -> Option<u64> {
        let mut holders = 0;
        match unsafe { sys::sc_holders(&self.table, symbol.word(), &mut holders) } {
            sys::OK => Some(holders),
            _ => None,
        }
    }

    /// One holder more of a symbol. [`Fault::NotHeld`], and under limits [`Fault::FullCount`].
    pub fn hold(&mut self, symbol: Symbol) -> Result<(), Fault> {
        // SAFETY: the table is used by nobody else. The same holds for each call that takes `&mut self` below.
        done(unsafe { sys::sc_clone(&mut self.table, symbol.word()) })
    }

    /// One holder less of a symbol: with the last one its name goes. Whether it was held.
    pub fn release(&mut self, symbol: Symbol) -> bool {
        unsafe { sys::sc_give(&mut self.table, symbol.word()) == sys::OK }
    }

    /// How many names of more than 7 bytes are held.
    pub fn len(&self) -> usize {
        unsafe { sys::sc_entries(&self.table) }
    }

    /// Whether no name of more than 7 bytes is held.
    pub fn is_empty(&self) -> bool {
        self.len() == 0
    }

    /// How many bytes the names of more than 7 bytes have together.
    pub fn text_bytes(&self) -> u64 {
        unsafe { sys::sc_text_bytes(&self.table) }
    }

    /// How many bytes of memory the table has asked for and still holds. A name that goes gives its bytes back, and its place stays until the
    /// interner goes. The `Interner` itself isn't counted.
    pub fn memory(&self) -> u64 {
        unsafe { sys::sc_memory(&self.table) }
    }

    /// Takes all names away. No symbol that was given comes again.
    pub fn clear(&mut self) {
        // An open table refuses no clear.
        unsafe { sys::sc_clear(&mut self.table) };
    }

    /// Makes room for so many names more. [`Fault::Memory`]: the names are as they were then, and so they are if [`Interner::intern`] finds no memory
    /// while the table grows. The room that it got before it was refused may stay for later names, and [`Interner::memory`] may tell more.
    pub fn reserve(&mut self, more: usize) -> Result<(), Fault> {
        done(unsafe { sys::sc_reserve(&mut self.table, more) })
    }

    /// The names of more than 7 bytes with their symbols, in the order in which they came. If a name goes, the last one comes in its
    /// place.
    pub fn iter(&self) -> Iter<'_> {
        Iter { names: self, place: 0 }
    }

    /// The symbol at a place of that order.
    fn at(&self, place: usize) -> Option<Symbol> {
        let (mut word, mut holders) = (0, 0);
        match unsafe { sys::sc_entry(&self.table, place, &mut word, &mut holders) } {
            sys::OK => Symbol::from_word(word),
            _ => None,
        }
    }
}

impl Drop for Interner {
    fn drop(&mut self) {
        // SAFETY: the table is ours, and nobody uses it afterwards.
        unsafe { sys::sc_close(&mut self.table) };
    }
}

impl fmt::Debug for Interner {
    fn fmt(&self, out: &mut fmt::Formatter<'_>) -> fmt::Result {
        out.debug_map().entries(self).finish()
    }
}

/// What [`Interner::iter`] goes over.
#[derive(Clone)]
pub struct Iter<'a> {
    names: &'a Interner,
    place: usize,
}

impl Iterator for Iter<'_> {
    type Item = (Symbol, String);

    fn next(&mut self) -> Option<(Symbol, String)> {
        let symbol = self.names.at(self.place)?;
        self.place += 1;
        Some((symbol, self.names.text(symbol)?))
    }

    fn size_hint(&self) -> (usize, Option<usize>) {
        let left = self.names.len() - self.place;
        (left, Some(left))
    }
}

impl ExactSizeIterator for Iter<'_> {}

impl FusedIterator for Iter<'_> {}

impl<'a> IntoIterator for &'a Interner {
    type Item = (Symbol, String);
    type IntoIter = Iter<'a>;

    fn into_iter(self) -> Iter<'a> {
        self.iter()
    }
}

/// The three parts of a text's hash: SipHash-1-3 with 128 bits.
#[derive(Clone, Copy, Debug, PartialEq, Eq, Hash)]
pub struct Hashes {
    /// The high half of the first 64 bits, by which a bucket of displacements is found.
    pub g: u32,
    /// The low half of the first 64 bits.
    pub f1: u32,
    /// The low half of the second 64 bits.
    pub f2: u32,
}

/// The hash of a text under a key.
pub fn hashes_of(text: &str, key: u64) -> Hashes {
    let mut found = sys::Hashes { g: 0, f1: 0, f2: 0 };
    // SAFETY: the text has so many bytes. A `str` is never refused.
    unsafe { sys::sc_hash(text_of(text), text.len(), key, &mut found) };
    Hashes { g: found.g, f1: found.f1, f2: found.f2 }
}

/// Where a text begins, as C has it.
fn text_of(text: &str) -> *const c_char {
    text.as_ptr().cast()
}
