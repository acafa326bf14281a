//! Interned names that threads share: tables, each behind a lock, and each name in the table that its hash chooses.

use crate::{done, hashes_of, sys, text_of, Fault, Hashes, Interner, Symbol};
use std::ffi::c_char;
use std::fmt;
use std::hash::{Hash, Hasher};
use std::ptr;
use std::sync::{Mutex, MutexGuard, PoisonError};

/// Bytes of a name that lies in its symbol.
const MOST_INLINE: usize = 7;
/// Bits of a word that are zero in a ticket.
const TAG_BITS: u32 = 2;
/// Bits of shard and bucket together.
const MOST_BITS: u8 = 14;
const USUAL_SHARD_BITS: u8 = 6;
const USUAL_BUCKET_BITS: u8 = 6;
const MOST_HOLDERS: u64 = (1 << 63) - 1;
const MOST_TICKETS: u64 = (1 << 48) - 1;

/// A table and what a program keeps beside it, behind their lock, in a line of the cache of its own.
#[repr(align(64))]
struct Shard<Beside>(Mutex<(Interner, Beside)>);

/// The interned names of many threads.
///
/// ```
/// use interned_names::SharedInterner;
///
/// let names = SharedInterner::new()?;
/// let (first, second) = std::thread::scope(|scope| {
///     let one = scope.spawn(|| names.intern("a longer name"));
///     let other = scope.spawn(|| names.intern("a longer name"));
///     (one.join().expect("a thread"), other.join().expect("a thread"))
/// });
/// assert_eq!(first?, second?);
/// assert!(names.is_empty());
/// # Ok::<(), interned_names::Fault>(())
/// ```
///
/// Some number of tables, each behind a lock: a name is in the one that its hash chooses, and a call waits only for calls with names of the same
/// one. A name of at most 7 bytes lies in its symbol and takes no lock.
///
/// A ticket is `serial * 2^16 + bucket * 4` with 14 bits for the bucket. A table of `2^b` buckets leaves the upper `14 - b` of them zero, and the
/// number of the shard stands there: so the words of two shards differ, and a word tells its shard.
///
/// `Beside` is what a program keeps of the names of each shard under the same lock: see [`SharedInterner::lock_name`].
pub struct SharedInterner<Beside = ()> {
    /// A power of two of them.
    shards: Vec<Shard<Beside>>,
    /// How many bits of a word stand below its shard.
    shift: u32,
}

impl SharedInterner {
    /// An interner in which nothing is held, with 64 shards of 64 buckets each. [`Fault::Random`], and [`Fault::Memory`] if it finds none.
    pub fn new() -> Result<SharedInterner, Fault> {
        SharedInterner::with_limits(USUAL_SHARD_BITS, MOST_HOLDERS, MOST_TICKETS, USUAL_BUCKET_BITS)
    }

    /// The symbol of a name. It is one holder of it, until it is dropped.
    ///
    /// [`Fault::Memory`], and under limits [`Fault::FullCount`] and [`Fault::TicketsSpent`]; none of them for a name of at most 7 bytes.
    pub fn intern(&self, name: &str) -> Result<SharedSymbol<'_>, Fault> {
        let symbol = match inline_symbol(name) {
            Some(inline) => inline,
            None => self.lock_name(name).intern()?,
        };
        Ok(SharedSymbol { names: self, symbol })
    }

    /// The symbol of a name that has one: names of at most 7 bytes always do. [`Fault::FullCount`] under limits, since it is one holder more.
    pub fn try_get(&self, name: &str) -> Result<Option<SharedSymbol<'_>>, Fault> {
        let found = match inline_symbol(name) {
            Some(inline) => Some(inline),
            None => {
                let mut locked = self.lock_name(name);
                locked.get().map(|_| locked.intern()).transpose()?
            }
        };
        Ok(found.map(|symbol| SharedSymbol { names: self, symbol }))
    }

    /// The former name of [`SharedInterner::try_get`].
    #[deprecated(since = "0.1.2", note = "it is `try_get` now, since `get` of an `Interner` is never refused")]
    pub fn get(&self, name: &str) -> Result<Option<SharedSymbol<'_>>, Fault> {
        self.try_get(name)
    }
}

impl<Beside: Default> SharedInterner<Beside> {
    /// An interner of 2 to the power of `shard_bits` shards. Their tables have the limits and buckets of [`Interner::with_limits`]; the two
    /// numbers of bits have a sum of at most 14. [`Fault::NotLimits`] outside these ranges, [`Fault::Random`], and [`Fault::Memory`].
    pub fn with_limits(shard_bits: u8, holders: u64, tickets: u64, bucket_bits: u8) -> Result<Self, Fault> {
        if shard_bits > MOST_BITS || bucket_bits > MOST_BITS - shard_bits {
            return Err(Fault::NotLimits);
        }
        let mut shards = Vec::new();
        shards.try_reserve_exact(1 << shard_bits).map_err(|_| Fault::Memory)?;
        for _ in 0..1 << shard_bits {
            let table = Interner::with_limits(holders, tickets, bucket_bits)?;
            shards.push(Shard(Mutex::new((table, Beside::default()))));
        }
        Ok(SharedInterner { shards, shift: TAG_BITS + u32::from(bucket_bits) })
    }
}

impl<Beside> SharedInterner<Beside> {
    /// Locks the shard of a name.
    pub fn lock_name<'a>(&'a self, name: &'a str) -> LockedName<'a, Beside> {
        self.lock_hashed(name, hashes_of(name, 0))
    }

    /// Locks the shard that these hashes choose, for a program that has them already. A name is told from another by its text and its shard: one that
    /// comes with other hashes may have another symbol.
    pub fn lock_hashed<'a>(&'a self, name: &'a str, hashes: Hashes) -> LockedName<'a, Beside> {
        let shard = hashes.g as usize & (self.shards.len() - 1);
        LockedName { name, place: (shard as u64) << self.shift, inside: self.enter(shard) }
    }

    /// Locks the shard of a symbol. Any symbol is safe: what isn't held is answered so.
    pub fn lock_symbol(&self, symbol: Symbol) -> LockedSymbol<'_, Beside> {
        let mask = if is_ticket(symbol) { self.shards.len() as u64 - 1 } else { 0 };
        let shard = symbol.word() >> self.shift & mask;
        let own = Symbol::from_word(symbol.word() & !(mask << self.shift));
        LockedSymbol { own, inside: self.enter(shard as usize) }
    }

    /// A thread that panicked in a shard has left its table whole: each call has changed all or nothing.
    fn enter(&self, shard: usize) -> MutexGuard<'_, (Interner, Beside)> {
        self.shards[shard].0.lock().unwrap_or_else(PoisonError::into_inner)
    }

    /// Adds up what each table tells, under its lock: other threads may change one meanwhile.
    fn sum_of(&self, told: impl Fn(&Interner) -> u64) -> u64 {
        (0..self.shards.len()).map(|shard| told(&self.enter(shard).0)).sum()
    }

    /// How many names of more than 7 bytes are held, counted shard by shard.
    pub fn len(&self) -> usize {
        self.sum_of(|table| table.len() as u64) as usize
    }

    /// Whether no name of more than 7 bytes is held.
    pub fn is_empty(&self) -> bool {
        self.len() == 0
    }

    /// How many bytes the names of more than 7 bytes have together, counted shard by shard.
    pub fn text_bytes(&self) -> u64 {
        self.sum_of(Interner::text_bytes)
    }

    /// How many bytes of memory the tables have asked for and still hold, with those of the shards, counted shard by shard.
    pub fn memory(&self) -> u64 {
        self.sum_of(Interner::memory) + (self.shards.capacity() * std::mem::size_of::<Shard<Beside>>()) as u64
    }
}

impl<Beside> fmt::Debug for SharedInterner<Beside> {
    fn fmt(&self, out: &mut fmt::Formatter<'_>) -> fmt::Result {
        write!(out, "SharedInterner({} names)", self.len())
    }
}

/// A name, while this thread has the lock of its shard. No other call with the interner is made before it ends, since that may wait for it.
pub struct LockedName<'a, Beside> {
    name: &'a str,
    /// The number of the shard, where a word has it.
    place: u64,
    inside: MutexGuard<'a, (Interner, Beside)>,
}

impl<Beside> LockedName<'_, Beside> {
    /// As [`Interner::get`]: the name gets no holder more.
    pub fn get(&self) -> Option<Symbol> {
        self.inside.0.get(self.name).map(|own| self.placed(own))
    }

    /// As [`Interner::intern`]: the name gets one holder more, which [`LockedSymbol::release`] takes off.
    pub fn intern(&mut self) -> Result<Symbol, Fault> {
        let own = self.inside.0.intern(self.name)?;
        Ok(self.placed(own))
    }

    /// What is kept beside the names of this shard.
    pub fn beside(&mut self) -> &mut Beside {
        &mut self.inside.1
    }

    /// A symbol of the table as one of all shards.
    fn placed(&self, own: Symbol) -> Symbol {
        match is_ticket(own) {
            true => Symbol(own.0 | self.place),
            false => own,
        }
    }
}

/// A symbol, while this thread has the lock of its shard. No other call with the interner is made before it ends, since that may wait for it.
pub struct LockedSymbol<'a, Beside> {
    /// As the table has it; none if nothing is left without the shard.
    own: Option<Symbol>,
    inside: MutexGuard<'a, (Interner, Beside)>,
}

impl<Beside> LockedSymbol<'_, Beside> {
    /// As [`Interner::text`].
    pub fn text(&self) -> Option<String> {
        self.inside.0.text(self.own?)
    }

    /// The former name of [`LockedSymbol::text`].
    #[deprecated(since = "0.1.2", note = "it is `text` now")]
    pub fn resolve(&self) -> Option<String> {
        self.text()
    }

    /// As [`Interner::contains`].
    pub fn is_held(&self) -> bool {
        self.own.is_some_and(|own| self.inside.0.contains(own))
    }

    /// As [`Interner::holders`].
    pub fn holders(&self) -> Option<u64> {
        self.inside.0.holders(self.own?)
    }

    /// As [`Interner::hold`].
    pub fn hold(&mut self) -> Result<(), Fault> {
        self.own.map_or(Err(Fault::NotHeld), |own| self.inside.0.hold(own))
    }

    /// As [`Interner::release`]: takes off a holder that [`LockedName::intern`] or [`LockedSymbol::hold`] counted. More calls than these take off
    /// that of a [`SharedSymbol`], which says what is left of it.
    pub fn release(&mut self) -> bool {
        self.own.is_some_and(|own| self.inside.0.release(own))
    }

    /// What is kept beside the names of this shard.
    pub fn beside(&mut self) -> &mut Beside {
        &mut self.inside.1
    }
}

/// One holder of a name in a [`SharedInterner`], which it knows: a clone is one holder more, and the drop gives its own back. Two symbols are equal
/// exactly if they are of one interner and their names are equal.
///
/// Its name is held until it is dropped, unless [`LockedSymbol::release`] takes off more holders than were counted by hand. That is safe, but if the
/// last holder goes in this way, the symbol stands for nothing from then on: [`SharedSymbol::text`] is empty, [`SharedSymbol::holders`] is `None`,
/// [`SharedSymbol::try_clone`] is [`Fault::NotHeld`], a clone panics, and the drop does nothing. It never stands for another name, and it isn't
/// equal to the symbol of its name if that is interned again.
pub struct SharedSymbol<'a> {
    names: &'a SharedInterner,
    symbol: Symbol,
}

impl<'a> SharedSymbol<'a> {
    /// The text, which is the name, as a copy. It is empty if the last holder was [released](LockedSymbol::release) from below the symbol.
    pub fn text(&self) -> String {
        match is_ticket(self.symbol) {
            true => self.names.lock_symbol(self.symbol).text(),
            false => inline_name(self.symbol),
        }
        .unwrap_or_default()
    }

    /// The former name of [`SharedSymbol::text`].
    #[deprecated(since = "0.1.2", note = "it is `text` now")]
    pub fn name(&self) -> String {
        self.text()
    }

    /// What stands for the name in its interner.
    pub fn symbol(&self) -> Symbol {
        self.symbol
    }

    /// The number that stands for the name in its interner, as [`Symbol::word`] tells it.
    pub fn word(&self) -> u64 {
        self.symbol.word()
    }

    /// The interner.
    pub fn interner(&self) -> &'a SharedInterner {
        self.names
    }

    /// How many holders the name has at this moment. `None` for one of at most 7 bytes, and if the last was [released](LockedSymbol::release).
    pub fn holders(&self) -> Option<u64> {
        is_ticket(self.symbol).then(|| self.names.lock_symbol(self.symbol).holders()).flatten()
    }

    /// One holder more. [`Fault::FullCount`] under limits, and [`Fault::NotHeld`] if the last was [released](LockedSymbol::release).
    pub fn try_clone(&self) -> Result<SharedSymbol<'a>, Fault> {
        if is_ticket(self.symbol) {
            self.names.lock_symbol(self.symbol).hold()?;
        }
        Ok(SharedSymbol { ..*self })
    }
}

/// Panics if [`SharedSymbol::try_clone`] answers a fault: the limits allow no holder more, or the last was released.
impl Clone for SharedSymbol<'_> {
    fn clone(&self) -> Self {
        self.try_clone().expect("one holder more")
    }
}

impl Drop for SharedSymbol<'_> {
    fn drop(&mut self) {
        if is_ticket(self.symbol) {
            self.names.lock_symbol(self.symbol).release();
        }
    }
}

impl PartialEq for SharedSymbol<'_> {
    fn eq(&self, other: &Self) -> bool {
        self.symbol == other.symbol && ptr::eq(self.names, other.names)
    }
}

impl Eq for SharedSymbol<'_> {}

impl Hash for SharedSymbol<'_> {
    fn hash<H: Hasher>(&self, state: &mut H) {
        self.symbol.hash(state);
    }
}

impl fmt::Debug for SharedSymbol<'_> {
    fn fmt(&self, out: &mut fmt::Formatter<'_>) -> fmt::Result {
        fmt::Debug::fmt(&self.text(), out)
    }
}

impl fmt::Display for SharedSymbol<'_> {
    fn fmt(&self, out: &mut fmt::Formatter<'_>) -> fmt::Result {
        out.pad(&self.text())
    }
}

/// Whether a symbol's name is in a table, and not in the symbol.
fn is_ticket(symbol: Symbol) -> bool {
    symbol.word() >> TAG_BITS << TAG_BITS == symbol.word()
}

/// The symbol of a name of at most 7 bytes.
fn inline_symbol(name: &str) -> Option<Symbol> {
    let mut word = 0;
    // SAFETY: the name has so many bytes.
    let packed = name.len() <= MOST_INLINE && done(unsafe { sys::sc_pack(text_of(name), name.len(), &mut word) }).is_ok();
    packed.then_some(word).and_then(Symbol::from_word)
}

/// The name that lies in a symbol.
fn inline_name(symbol: Symbol) -> Option<String> {
    let (mut room, mut length) = ([0u8; MOST_INLINE], 0);
    // SAFETY: the room has so many bytes.
    done(unsafe { sys::sc_unpack(symbol.word(), room.as_mut_ptr().cast::<c_char>(), room.len(), &mut length) }).ok()?;
    std::str::from_utf8(room.get(..length)?).ok().map(str::to_owned)
}
