//! The atom.

use crate::dynamic_set::{self, Entry};
use crate::shape::{self, TextHash};
use crate::static_sets::StaticAtomSet;
use interned_names::{hashes_of, Symbol};
use std::borrow::Cow;
use std::cmp::Ordering;
use std::fmt;
use std::hash::{Hash, Hasher};
use std::marker::PhantomData;
use std::ops::Deref;
use std::sync::Arc;

const INLINE_TAG: u64 = 1;
const STATIC_TAG: u64 = 2;
const MOST_INLINE: usize = 7;

/// An interned text: up to 7 bytes it lies in the atom, a text of the static type is an index, and any other is shared by all its atoms.
///
/// Equality is derived, so that a constant that macros packed can stand in a `match`.
#[derive(PartialEq, Eq)]
pub struct Atom<Static> {
    /// What stands for the text: of an inline one its bytes.
    symbol: Symbol,
    /// What atoms of a dynamic text share; none in others.
    entry: Option<Arc<Entry>>,
    phantom: PhantomData<Static>,
}

impl<Static> Atom<Static> {
    /// The atom of the static text with this index, for macros that know that there is one.
    #[doc(hidden)]
    pub const fn pack_static(n: u32) -> Self {
        Self::of_word((n as u64) << 32 | STATIC_TAG)
    }

    /// The atom of an inline text, whose bytes stand in the number from its second byte on, for macros.
    #[doc(hidden)]
    pub const fn pack_inline(n: u64, len: u8) -> Self {
        Self::of_word(n | (len as u64) << 4 | INLINE_TAG)
    }

    /// The atom of a text that isn't shared.
    const fn of_word(word: u64) -> Self {
        match Symbol::from_word(word) {
            Some(symbol) => Atom { symbol, entry: None, phantom: PhantomData },
            None => panic!("a word has a tag"),
        }
    }

    fn dynamic(entry: Arc<Entry>) -> Self {
        Atom { symbol: entry.symbol, entry: Some(entry), phantom: PhantomData }
    }

    #[inline]
    fn word(&self) -> u64 {
        self.symbol.word()
    }

    #[inline]
    fn static_index(&self) -> usize {
        (self.word() >> 32) as usize
    }
}

impl<Static: StaticAtomSet> Atom<Static> {
    /// Its word. The words of equal texts are equal, and those of texts that differ aren't, as long as atoms of both live.
    #[doc(hidden)]
    pub fn unsafe_data(&self) -> u64 {
        self.word()
    }

    /// Whether its text is one of the static type.
    #[inline]
    pub fn is_static(&self) -> bool {
        self.word() & 3 == STATIC_TAG
    }

    /// Whether its text is shared by all its atoms.
    #[inline]
    pub fn is_dynamic(&self) -> bool {
        self.entry.is_some()
    }

    /// Whether its text lies in the atom.
    #[inline]
    pub fn is_inline(&self) -> bool {
        self.word() & 3 == INLINE_TAG
    }

    /// A hash of its text: of an inline one its word, or both halves of it together.
    pub fn get_hash(&self) -> TextHash {
        match &self.entry {
            Some(entry) => entry.hash,
            None if self.is_static() => Static::get().hashes[self.static_index()],
            None => shape::hash_of_word(self.word()),
        }
    }

    /// The atom of a text of the static type.
    pub fn try_static(string_to_add: &str) -> Option<Self> {
        let hashes = hashes_of(string_to_add, Static::get().key);
        Static::get().index_of(string_to_add, hashes).map(Self::pack_static)
    }

    /// The atom of a text that lies in its word.
    fn inline(text: &str) -> Option<Self> {
        inline_data(text).map(|data| Self::pack_inline(data, text.len() as u8))
    }

    /// Its text.
    #[inline]
    pub fn as_str(&self) -> &str {
        self
    }

    /// The bytes of its text.
    #[inline]
    pub fn as_bytes(&self) -> &[u8] {
        match &self.entry {
            Some(entry) => entry.text.as_bytes(),
            None if self.is_static() => Static::get().atoms[self.static_index()].as_bytes(),
            // Only pack_inline, which trusts its caller, can have made one of no text.
            None => self.symbol.inline_bytes().expect("an inline text"),
        }
    }

    /// The place of an inline text among all such, in order: its bytes, with zeros for those that it doesn't have, and then its length.
    #[inline]
    fn inline_place(&self) -> u64 {
        self.word().swap_bytes().rotate_left(8)
    }

    /// The atom of its text with the letters a to z in capitals.
    pub fn to_ascii_uppercase(&self) -> Self {
        if self.bytes().any(|byte| byte.is_ascii_lowercase()) {
            return Atom::from(str::to_ascii_uppercase(self));
        }
        self.clone()
    }

    /// The atom of its text with the letters A to Z in small ones.
    pub fn to_ascii_lowercase(&self) -> Self {
        if self.bytes().any(|byte| byte.is_ascii_uppercase()) {
            return Atom::from(str::to_ascii_lowercase(self));
        }
        self.clone()
    }

    /// Whether two texts are the same but for the case of their letters a to z.
    pub fn eq_ignore_ascii_case(&self, other: &Self) -> bool {
        self == other || self.eq_str_ignore_ascii_case(other)
    }

    /// Whether its text is this one but for the case of their letters a to z.
    pub fn eq_str_ignore_ascii_case(&self, other: &str) -> bool {
        str::eq_ignore_ascii_case(self, other)
    }
}

/// What `pack_inline` takes of a text of at most 7 bytes.
fn inline_data(text: &str) -> Option<u64> {
    (text.len() <= MOST_INLINE).then(|| text.bytes().rev().fold(0, |data, byte| (data | u64::from(byte)) << 8))
}

impl<'a, Static: StaticAtomSet> From<Cow<'a, str>> for Atom<Static> {
    fn from(string_to_add: Cow<'a, str>) -> Self {
        let text = &*string_to_add;
        if let (false, Some(inline)) = (shape::STATIC_BEFORE_INLINE, Self::inline(text)) {
            return inline;
        }
        let hashes = hashes_of(text, Static::get().key);
        match Static::get().index_of(text, hashes) {
            Some(index) => Self::pack_static(index),
            None => Self::inline(text).unwrap_or_else(|| Self::dynamic(dynamic_set::intern(text, hashes))),
        }
    }
}

impl<Static: StaticAtomSet> Deref for Atom<Static> {
    type Target = str;

    #[inline]
    fn deref(&self) -> &str {
        match &self.entry {
            Some(entry) => &entry.text,
            None if self.is_static() => Static::get().atoms[self.static_index()],
            // Only pack_inline, which trusts its caller, can have made another.
            None => self.symbol.inline_text().expect("an inline text"),
        }
    }
}

impl<Static: StaticAtomSet> Clone for Atom<Static> {
    #[inline]
    fn clone(&self) -> Self {
        Atom { symbol: self.symbol, entry: self.entry.clone(), phantom: PhantomData }
    }
}

impl<Static: StaticAtomSet> PartialOrd for Atom<Static> {
    #[inline]
    fn partial_cmp(&self, other: &Self) -> Option<Ordering> {
        Some(self.cmp(other))
    }
}

impl<Static: StaticAtomSet> Ord for Atom<Static> {
    #[inline]
    fn cmp(&self, other: &Self) -> Ordering {
        match (&self.entry, &other.entry) {
            (Some(one), Some(two)) if Arc::ptr_eq(one, two) => Ordering::Equal,
            (None, None) if self.is_inline() && other.is_inline() => self.inline_place().cmp(&other.inline_place()),
            (None, None) if self.symbol == other.symbol => Ordering::Equal,
            _ => self.as_bytes().cmp(other.as_bytes()),
        }
    }
}

impl<Static: StaticAtomSet> Hash for Atom<Static> {
    fn hash<H: Hasher>(&self, state: &mut H) {
        shape::write_hash(self.get_hash(), state);
    }
}

impl<Static: StaticAtomSet> Default for Atom<Static> {
    fn default() -> Self {
        shape::empty()
    }
}

impl<Static: StaticAtomSet> fmt::Debug for Atom<Static> {
    fn fmt(&self, out: &mut fmt::Formatter<'_>) -> fmt::Result {
        let form = match (self.is_dynamic(), self.is_static()) {
            (true, _) => "dynamic",
            (_, true) => "static",
            _ => "inline",
        };
        write!(out, "Atom('{self}' type={form})")
    }
}
