//! What `string_cache` 0.11 and 0.8 do differently, as 0.11 does it: hashes of 64 bits, a text of at most 7 bytes is inline, even if it is
//! listed, and an atom is lent as its bytes, too.

use crate::atom::Atom;
use crate::static_sets::StaticAtomSet;
use interned_names::Hashes;
use std::hash::Hasher;

impl<Static: StaticAtomSet> AsRef<[u8]> for Atom<Static> {
    fn as_ref(&self) -> &[u8] {
        self.as_bytes()
    }
}

/// What `get_hash` answers.
pub(crate) type TextHash = u64;

/// Whether a text that is listed is static, even if it has at most 7 bytes.
pub(crate) const STATIC_BEFORE_INLINE: bool = false;

/// The hash of a text that is in no word.
pub(crate) fn hash_of_text(hashes: Hashes) -> TextHash {
    u64::from(hashes.g) << 32 | u64::from(hashes.f1)
}

/// The hash of an inline text.
pub(crate) fn hash_of_word(word: u64) -> TextHash {
    word
}

/// The hash in 32 bits.
pub(crate) fn short_hash(hash: TextHash) -> u32 {
    (hash >> 32) as u32 ^ hash as u32
}

pub(crate) fn write_hash(hash: TextHash, state: &mut impl Hasher) {
    state.write_u64(hash);
}

/// The atom of the empty text.
pub(crate) fn empty<Static: StaticAtomSet>() -> Atom<Static> {
    Atom::pack_inline(0, 0)
}
