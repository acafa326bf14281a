//! What `string_cache` 0.11 and 0.8 do differently, as 0.8 does it: hashes of 32 bits, a text that is listed is static, however short it is, and an
//! atom has one `as_ref`, which lends its text, so that nothing has to say which is meant.

use crate::atom::Atom;
use crate::static_sets::StaticAtomSet;
use interned_names::Hashes;
use std::hash::Hasher;

/// What `get_hash` answers.
pub(crate) type TextHash = u32;

/// Whether a text that is listed is static, even if it has at most 7 bytes.
pub(crate) const STATIC_BEFORE_INLINE: bool = true;

/// The hash of a text that is in no word.
pub(crate) fn hash_of_text(hashes: Hashes) -> TextHash {
    hashes.g
}

/// The hash of an inline text.
pub(crate) fn hash_of_word(word: u64) -> TextHash {
    (word >> 32) as u32 ^ word as u32
}

/// The hash in 32 bits.
pub(crate) fn short_hash(hash: TextHash) -> u32 {
    hash
}

pub(crate) fn write_hash(hash: TextHash, state: &mut impl Hasher) {
    state.write_u32(hash);
}

/// The atom of the empty text, which is listed.
pub(crate) fn empty<Static: StaticAtomSet>() -> Atom<Static> {
    Atom::pack_static(Static::empty_string_index())
}
