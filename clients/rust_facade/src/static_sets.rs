//! Texts that are known when the program is built.

use crate::shape::TextHash;
use interned_names::Hashes;

/// A static type: what atoms with the same static texts have in common.
pub trait StaticAtomSet: Ord {
    /// Its static tables.
    fn get() -> &'static PhfStrSet;

    /// The index of the empty text, if the tables list it.
    fn empty_string_index() -> u32 {
        0
    }
}

/// Static tables: a perfect hash of texts, by the key, a pair of displacements for each bucket, the texts and their hashes.
pub struct PhfStrSet {
    #[doc(hidden)]
    pub key: u64,
    #[doc(hidden)]
    pub disps: &'static [(u32, u32)],
    #[doc(hidden)]
    pub atoms: &'static [&'static str],
    #[doc(hidden)]
    pub hashes: &'static [TextHash],
}

impl PhfStrSet {
    /// The index of a text that is listed. The hashes are the text's under the key.
    pub(crate) fn index_of(&self, text: &str, hashes: Hashes) -> Option<u32> {
        let (first, second) = self.disps[hashes.g as usize % self.disps.len()];
        let place = hashes.f1.wrapping_mul(first).wrapping_add(second).wrapping_add(hashes.f2);
        let index = place as usize % self.atoms.len();
        (self.atoms[index] == text).then_some(index as u32)
    }
}

/// The static type with no text but the empty one.
#[derive(PartialEq, Eq, PartialOrd, Ord)]
pub struct EmptyStaticAtomSet;

impl StaticAtomSet for EmptyStaticAtomSet {
    fn get() -> &'static PhfStrSet {
        // As in the original the hash is none under this key: programs may have stored it.
        static ONE_TEXT: PhfStrSet = PhfStrSet { key: 0, disps: &[(0, 0)], atoms: &[""], hashes: &[0x3ddd_def3] };
        &ONE_TEXT
    }
}
