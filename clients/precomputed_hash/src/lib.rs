//! The trait of the crate `precomputed-hash` 0.1.

/// Values that have a hash of 32 bits at hand.
pub trait PrecomputedHash {
    /// The hash. Equal values have equal ones.
    fn precomputed_hash(&self) -> u32;
}

impl<T: PrecomputedHash> PrecomputedHash for &T {
    fn precomputed_hash(&self) -> u32 {
        T::precomputed_hash(self)
    }
}

impl<T: PrecomputedHash> PrecomputedHash for &mut T {
    fn precomputed_hash(&self) -> u32 {
        T::precomputed_hash(self)
    }
}
