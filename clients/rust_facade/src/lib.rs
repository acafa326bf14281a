//! The calls of the crate `string_cache` 0.11, over proved tables behind locks: a program written for that crate compiles with this one in
//! its place.
//!
//! ```
//! use string_cache::DefaultAtom as Atom;
//!
//! let first = Atom::from("a longer name");
//! assert_eq!(first, Atom::from(format!("a longer {}", "name")));
//! assert_eq!(first.len(), 13);
//! ```
//!
//! What differs: an [`Atom`] has 16 bytes in place of 8, and a text is kept once by its table and once beside it, since a table lends none. The end
//! of a text's last atom waits for the lock of its table, as interning does. Want of memory panics, as in that crate. There is no measuring of memory.

mod atom;
mod dynamic_set;
mod shape;
mod static_sets;
mod trivial_impls;

pub use atom::Atom;
pub use static_sets::{EmptyStaticAtomSet, PhfStrSet, StaticAtomSet};

/// An atom with no static texts.
pub type DefaultAtom = Atom<EmptyStaticAtomSet>;
