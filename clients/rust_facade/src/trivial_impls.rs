//! What follows from an atom's text.

use crate::atom::Atom;
use crate::static_sets::StaticAtomSet;
use std::borrow::Cow;
use std::fmt;

impl<'a, Static: StaticAtomSet> From<&'a Atom<Static>> for Atom<Static> {
    fn from(atom: &'a Self) -> Self {
        atom.clone()
    }
}

impl<Static: StaticAtomSet> From<&'_ str> for Atom<Static> {
    fn from(string_to_add: &str) -> Self {
        Atom::from(Cow::Borrowed(string_to_add))
    }
}

impl<Static: StaticAtomSet> From<String> for Atom<Static> {
    fn from(string_to_add: String) -> Self {
        Atom::from(Cow::Owned(string_to_add))
    }
}

impl<Static: StaticAtomSet> PartialEq<str> for Atom<Static> {
    fn eq(&self, other: &str) -> bool {
        self.as_str() == other
    }
}

impl<Static: StaticAtomSet> PartialEq<Atom<Static>> for str {
    fn eq(&self, other: &Atom<Static>) -> bool {
        self == other.as_str()
    }
}

impl<Static: StaticAtomSet> PartialEq<String> for Atom<Static> {
    fn eq(&self, other: &String) -> bool {
        self.as_str() == other
    }
}

impl<Static: StaticAtomSet> AsRef<str> for Atom<Static> {
    fn as_ref(&self) -> &str {
        self
    }
}

impl<Static: StaticAtomSet> fmt::Display for Atom<Static> {
    fn fmt(&self, out: &mut fmt::Formatter<'_>) -> fmt::Result {
        fmt::Display::fmt(self.as_str(), out)
    }
}

impl<Static: StaticAtomSet> precomputed_hash::PrecomputedHash for Atom<Static> {
    fn precomputed_hash(&self) -> u32 {
        crate::shape::short_hash(self.get_hash())
    }
}

/// As its text.
#[cfg(feature = "serde_support")]
impl<Static: StaticAtomSet> serde::Serialize for Atom<Static> {
    fn serialize<S: serde::Serializer>(&self, serializer: S) -> Result<S::Ok, S::Error> {
        serializer.serialize_str(self)
    }
}

/// From a text.
#[cfg(feature = "serde_support")]
impl<'de, Static: StaticAtomSet> serde::Deserialize<'de> for Atom<Static> {
    fn deserialize<D: serde::Deserializer<'de>>(deserializer: D) -> Result<Self, D::Error> {
        deserializer.deserialize_str(OfText(std::marker::PhantomData))
    }
}

/// Reads the text of an atom.
#[cfg(feature = "serde_support")]
struct OfText<Static>(std::marker::PhantomData<Static>);

#[cfg(feature = "serde_support")]
impl<Static: StaticAtomSet> serde::de::Visitor<'_> for OfText<Static> {
    type Value = Atom<Static>;

    fn expecting(&self, out: &mut fmt::Formatter<'_>) -> fmt::Result {
        out.write_str("an Atom")
    }

    fn visit_str<E: serde::de::Error>(self, text: &str) -> Result<Atom<Static>, E> {
        Ok(text.into())
    }
}
