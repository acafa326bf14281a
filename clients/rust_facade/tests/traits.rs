//! Which traits an atom has, and which it hasn't: each one more may leave it open to a compiler which one a program means. Both facades have this test.

use std::borrow::{Borrow, Cow};
use std::fmt::{Debug, Display};
use std::hash::{Hash, Hasher};
use std::ops::Deref;
use std::panic::{RefUnwindSafe, UnwindSafe};
use std::str::FromStr;
use string_cache::{Atom, DefaultAtom, EmptyStaticAtomSet};

/// Whether a type has all these traits.
macro_rules! has {
    ($of:ty: $($bounds:tt)+) => {{
        struct Of<T: ?Sized>(std::marker::PhantomData<T>);
        #[allow(dead_code)]
        trait Otherwise {
            const HAS: bool = false;
        }
        impl<T: ?Sized> Otherwise for T {}
        #[allow(dead_code)]
        impl<T: ?Sized + $($bounds)+> Of<T> {
            const HAS: bool = true;
        }
        <Of<$of>>::HAS
    }};
}

/// No static type.
struct Nothing;

#[test]
fn an_atom_has_the_traits_of_the_original() {
    assert!(has!(DefaultAtom: Clone + Debug + Default + Deref<Target = str> + Display + Hash + Ord));
    assert!(has!(DefaultAtom: Send + Sync + Unpin + UnwindSafe + RefUnwindSafe));
    assert!(has!(DefaultAtom: AsRef<str> + PartialEq<str> + PartialEq<String> + precomputed_hash::PrecomputedHash));
    assert!(has!(DefaultAtom: for<'a> From<&'a DefaultAtom> + for<'a> From<&'a str> + for<'a> From<Cow<'a, str>> + From<String>));
    assert!(has!(str: PartialEq<DefaultAtom>));
    assert!(has!(EmptyStaticAtomSet: Ord));
}

#[test]
fn an_atom_has_no_others() {
    assert!(!has!(DefaultAtom: Copy) && !has!(DefaultAtom: Borrow<str>) && !has!(DefaultAtom: PartialOrd<str>));
    assert!(!has!(DefaultAtom: PartialEq<&'static str>) && !has!(DefaultAtom: PartialEq<Cow<'static, str>>));
    assert!(!has!(&'static str: PartialEq<DefaultAtom>) && !has!(String: PartialEq<DefaultAtom>) && !has!(String: From<DefaultAtom>));
    assert!(!has!(DefaultAtom: From<&'static String>) && !has!(DefaultAtom: From<Box<str>>) && !has!(DefaultAtom: FromStr));
    assert!(!has!(Atom<Nothing>: Clone) && !has!(Atom<Nothing>: PartialEq) && !has!(Atom<Nothing>: Debug));
    assert!(!has!(EmptyStaticAtomSet: Clone) && !has!(EmptyStaticAtomSet: Debug));
}

/// What is written to a hasher.
#[derive(Default)]
struct Written(Vec<u8>);

impl Hasher for Written {
    fn write(&mut self, bytes: &[u8]) {
        self.0.extend(bytes);
    }
    fn finish(&self) -> u64 {
        0
    }
}

/// A number of as many bits as `get_hash` gives.
#[test]
fn an_atom_hashes_as_its_number() {
    for text in ["", "short", "a longer name"] {
        let (atom, mut written) = (DefaultAtom::from(text), Written::default());
        atom.hash(&mut written);
        assert_eq!(written.0, atom.get_hash().to_ne_bytes());
    }
}

#[test]
fn the_empty_text_has_a_hash_of_its_own() {
    let empty = DefaultAtom::try_static("").expect("a static text");
    assert_eq!(u64::from(empty.get_hash()), 0x3ddd_def3);
}
