//! What other crates' traits ask of an atom: those of serde where the feature is on.

use string_cache::DefaultAtom;

#[test]
fn an_atom_has_its_hash_at_hand() {
    use precomputed_hash::PrecomputedHash;

    let atom = DefaultAtom::from("sentence");
    assert_eq!(atom.precomputed_hash(), 0xed02_e6f1 ^ 0x6c03_c165);
    assert_eq!((&atom).precomputed_hash(), atom.clone().precomputed_hash());
    assert_eq!(DefaultAtom::from("abc").precomputed_hash(), 0x6362_6131);
    assert_eq!(DefaultAtom::from("abcdefg").precomputed_hash(), 0x6362_6171 ^ 0x6766_6564);
}

#[cfg(feature = "serde_support")]
#[test]
fn an_atom_is_read_and_written_as_its_text() {
    use serde::de::value::{Error, StrDeserializer, StringDeserializer, U32Deserializer};
    use serde::de::IntoDeserializer;
    use serde::{Deserialize, Serialize};
    use std::fmt;

    /// Prints what an atom is written as.
    struct Written(DefaultAtom);
    impl fmt::Display for Written {
        fn fmt(&self, out: &mut fmt::Formatter<'_>) -> fmt::Result {
            self.0.serialize(out)
        }
    }
    for text in ["", "short", "a longer name", "日本語の長い名前"] {
        let lent: StrDeserializer<'_, Error> = text.into_deserializer();
        let owned: StringDeserializer<Error> = text.to_owned().into_deserializer();
        assert_eq!(DefaultAtom::deserialize(lent), Ok(text.into()));
        assert_eq!(DefaultAtom::deserialize(owned), Ok(text.into()));
        assert_eq!(Written(text.into()).to_string(), text);
    }
    let number: U32Deserializer<Error> = 7_u32.into_deserializer();
    let refused = DefaultAtom::deserialize(number).expect_err("no text");
    assert_eq!(refused.to_string(), "invalid type: integer `7`, expected an Atom");
}
