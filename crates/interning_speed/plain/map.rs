//! A map for one thread, from texts to numbers, and a list of the texts for the way back. It never forgets a text.

use crate::say;
use crate::texts::Texts;
use std::collections::HashMap;
use std::time::Instant;

/// A number for each text.
#[derive(Default)]
struct Interner {
    numbers: HashMap<Box<str>, u32>,
    texts: Vec<Box<str>>,
}

impl Interner {
    fn intern(&mut self, text: &str) -> u32 {
        if let Some(number) = self.numbers.get(text) {
            return *number;
        }
        let number = self.texts.len() as u32;
        self.texts.push(text.into());
        self.numbers.insert(text.into(), number);
        number
    }

    fn timed(&mut self, name: &str, texts: &[String]) {
        let mut numbers = Vec::with_capacity(texts.len());
        let start = Instant::now();
        for text in texts {
            numbers.push(self.intern(text));
        }
        say(name, texts.len(), numbers.len(), start.elapsed());
    }
}

pub fn table(texts: &Texts) {
    let mut interner = Interner::default();
    interner.timed("intern of a new text", &texts.first);
    interner.timed("intern of a text that is there", &texts.again);
    assert_eq!(
        interner.texts.len(),
        texts.first.len(),
        "each text is new once"
    );
}
