//! The same by std's map with an owned text as its key, and by an interner of a map and a list over shared texts.
//!
//! usage: plain [TEXTS [map|interner]]

mod measure;

use measure::{texts_of, Watch};
use std::collections::HashMap;
use std::env;
use std::rc::Rc;

/// A map from texts to numbers, and no way back.
fn map(texts: &[String]) {
    let mut watch = Watch::new("map", texts.len());
    let mut numbers: HashMap<Box<str>, u32> = HashMap::new();
    for (at, text) in texts.iter().enumerate() {
        if !numbers.contains_key(text.as_str()) {
            numbers.insert(text.as_str().into(), at as u32);
        }
    }
    watch.tell_new();
    assert!(texts.iter().enumerate().all(|(at, text)| numbers[text.as_str()] == at as u32));
    watch.tell("there");
    drop(numbers);
    watch.tell("close");
}

/// Numbers by texts and texts by numbers, over one text each.
fn interner(texts: &[String]) {
    let mut watch = Watch::new("interner", texts.len());
    let (mut numbers, mut names) = (HashMap::<Rc<str>, u32>::new(), Vec::<Rc<str>>::new());
    for text in texts {
        if !numbers.contains_key(text.as_str()) {
            let shared: Rc<str> = text.as_str().into();
            numbers.insert(Rc::clone(&shared), names.len() as u32);
            names.push(shared);
        }
    }
    watch.tell_new();
    assert!(texts.iter().enumerate().all(|(at, text)| numbers[text.as_str()] == at as u32));
    watch.tell("there");
    assert!(texts.iter().enumerate().all(|(at, text)| *names[at] == **text));
    watch.tell("text");
    drop((numbers, names));
    watch.tell("close");
}

fn main() {
    let count = env::args().nth(1).map_or(1_000_000, |word| word.parse().expect("a number of texts"));
    let texts = texts_of(count);
    match env::args().nth(2).as_deref() {
        Some("interner") => interner(&texts),
        _ => map(&texts),
    }
}
