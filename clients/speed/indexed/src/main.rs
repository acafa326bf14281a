//! The same by hashbrown's map, with its own hash, and by indexmap's set, which has texts by their places.
//!
//! usage: indexed [TEXTS [hashbrown|indexmap]]

#[path = "../../measure.rs"]
mod measure;

use measure::{texts_of, Watch};
use std::env;

fn hashbrown(texts: &[String]) {
    let mut watch = Watch::new("hashbrown", texts.len());
    let mut numbers: hashbrown::HashMap<Box<str>, u32> = hashbrown::HashMap::new();
    for (at, text) in texts.iter().enumerate() {
        if !numbers.contains_key(text.as_str()) {
            numbers.insert(text.as_str().into(), at as u32);
        }
    }
    watch.tell_new();
    assert!(texts.iter().enumerate().all(|(at, text)| numbers[text.as_str()] == at as u32));
    watch.tell("there");
    drop(numbers);
    watch.tell("close");
}

fn indexmap(texts: &[String]) {
    let mut watch = Watch::new("indexmap", texts.len());
    let mut names: indexmap::IndexSet<Box<str>> = indexmap::IndexSet::new();
    for text in texts {
        if !names.contains(text.as_str()) {
            names.insert(text.as_str().into());
        }
    }
    watch.tell_new();
    assert!(texts.iter().enumerate().all(|(at, text)| names.get_index_of(text.as_str()) == Some(at)));
    watch.tell("there");
    assert!(texts.iter().enumerate().all(|(at, text)| names[at].len() == text.len()));
    watch.tell("text");
    drop(names);
    watch.tell("close");
}

fn main() {
    let count = env::args().nth(1).map_or(1_000_000, |word| word.parse().expect("a number of texts"));
    let texts = texts_of(count);
    match env::args().nth(2).as_deref() {
        Some("indexmap") => indexmap(&texts),
        _ => hashbrown(&texts),
    }
}
